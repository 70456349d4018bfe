//! Directive files: converted, and their routines planned and run.

use super::{Compared, Driver, too_long};
use crate::library::{Input, ORACLE, converted};
use oracle::builder::{Draft, path_bytes};
use oracle::directives::Program;
use oracle::directives::figures::FIGURES;
use oracle::generate::damage::{every_byte, every_length};
use oracle::generate::directives::{
    self, EVERY_STATEMENT, EXAMPLE, NAMED, REFUSALS, REMAPS_NOTHING, Size, damage, limits,
};
use oracle::generate::paths;
use oracle::generate::rng::Rng;

/// Directive files with a name.
pub fn named_directives() -> Vec<Program> {
    let named = FIGURES.iter();
    named
        .chain(&[EXAMPLE, EVERY_STATEMENT, REMAPS_NOTHING])
        .map(|figure| figure.program())
        .collect()
}

/// Small files of every statement that are damaged at every byte.
fn small(seed: u64) -> Vec<Program> {
    let mut rng = Rng::new(seed);
    let size = Size {
        vertices: 6,
        templates: 2,
        arrays: 2,
        spreads: 3,
    };
    vec![
        EXAMPLE.program(),
        EVERY_STATEMENT.program(),
        directives::accepted(&mut rng, size),
    ]
}

/// Files at each limit, the mappings of an array among them, and beyond.
fn at_limits(rng: &mut Rng) -> Vec<Program> {
    let mut programs = vec![
        limits::smallest(),
        limits::largest(),
        limits::directives_everywhere(),
        limits::directives_against_numbers(),
    ];
    for mappings in [16, 17, 31, 32, 33] {
        programs.push(limits::by_redistributes(mappings));
        programs.push(limits::by_realigns(mappings));
        programs.push(limits::with_unreached(limits::by_redistributes(mappings)));
    }
    programs.extend([2, 3, 17, 32, 33].map(limits::by_ways));
    programs.extend(limits::large(rng));
    programs.extend(limits::beyond().into_iter().map(|(program, _)| program));
    programs
}

/// The size of a file that is drawn: mostly small, and seldom at the limits.
fn any_size(rng: &mut Rng) -> Size {
    match rng.below(50) {
        0 => Size::any(rng),
        1..=9 => Size {
            vertices: rng.between(10, 40),
            templates: rng.between(1, 8),
            arrays: rng.between(1, 8),
            spreads: rng.between(2, 8),
        },
        _ => Size::small(rng),
    }
}

/// A file that is accepted, and the parts of its routine.
fn accepted(rng: &mut Rng) -> (Program, Draft) {
    let mut program = match rng.below(20) {
        0 | 1 => directives::many_mappings(rng),
        2..=10 => {
            let size = any_size(rng);
            directives::program(rng, size)
        }
        _ => {
            let figure = rng.pick(&NAMED);
            directives::varied(rng, &figure)
        }
    };
    directives::make_acceptable(rng, &mut program);
    let routine = converted(&ORACLE, &program.bytes()).expect("it was made acceptable");
    let draft = Draft::from_bytes(&routine).expect("a converted routine has parts");
    (program, draft)
}

/// A file with two fields that are wrong, perhaps cut.
fn two_faults(rng: &mut Rng) -> Vec<u8> {
    let size = Size::small(rng);
    let program = directives::program(rng, size);
    let mut file = program.bytes();
    for _ in 0..2 {
        damage::any(rng, &program).apply(&mut file);
    }
    if rng.chance(20) {
        file.truncate(rng.below(file.len()));
    }
    file
}

impl Driver<'_> {
    pub(super) fn named_conversions(&mut self) -> Compared {
        let inputs = named_directives().into_iter();
        let inputs = inputs.map(|program| Input::convert(program.bytes()));
        self.try_all("conversion, named", inputs)
    }

    pub(super) fn conversions_at_limits(&mut self) -> Compared {
        let programs = at_limits(&mut Rng::new(self.options.seed));
        let inputs = programs.iter().map(|program| program.bytes());
        self.try_all("conversion, limits", inputs.map(Input::convert))?;
        // The largest file cut, and with a byte too many.
        let largest = limits::largest().bytes();
        let longer = [&largest[..], &[0]].concat();
        let inputs = (0..longer.len()).rev().step_by(97);
        let cut = inputs.map(|length| longer[..length].to_vec());
        let inputs = [longer.clone()].into_iter().chain(cut);
        self.try_all("conversion, largest cut", inputs.map(Input::convert))?;
        let inputs = too_long(&EXAMPLE.program().bytes()).map(Input::convert);
        self.try_all("conversion, far too long", inputs.into_iter())
    }

    pub(super) fn small_conversions(&mut self) -> Compared {
        let inputs = directives::all_of_four_vertices();
        let inputs = inputs.map(|program| Input::convert(program.bytes()));
        self.try_all("conversion, all of four vertices", inputs)
    }

    pub(super) fn damaged_conversions(&mut self) -> Compared {
        for program in small(self.options.seed) {
            let file = program.bytes();
            let inputs = every_byte(&file).map(Input::convert);
            self.try_all("conversion, every byte damaged", inputs)?;
        }
        for program in named_directives() {
            let file = program.bytes();
            let inputs = every_length(&file).map(Input::convert);
            self.try_all("conversion, every length", inputs)?;
            let faults = damage::faults(&program);
            let inputs = faults.iter().map(|fault| fault.file(&program));
            self.try_all("conversion, one field wrong", inputs.map(Input::convert))?;
        }
        Ok(())
    }

    pub(super) fn random_conversions(&mut self) -> Compared {
        for index in 0..self.options.conversions {
            let mut rng = Rng::for_input(self.options.seed, index);
            let size = any_size(&mut rng);
            let (kind, file) = match index % 10 {
                0..=2 => (
                    "conversion, as drawn",
                    directives::program(&mut rng, size).bytes(),
                ),
                3 if index / 10 % 2 == 1 => {
                    let program = directives::many_mappings(&mut rng);
                    ("conversion, many mappings", program.bytes())
                }
                3 => {
                    let gaps = rng.below(60);
                    let program = directives::chain(&mut rng, size, gaps);
                    ("conversion, chain with gaps", program.bytes())
                }
                4 | 5 => {
                    let figure = rng.pick(&NAMED);
                    let program = directives::varied(&mut rng, &figure);
                    ("conversion, named and varied", program.bytes())
                }
                6 | 7 => {
                    let (program, _) = accepted(&mut rng);
                    ("conversion, made acceptable", program.bytes())
                }
                8 => {
                    let number = rng.pick(&REFUSALS);
                    let file = directives::refused(&mut rng, number, any_size);
                    ("conversion, refused by number", file)
                }
                _ => ("conversion, two fields wrong", two_faults(&mut rng)),
            };
            self.try_drawn(kind, index, &Input::convert(file))?;
        }
        Ok(())
    }

    /// What is converted is planned, and run along a path.
    pub(super) fn random_converted_runs(&mut self) -> Compared {
        for index in 0..self.options.conversions {
            // Another seed than for conversions, so that the files differ.
            let mut rng = Rng::for_input(!self.options.seed, index);
            let (kind, file, path) = match index % 10 {
                0 => {
                    let number = rng.pick(&REFUSALS);
                    let file = directives::refused(&mut rng, number, any_size);
                    ("converted run, refused directives", file, vec![0, 0])
                }
                1 => {
                    let (program, draft) = accepted(&mut rng);
                    let path = paths::damaged(&mut rng, &draft);
                    ("converted run, damaged path", program.bytes(), path)
                }
                2..=4 => {
                    let (program, draft) = accepted(&mut rng);
                    let path = path_bytes(&paths::to_exit(&mut rng, &draft));
                    ("converted run, path to the exit", program.bytes(), path)
                }
                _ => {
                    let (program, draft) = accepted(&mut rng);
                    let path = path_bytes(&paths::any(&mut rng, &draft));
                    ("converted run, path along edges", program.bytes(), path)
                }
            };
            if let Ok(routine) = converted(self.library, &file) {
                self.try_one("plan, converted", index, &Input::plan(routine))?;
            }
            self.try_drawn(kind, index, &Input::convert_and_run(file, path))?;
        }
        Ok(())
    }
}
