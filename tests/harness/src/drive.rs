//! The whole comparison: which inputs are tried, in which order.

mod conversions;

use crate::check::{Checked, Fault, check};
use crate::library::{Input, Library};
use crate::shrink::shrink;
use crate::tally::Tally;
use oracle::builder::{self, Draft, path_bytes};
use oracle::calls::is_call;
use oracle::generate::rng::Rng;
use oracle::generate::routines::{self, Size};
use oracle::generate::{damage, limits, paths};
use oracle::run::MAX_PATH;
use std::panic::resume_unwind;
use std::thread;

pub use conversions::named_directives;

/// What a comparison tries.
#[derive(Clone, Copy, Debug)]
pub struct Options {
    /// Random routines that are planned.
    pub routines: u64,
    /// Random paths that are run.
    pub paths: u64,
    /// Random directive files that are converted, and as many that are converted and run.
    pub conversions: u64,
    pub seed: u64,
}

/// An input on which library and oracle differ, made small.
#[derive(Debug)]
pub struct Mismatch {
    pub seed: u64,
    pub kind: &'static str,
    /// Number of the input within its kind; for a drawn one that of its draw.
    pub index: u64,
    pub input: Input,
    pub fault: Fault,
}

type Compared<T = ()> = Result<T, Box<Mismatch>>;

struct Driver<'a> {
    library: &'a Library,
    options: Options,
    tally: Tally,
}

/// Compares a library with the oracle on all inputs: plans with their rounds, runs and conversions
/// at the same time, each in a thread up to its first mismatch.
pub fn compare(library: &Library, options: Options) -> Compared<Tally> {
    let all = thread::scope(|scope| {
        [compare_plans, compare_runs, compare_conversions]
            .map(|compare| scope.spawn(move || compare(library, options)))
            .map(|thread| thread.join().unwrap_or_else(|panic| resume_unwind(panic)))
    });
    let mut tally = Tally::default();
    for part in all {
        tally.add(&part?);
    }
    Ok(tally)
}

/// Compares the plans of a library and their rounds with the oracle's.
pub fn compare_plans(library: &Library, options: Options) -> Compared<Tally> {
    let mut driver = Driver::new(library, options);
    driver.named_plans()?;
    driver.plans_at_limits()?;
    driver.random_plans()?;
    driver.small_plans()?;
    driver.damaged_plans()?;
    Ok(driver.tally)
}

/// Compares the runs of a library with the oracle's.
pub fn compare_runs(library: &Library, options: Options) -> Compared<Tally> {
    let mut driver = Driver::new(library, options);
    driver.named_runs()?;
    driver.runs_at_limits()?;
    driver.random_runs()?;
    driver.small_runs()?;
    driver.damaged_runs()?;
    Ok(driver.tally)
}

/// Compares the conversions of a library with the oracle's, and its runs of what it converted.
pub fn compare_conversions(library: &Library, options: Options) -> Compared<Tally> {
    let mut driver = Driver::new(library, options);
    driver.named_conversions()?;
    driver.random_conversions()?;
    driver.random_converted_runs()?;
    driver.small_conversions()?;
    driver.damaged_conversions()?;
    driver.conversions_at_limits()?;
    Ok(driver.tally)
}

/// Compares a library with the oracle on a part of the inputs: with a name, empty, at the
/// limits, and drawn.
pub fn compare_part(library: &Library, options: Options) -> Compared<Tally> {
    let mut driver = Driver::new(library, options);
    driver.empty()?;
    driver.named_plans()?;
    driver.plans_at_limits()?;
    driver.random_plans()?;
    driver.named_runs()?;
    driver.runs_at_limits()?;
    driver.random_runs()?;
    driver.named_conversions()?;
    driver.conversions_at_limits()?;
    driver.random_conversions()?;
    Ok(driver.tally)
}

/// Routines with a name, each with paths.
pub fn named() -> Vec<(Draft, Vec<Vec<u16>>)> {
    vec![
        (
            builder::p(),
            vec![
                vec![0, 1, 2, 3, 4, 5, 6, 2, 3],
                vec![0, 1, 2, 3, 4, 5, 6, 7],
                vec![0, 2],
            ],
        ),
        (
            builder::q(),
            vec![
                vec![0, 1, 3, 4],
                vec![0, 1, 2, 3, 4],
                vec![0, 1, 3, 4, 5],
                vec![0, 1, 2, 3, 4, 5],
            ],
        ),
        (builder::s(), vec![vec![0, 1, 2, 3, 4], vec![0]]),
        (builder::t(), vec![vec![0, 1, 2, 3], vec![]]),
        (builder::t_without_read(), vec![vec![0, 2, 3]]),
        (
            builder::u(),
            vec![vec![0, 1, 2, 3, 4, 5, 6], vec![0, 1, 2, 3, 4, 5, 6, 7]],
        ),
        (
            builder::z(),
            vec![
                vec![0, 1, 2, 3, 4],
                vec![0, 1, 2, 3],
                vec![0, 1, 2, 3, 4, 5],
            ],
        ),
        (
            builder::read_only(),
            vec![vec![0, 1, 2], vec![0, 1, 2, 3], vec![0]],
        ),
        (
            builder::call(),
            vec![
                vec![0, 1, 2, 3, 4, 5, 6, 7],
                vec![0, 1, 2, 3, 4, 5, 6],
                vec![0, 1, 2, 3, 4, 5],
                vec![0, 1, 2, 3, 4],
                vec![0, 1, 2, 3],
                vec![0, 1, 2, 3, 5],
                vec![0, 1, 2, 6],
            ],
        ),
        (
            builder::calls_in_a_loop(),
            vec![
                vec![0, 1, 2, 3, 4, 5, 6, 7, 8, 9, 10, 5, 6, 7, 8],
                vec![0, 1, 2, 3, 4, 5, 6, 7, 8, 9, 10, 11, 4, 5, 6],
                vec![0, 1, 2, 3, 4, 5, 6, 7, 8, 9, 10, 11, 12],
            ],
        ),
        (builder::ambiguous_call(), vec![vec![0, 2, 3, 4, 5]]),
        (
            builder::call_beside_two_versions(),
            vec![vec![0, 1, 2, 3, 4, 5], vec![0, 2, 3]],
        ),
        (builder::ambiguous_behind_a_call(2), vec![vec![0]]),
        (builder::ambiguous_behind_a_call(3), vec![vec![0]]),
        (
            builder::unreached_call(builder::call_in),
            vec![vec![0, 1, 2, 3, 4], vec![0, 1, 2, 3, 4, 9]],
        ),
        (builder::unreached_call(builder::call_out), vec![vec![0]]),
    ]
}

/// Those of the routines with a name whose files are damaged at every byte: all without calls, and
/// three with them.
fn damaged() -> Vec<(Draft, Vec<Vec<u16>>)> {
    let calls = [
        builder::call(),
        builder::calls_in_a_loop(),
        builder::ambiguous_call(),
    ];
    let is_damaged = |draft: &Draft| {
        let without_calls = !draft.rows.iter().any(|row| is_call(row));
        without_calls || calls.contains(draft)
    };
    let named = named().into_iter();
    named.filter(|(draft, _)| is_damaged(draft)).collect()
}

/// Small routines whose files are damaged at every byte: those with a name, and some of several
/// arrays.
fn small(seed: u64) -> Vec<Draft> {
    let size = Size {
        vertices: 6,
        arrays: 3,
        versions: 4,
        calls: 0,
    };
    let with_calls = Size {
        vertices: 10,
        calls: 50,
        ..size
    };
    let mut rng = Rng::new(seed);
    let mut drafts: Vec<Draft> = damaged().into_iter().map(|(draft, _)| draft).collect();
    for size in [size, size, with_calls, with_calls] {
        drafts.push(routines::accepted(&mut rng, size));
    }
    drafts
}

/// Bytes with 65,536 further ones, twice and four times as many: a length of 16 bits, in bytes or
/// in vertices, does not show them.
fn too_long(bytes: &[u8]) -> [Vec<u8>; 3] {
    [1, 2, 4].map(|times| {
        let mut longer = bytes.to_vec();
        longer.resize(bytes.len() + times * 65_536, 0);
        longer
    })
}

impl Driver<'_> {
    fn new(library: &Library, options: Options) -> Driver<'_> {
        Driver {
            library,
            options,
            tally: Tally::default(),
        }
    }

    /// What is planned is also asked for its rounds.
    fn try_one(&mut self, kind: &'static str, index: u64, input: &Input) -> Compared<Checked> {
        let checked = self.check(kind, index, input)?;
        self.tally.count(kind, input, &checked);
        if let Input::Plan { routine } = input {
            let input = Input::rounds(routine.clone());
            let rounds = self.check(kind, index, &input)?;
            self.tally
                .count("rounds of what is planned", &input, &rounds);
        }
        Ok(checked)
    }

    fn check(&self, kind: &'static str, index: u64, input: &Input) -> Compared<Checked> {
        check(self.library, input).map_err(|fault| self.mismatch(kind, index, input, *fault))
    }

    fn try_all(&mut self, kind: &'static str, inputs: impl Iterator<Item = Input>) -> Compared {
        let before = self.tally.kinds.get(kind).copied().unwrap_or(0);
        for (index, input) in (before..).zip(inputs) {
            self.try_one(kind, index, &input)?;
        }
        Ok(())
    }

    fn try_drawn(&mut self, kind: &'static str, index: u64, input: &Input) -> Compared {
        let checked = self.try_one(kind, index, input)?;
        let Checked {
            answer, written, ..
        } = &checked;
        self.tally.drawn.count(input, *answer, written);
        Ok(())
    }

    /// The small input, or the first one if no smaller fails again.
    fn mismatch(
        &self,
        kind: &'static str,
        index: u64,
        input: &Input,
        fault: Fault,
    ) -> Box<Mismatch> {
        let small = shrink(input.clone(), &|input| check(self.library, input).is_err());
        let (input, fault) = match check(self.library, &small) {
            Err(fault) => (small, *fault),
            Ok(_) => (input.clone(), fault),
        };
        Box::new(Mismatch {
            seed: self.options.seed,
            kind,
            index,
            input,
            fault,
        })
    }

    /// The file, the path or both are empty.
    fn empty(&mut self) -> Compared {
        let inputs = [
            Input::plan(vec![]),
            Input::convert(vec![]),
            Input::run(vec![], vec![]),
            Input::run(vec![], path_bytes(&[0])),
            Input::run(builder::p().bytes(), vec![]),
        ];
        self.try_all("empty", inputs.into_iter())
    }

    fn named_plans(&mut self) -> Compared {
        let inputs = named()
            .into_iter()
            .map(|(draft, _)| Input::plan(draft.bytes()));
        self.try_all("plan, named", inputs)
    }

    fn plans_at_limits(&mut self) -> Compared {
        let mut rng = Rng::new(self.options.seed);
        let mut drafts = limits::at_limits(&mut rng);
        drafts.extend(limits::beyond_limits());
        let inputs = drafts.iter().map(|draft| Input::plan(draft.bytes()));
        self.try_all("plan, limits", inputs)?;
        let inputs = too_long(&builder::p().bytes()).map(Input::plan);
        self.try_all("plan, far too long", inputs.into_iter())
    }

    fn small_plans(&mut self) -> Compared {
        let inputs = routines::all_of_four_vertices().map(|draft| Input::plan(draft.bytes()));
        self.try_all("plan, all of four vertices", inputs)
    }

    fn damaged_plans(&mut self) -> Compared {
        for draft in small(self.options.seed) {
            let file = draft.bytes();
            let inputs = damage::every_byte(&file).map(Input::plan);
            self.try_all("plan, every byte damaged", inputs)?;
            let inputs = damage::every_length(&file).map(Input::plan);
            self.try_all("plan, every length", inputs)?;
        }
        let inputs = damage::all_of_two_rows().map(Input::plan);
        self.try_all("plan, all of two rows", inputs)
    }

    fn random_plans(&mut self) -> Compared {
        for index in 0..self.options.routines {
            let mut rng = Rng::for_input(self.options.seed, index);
            let size = Size::any(&mut rng);
            let (kind, file) = match index % 10 {
                0 => {
                    let draft = routines::every_kind(&mut rng, 80);
                    ("plan, two arrays of each kind", draft.bytes())
                }
                1 => {
                    let draft = routines::read_only(&mut rng, size);
                    ("plan, in arguments", draft.bytes())
                }
                2 => {
                    let mut draft = routines::program(&mut rng, size);
                    routines::make_acceptable(&mut rng, &mut draft);
                    ("plan, program made acceptable", draft.bytes())
                }
                3 | 4 => (
                    "plan, program as drawn",
                    routines::program(&mut rng, size).bytes(),
                ),
                5 => {
                    let mut draft = routines::any_graph(&mut rng, size);
                    routines::make_acceptable(&mut rng, &mut draft);
                    ("plan, graph made acceptable", draft.bytes())
                }
                6 => (
                    "plan, graph as drawn",
                    routines::any_graph(&mut rng, size).bytes(),
                ),
                7 | 8 => {
                    let number = rng.pick(&damage::FILE_REFUSALS);
                    ("plan, refused by number", damage::refused(&mut rng, number))
                }
                _ => ("plan, several faults", damage::several_faults(&mut rng)),
            };
            self.try_drawn(kind, index, &Input::plan(file))?;
        }
        Ok(())
    }

    fn named_runs(&mut self) -> Compared {
        for (draft, paths) in named() {
            let inputs = paths
                .iter()
                .map(|path| Input::run(draft.bytes(), path_bytes(path)));
            self.try_all("run, named", inputs)?;
        }
        Ok(())
    }

    fn runs_at_limits(&mut self) -> Compared {
        let kind = "run, limits";
        let longest = limits::longest_path();
        let mut longer = longest.clone();
        longer.push(1);
        let mut odd = path_bytes(&longest);
        odd.push(1);
        for draft in [
            limits::largest_report(),
            limits::largest_with_kills(),
            limits::largest_plan(),
        ] {
            let paths = [path_bytes(&longest), path_bytes(&longer), odd.clone()];
            let inputs = paths.map(|path| Input::run(draft.bytes(), path));
            self.try_all(kind, inputs.into_iter())?;
        }
        for (draft, path) in [
            (limits::ring_of_labels(), limits::round_the_ring()),
            (limits::longest_report(), limits::longest_stay()),
        ] {
            let input = Input::run(draft.bytes(), path_bytes(&path));
            self.try_all(kind, std::iter::once(input))?;
        }
        let mut rng = Rng::new(self.options.seed);
        let drafts = limits::at_limits(&mut rng);
        let inputs = drafts.iter().map(|draft| {
            let path = paths::walk(&mut rng, draft, MAX_PATH);
            Input::run(draft.bytes(), path_bytes(&path))
        });
        self.try_all(kind, inputs)?;
        self.runs_far_too_long()
    }

    /// A file, and a path, that is accepted if its length is cut to 16 bits.
    fn runs_far_too_long(&mut self) -> Compared {
        let kind = "run, far too long";
        let file = builder::p().bytes();
        let path = path_bytes(&[0, 1, 2, 3, 4, 5, 6, 2, 3]);
        let inputs = too_long(&file).map(|file| Input::run(file, path.clone()));
        self.try_all(kind, inputs.into_iter())?;
        let inputs = too_long(&path).map(|path| Input::run(file.clone(), path));
        self.try_all(kind, inputs.into_iter())
    }

    /// One path through each routine of four vertices.
    fn small_runs(&mut self) -> Compared {
        let mut rng = Rng::new(self.options.seed);
        let inputs = routines::all_of_four_vertices().map(|draft| {
            let wanted = rng.between(2, 8);
            let path = paths::walk(&mut rng, &draft, wanted);
            Input::run(draft.bytes(), path_bytes(&path))
        });
        self.try_all("run, all of four vertices", inputs)
    }

    /// Every byte and length of the routines with a name and a path of each, and of the path.
    fn damaged_runs(&mut self) -> Compared {
        for (draft, paths) in damaged() {
            let file = draft.bytes();
            let path = path_bytes(&paths[0]);
            let run = |file| Input::run(file, path.clone());
            self.try_all(
                "run, every byte damaged",
                damage::every_byte(&file).map(run),
            )?;
            self.try_all("run, every length", damage::every_length(&file).map(run))?;
            let run = |path| Input::run(file.clone(), path);
            self.try_all(
                "run, every path byte damaged",
                damage::every_byte(&path).map(run),
            )?;
            self.try_all(
                "run, every path length",
                damage::every_length(&path).map(run),
            )?;
        }
        Ok(())
    }

    fn random_runs(&mut self) -> Compared {
        for index in 0..self.options.paths {
            // Another seed than for plans, so that the routines differ.
            let mut rng = Rng::for_input(!self.options.seed, index);
            let size = Size::any(&mut rng);
            let (kind, file, path) = match index % 10 {
                0 => {
                    let draft = routines::every_kind(&mut rng, 80);
                    let path = path_bytes(&paths::any(&mut rng, &draft));
                    ("run, two arrays of each kind", draft.bytes(), path)
                }
                1 | 2 => {
                    let draft = routines::read_only(&mut rng, size);
                    let path = path_bytes(&paths::to_exit(&mut rng, &draft));
                    ("run, in arguments to the exit", draft.bytes(), path)
                }
                3..=5 => {
                    let draft = routines::accepted(&mut rng, size);
                    let path = path_bytes(&paths::any(&mut rng, &draft));
                    ("run, path along edges", draft.bytes(), path)
                }
                6 => {
                    let draft = routines::accepted(&mut rng, size);
                    let path = path_bytes(&paths::into_call(&mut rng, &draft));
                    ("run, path into a call", draft.bytes(), path)
                }
                7 | 8 => {
                    let draft = routines::accepted(&mut rng, size);
                    let path = paths::damaged(&mut rng, &draft);
                    ("run, damaged path", draft.bytes(), path)
                }
                _ => {
                    let number = rng.pick(&damage::FILE_REFUSALS);
                    let file = damage::refused(&mut rng, number);
                    let path = (0..rng.below(12)).map(|_| rng.below(3) as u8).collect();
                    ("run, refused routine", file, path)
                }
            };
            self.try_drawn(kind, index, &Input::run(file, path))?;
        }
        Ok(())
    }
}
