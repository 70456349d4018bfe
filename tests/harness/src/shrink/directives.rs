//! Directive files, and paths through them.

use super::{Shrinker, drop_exit, drop_vertex};
use crate::library::Input;
use oracle::builder::{LOCAL, READ, path_bytes};
use oracle::directives::{Alignment, Dimension, Mapping, Program, Statement, file};
use oracle::run::vertices;

/// Spreads, the simplest first.
const SIMPLE: [Mapping; 4] = [
    Mapping(Dimension::NotSpread, Dimension::NotSpread),
    Mapping(Dimension::Block, Dimension::NotSpread),
    Mapping(Dimension::Block, Dimension::Block),
    Mapping(Dimension::Cyclic(1), Dimension::NotSpread),
];

#[derive(Clone)]
struct Parts {
    program: Result<Program, Vec<u8>>,
    path: Option<Vec<u16>>,
}

impl Parts {
    fn of(input: &Input) -> Parts {
        let path = |path: &[u8]| vertices(path).map(|vertex| vertex as u16).collect();
        Parts {
            program: file::parse(input.file()).map_err(|_| input.file().to_vec()),
            path: input.path().map(path),
        }
    }
}

impl super::Parts for Parts {
    type Step = u16;

    fn input(&self) -> Input {
        let directives = match &self.program {
            Ok(program) => program.bytes(),
            Err(bytes) => bytes.clone(),
        };
        match &self.path {
            None => Input::convert(directives),
            Some(path) => Input::convert_and_run(directives, path_bytes(path)),
        }
    }

    fn path(&mut self) -> Option<&mut Vec<u16>> {
        self.path.as_mut()
    }

    fn bytes(&mut self) -> Option<&mut Vec<u8>> {
        self.program.as_mut().err()
    }
}

/// A small input that still fails, from one that fails.
pub fn shrink(input: Input, fails: &dyn Fn(&Input) -> bool) -> Input {
    let best = Parts::of(&input);
    // The parts have no odd last byte of a path.
    if !fails(&super::Parts::input(&best)) {
        return input;
    }
    let mut shrinker = Shrinker::new(best, fails);
    shrinker.repeat(|shrinker| {
        shrinker.cut_path();
        shrinker.drop_arrays();
        shrinker.drop_templates();
        shrinker.clear_statements();
        shrinker.drop_vertices();
        shrinker
            .drop_edges(|parts| (parts.program.as_mut().ok()).map(|program| &mut program.edges));
        shrinker.simplify_arrays();
        shrinker.simplify_statements();
        shrinker.simplify_templates();
        shrinker.drop_loops();
        shrinker.cut_bytes();
    });
    super::Parts::input(&shrinker.best)
}

/// A number after `dropped` is gone; the dropped one itself becomes 0.
fn without(number: usize, dropped: usize) -> usize {
    match number {
        same if same == dropped => 0,
        higher if higher > dropped => higher - 1,
        lower => lower,
    }
}

fn drop_array(program: &mut Program, array: usize) {
    program.arrays.remove(array);
    let nothing = program.nothing();
    for statement in &mut program.vertices {
        match statement {
            Statement::References(row) => {
                row.remove(array);
            }
            Statement::Realign(realigned, _) if *realigned == array => *statement = nothing.clone(),
            Statement::Realign(realigned, _) => *realigned = without(*realigned, array),
            Statement::Redistribute(..) => {}
        }
    }
}

/// What was aligned with the template is then aligned with the first of the others.
fn drop_template(program: &mut Program, template: usize) {
    program.templates.remove(template);
    for array in &mut program.arrays {
        array.alignment.template = without(array.alignment.template, template);
    }
    let nothing = program.nothing();
    for statement in &mut program.vertices {
        match statement {
            Statement::References(_) => {}
            Statement::Realign(_, alignment) => {
                alignment.template = without(alignment.template, template);
            }
            Statement::Redistribute(spread, _) if *spread == template => {
                *statement = nothing.clone();
            }
            Statement::Redistribute(spread, _) => *spread = without(*spread, template),
        }
    }
}

impl Shrinker<'_, Parts> {
    /// An attempt at a change of the parts of a directive file.
    fn attempt_program(&mut self, change: impl FnOnce(&mut Program)) -> bool {
        self.attempt(|parts| {
            if let Ok(program) = &mut parts.program {
                change(program);
            }
        })
    }

    /// How many there are of something.
    fn count(&self, number: impl Fn(&Program) -> usize) -> usize {
        self.best.program.as_ref().map_or(0, number)
    }

    fn drop_arrays(&mut self) {
        for array in (0..self.count(|program| program.arrays.len())).rev() {
            self.attempt_program(|program| drop_array(program, array));
        }
    }

    fn drop_templates(&mut self) {
        for template in (0..self.count(|program| program.templates.len())).rev() {
            if self.count(|program| program.templates.len()) > 1 {
                self.attempt_program(|program| drop_template(program, template));
            }
        }
    }

    /// All statements at once, then each.
    fn clear_statements(&mut self) {
        self.attempt_program(|program| {
            let nothing = program.nothing();
            program.vertices.fill(nothing);
        });
        for vertex in 0..self.count(|program| program.vertices.len()) {
            self.attempt_program(|program| program.vertices[vertex] = program.nothing());
        }
    }

    fn drop_vertices(&mut self) {
        let last = |program: &mut Program| {
            let nothing = program.nothing();
            drop_exit(&mut program.vertices, &mut program.edges, nothing);
        };
        while self.attempt_program(last) {}
        let vertices = self.count(|program| program.vertices.len());
        for vertex in (1..vertices.saturating_sub(1) as u16).rev() {
            for bypass in [false, true] {
                let taken = self.attempt(|parts| {
                    if let Ok(program) = &mut parts.program {
                        drop_vertex(&mut program.vertices, &mut program.edges, vertex, bypass);
                    }
                    if let Some(path) = &mut parts.path {
                        path.retain(|&step| step != vertex);
                        for step in path {
                            *step -= u16::from(*step > vertex);
                        }
                    }
                });
                if taken {
                    break;
                }
            }
        }
    }

    fn simplify_arrays(&mut self) {
        for array in 0..self.count(|program| program.arrays.len()) {
            self.attempt_program(|program| program.arrays[array].kind = LOCAL);
            self.attempt_program(|program| program.arrays[array].alignment.exchanged = false);
            self.attempt_program(|program| program.arrays[array].alignment.template = 0);
        }
    }

    fn simplify_statements(&mut self) {
        for vertex in 0..self.count(|program| program.vertices.len()) {
            let Ok(program) = &self.best.program else {
                return;
            };
            for simpler in simpler(&program.vertices[vertex]) {
                self.attempt_program(|program| program.vertices[vertex] = simpler);
            }
        }
    }

    fn simplify_templates(&mut self) {
        for template in 0..self.count(|program| program.templates.len()) {
            let Ok(program) = &self.best.program else {
                return;
            };
            for spread in simpler_spreads(program.templates[template]) {
                self.attempt_program(|program| program.templates[template] = spread);
            }
        }
    }
}

/// Spreads that are simpler than one, the simplest last.
fn simpler_spreads(spread: Mapping) -> impl Iterator<Item = Mapping> {
    let place = SIMPLE.iter().position(|&simple| simple == spread);
    let simpler = SIMPLE.into_iter().take(place.unwrap_or(SIMPLE.len()));
    simpler.rev()
}

/// Statements that may stand in place of one, the simplest last.
fn simpler(statement: &Statement) -> Vec<Statement> {
    match *statement {
        Statement::References(ref row) => {
            let lowered = |place: usize, byte: u8| {
                let mut row = row.clone();
                row[place] = byte.min(row[place]);
                Statement::References(row)
            };
            let places = 0..row.len();
            places
                .flat_map(|place| [lowered(place, READ), lowered(place, 0)])
                .collect()
        }
        Statement::Realign(array, Alignment { template, .. }) => vec![
            Statement::Realign(array, Alignment::straight(template)),
            Statement::Realign(array, Alignment::straight(0)),
        ],
        Statement::Redistribute(template, spread) => simpler_spreads(spread)
            .map(|spread| Statement::Redistribute(template, spread))
            .collect(),
    }
}
