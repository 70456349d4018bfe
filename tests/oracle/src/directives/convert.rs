//! The converted routine's bytes, and the refusals of the call in their order: 40, 41, 42, then 20
//! and 21 on the converted routine, then 1.

use super::{Mapping, Program, file, sets, states};
use crate::builder::Draft;
use crate::labels::{fixpoint, search};
use crate::outcome::{Outcome, Refusal};
use crate::routine::Routine;

/// What the directives become.
#[derive(Clone, Debug, PartialEq, Eq)]
pub struct Conversion {
    /// For each array the mappings of its versions.
    pub versions: Vec<Vec<Mapping>>,
    /// The rows of action bytes.
    pub rows: Vec<Vec<u8>>,
}

impl Conversion {
    /// The parts of the routine file. Version 0 is the initial mapping.
    pub fn routine(&self, program: &Program) -> Draft {
        let arrays = program.arrays.iter().zip(&self.versions);
        Draft {
            arrays: arrays
                .map(|(array, versions)| [array.kind, versions.len() as u8, 0, 0])
                .collect(),
            rows: self.rows.clone(),
            edges: program.edges.clone(),
        }
    }
}

/// Writes the converted routine of a directive file over the front of `out`.
pub fn convert(directives: &[u8], out: &mut [u8]) -> Outcome {
    Outcome::of(file::parse(directives).and_then(|program| {
        let conversion = sets::conversion(&program)?;
        write(&conversion.routine(&program), fixpoint::refusal, out)
    }))
}

/// The same by whole states and by search, for small files. None where there are more than `most`
/// states.
pub fn convert_by_states(directives: &[u8], most: usize, out: &mut [u8]) -> Option<Outcome> {
    let program = match file::parse(directives) {
        Ok(program) => program,
        Err(refusal) => return Some(Outcome::of(Err(refusal))),
    };
    let conversion = states::conversion(&program, most)?;
    Some(Outcome::of(conversion.and_then(|conversion| {
        write(&conversion.routine(&program), search::refusal, out)
    })))
}

fn write(
    routine: &Draft,
    refusal: fn(&Routine) -> Option<Refusal>,
    out: &mut [u8],
) -> Result<usize, Refusal> {
    let bytes = routine.bytes();
    let routine = Routine::parse(&bytes).expect("a converted routine is well formed");
    if let Some(refusal) = refusal(&routine) {
        return Err(refusal);
    }
    let needed = bytes.len();
    if out.len() < needed {
        return Err(Refusal::at(1, needed));
    }
    out[..needed].copy_from_slice(&bytes);
    Ok(needed)
}
