//! The plan's bytes ("Plan and report") and refusal 1.

use crate::calls::Room;
use crate::labels::fixpoint::{Narrow, Sets, Solved, Wide};
use crate::labels::{Labels, literal};
use crate::outcome::{Outcome, Refusal};
use crate::routine::{MAX_ARRAYS, MAX_VERTICES, Routine, Set};

/// The length of the longest plan: every vertex labels every array.
pub const LONGEST_PLAN: usize = 8 + 4 * MAX_VERTICES + LABEL * MAX_ARRAYS * MAX_VERTICES;

/// The bytes of a label.
pub const LABEL: usize = 12;

/// Writes the plan of a routine file over the front of `out`.
pub fn plan(file: &[u8], out: &mut [u8]) -> Outcome {
    Outcome::of(
        Routine::parse(file).and_then(|routine| match routine.is_wide() {
            false => plan_with::<Narrow>(&routine, out),
            true => plan_with::<Wide>(&routine, out),
        }),
    )
}

fn plan_with<S: Sets>(file: &Routine, out: &mut [u8]) -> Result<usize, Refusal> {
    let (mut solved, mut room) = (Solved::<S>::EMPTY, Room::EMPTY);
    let routine = solved.accept(file, &mut room)?;
    write(&routine, &solved, out)
}

/// The same with the labels by listing paths, for small routines.
pub fn plan_by_paths(file: &[u8], out: &mut [u8]) -> Outcome {
    Outcome::of(Routine::parse(file).and_then(|routine| {
        let mut room = Room::EMPTY;
        let routine = literal::accept(&routine, &mut room)?;
        write(&routine, &literal::labels(&routine), out)
    }))
}

fn write(routine: &Routine, all: &impl Labels, out: &mut [u8]) -> Result<usize, Refusal> {
    let vertices = routine.vertex_count();
    let labels = label_count(routine);
    let needed = 8 + 4 * vertices + LABEL * labels;
    if out.len() < needed {
        return Err(Refusal::at(1, needed));
    }
    let (head, rest) = out[..needed].split_at_mut(8);
    let (contents, records) = rest.split_at_mut(4 * vertices);
    head[..4].copy_from_slice(b"HPF2");
    put_word(&mut head[4..], vertices);
    put_word(&mut head[6..], labels);
    let mut first = 0;
    let mut records = records.as_chunks_mut::<LABEL>().0.iter_mut();
    for (vertex, entry) in contents.as_chunks_mut::<4>().0.iter_mut().enumerate() {
        let mut here = 0;
        for ((array, label), record) in all.at(vertex).zip(&mut records) {
            here += 1;
            let [head, sets @ ..] = record.as_chunks_mut::<4>().0 else {
                unreachable!("a label has a head")
            };
            *head = [
                array as u8,
                label.letter.letter(),
                label.leaving().unwrap_or(255),
                0,
            ];
            sets.copy_from_slice(&[label.reaching, label.kept].map(Set::to_le_bytes));
        }
        put_word(&mut entry[..2], first);
        put_word(&mut entry[2..], here);
        first += here;
    }
    Ok(needed)
}

/// Remap actions, entry labels and exit labels. Where no row is a call, remappings alone have bit 6.
fn label_count(routine: &Routine) -> usize {
    let bytes = routine.action_bytes().iter();
    let remaps = bytes.filter(|&&byte| byte & 0x40 != 0);
    let home = routine
        .arrays()
        .filter(|array| array.kind.is_out_or_inout());
    routine.array_count() + remaps.count() + home.count()
}

fn put_word(bytes: &mut [u8], value: usize) {
    bytes[..2].copy_from_slice(&(value as u16).to_le_bytes());
}
