//! Faults about versions above 15.

use super::{converter, outcome, planner, runner};
use crate::check::Difference;
use crate::library::{Plan, Run};
use oracle::builder::{Draft, remap};
use oracle::directives::convert::convert;
use oracle::outcome::Outcome;
use oracle::plan::{self, LABEL};
use oracle::routine::{Action, Routine};
use oracle::run::{self, ENTRY};

/// The labels of a plan that was written.
fn labels(out: &mut [u8], length: usize) -> impl Iterator<Item = &mut [u8]> {
    let vertices = usize::from(u16::from_le_bytes([out[4], out[5]]));
    out[8 + 4 * vertices..length].chunks_exact_mut(LABEL)
}

/// The array of a small routine has more than 16 versions.
fn needs_many(draft: Option<Draft>) {
    let draft = draft.unwrap();
    assert_eq!(draft.arrays.len(), 1, "{draft:?}");
    assert!(draft.arrays[0][1] > 16, "{draft:?}");
    assert!(draft.rows.len() <= 5, "{draft:?}");
}

/// Reaching or kept sets lose the versions above 15.
#[test]
fn sets_of_16_bits() {
    fn faulty<const AT: usize>(file: &[u8], out: &mut [u8]) -> Outcome {
        let answer = plan::plan(file, out);
        if answer.number == 0 {
            for label in labels(out, answer.first as usize) {
                label[AT..AT + 2].fill(0);
            }
        }
        answer
    }
    for faulty in [faulty::<6>, faulty::<10>] {
        let (mismatch, draft) = planner(faulty);
        assert!(matches!(mismatch.fault.difference, Difference::Written(_)));
        needs_many(draft);
    }
}

/// Reaching or kept sets lose version 31, or versions 15 and 16 are one.
#[test]
fn a_single_bit() {
    fn without_31<const AT: usize>(file: &[u8], out: &mut [u8]) -> Outcome {
        let answer = plan::plan(file, out);
        if answer.number == 0 {
            for label in labels(out, answer.first as usize) {
                label[AT] &= 0x7f;
            }
        }
        answer
    }
    fn one<const AT: usize>(file: &[u8], out: &mut [u8]) -> Outcome {
        let answer = plan::plan(file, out);
        if answer.number == 0 {
            for label in labels(out, answer.first as usize) {
                label[AT] |= label[AT + 1] << 7;
            }
        }
        answer
    }
    for faulty in [
        without_31::<7> as Plan,
        without_31::<11>,
        one::<5>,
        one::<9>,
    ] {
        let (mismatch, draft) = planner(faulty);
        assert!(matches!(mismatch.fault.difference, Difference::Written(_)));
        needs_many(draft);
    }
}

/// A remapping names its version by four bits: 50 to 5F are 40 to 4F.
#[test]
fn remappings_of_four_bits() {
    fn low(file: &[u8]) -> Vec<u8> {
        let Some(mut draft) = Draft::from_bytes(file).filter(|_| Routine::parse(file).is_ok())
        else {
            return file.to_vec();
        };
        let bytes = draft.rows.iter_mut().flatten();
        for byte in bytes.filter(|byte| Action::is_remap(**byte)) {
            *byte &= 0x4f;
        }
        draft.bytes()
    }
    let (_, draft) = planner(|file, out| plan::plan(&low(file), out));
    needs_many(draft);
    let (_, draft) = runner(|file, path, out| run::run(&low(file), path, out));
    needs_many(draft);
}

/// 50 to 5F are unknown, also where the array has that version.
#[test]
fn remappings_below_16_alone() {
    fn faulty<const ALL: bool>(file: &[u8], out: &mut [u8]) -> Outcome {
        let answer = plan::plan(file, out);
        let place = answer.first as usize;
        if answer.number == 17 && (0x50..0x60).contains(&file[place]) {
            return outcome(15, answer.first, 0);
        }
        if let Ok(routine) = Routine::parse(file)
            && ALL
        {
            let high = |&byte: &u8| (0x50..0x60).contains(&byte);
            if let Some(index) = routine.action_bytes().iter().position(high) {
                let place = 18 + 4 * routine.array_count() + index;
                return outcome(15, place as u64, 0);
            }
        }
        answer
    }
    for faulty in [faulty::<false>, faulty::<true>] {
        let (mismatch, _) = planner(faulty);
        assert_eq!(mismatch.fault.found.outcome.number, 15, "{mismatch}");
    }
}

/// 17 versions are refused, or 33 accepted.
#[test]
fn the_limit_of_versions() {
    fn from_17(file: &[u8], out: &mut [u8]) -> Outcome {
        if let Ok(routine) = Routine::parse(file) {
            let wide = |array: &u8| *array > 16;
            let mut versions = routine.arrays().map(|array| array.versions);
            if let Some(array) = versions.position(|versions| wide(&versions)) {
                return outcome(14, 19 + 4 * array as u64, 0);
            }
        }
        plan::plan(file, out)
    }
    fn to_33(file: &[u8], out: &mut [u8]) -> Outcome {
        let answer = plan::plan(file, out);
        let place = answer.first as usize;
        if answer.number == 14 && file[place] == 33 && place % 4 == 3 {
            let mut other = file.to_vec();
            other[place] = 32;
            return plan::plan(&other, out);
        }
        answer
    }
    for faulty in [from_17 as Plan, to_33] {
        let (mismatch, draft) = planner(faulty);
        assert_eq!(mismatch.fault.difference, Difference::Outcome);
        let draft = draft.unwrap();
        assert_eq!((draft.arrays.len(), draft.rows.len()), (1, 2), "{mismatch}");
    }
}

/// The live set loses the versions above 15, or the copies of these are counted twice.
#[test]
fn entries_of_16_bits() {
    fn live(file: &[u8], path: &[u8], out: &mut [u8]) -> Outcome {
        let answer = run::run(file, path, out);
        if answer.number == 0 {
            let arrays = Routine::parse(file).unwrap().array_count();
            for entry in out[..ENTRY * arrays].chunks_exact_mut(ENTRY) {
                entry[4..6].fill(0);
            }
        }
        answer
    }
    fn current(file: &[u8], path: &[u8], out: &mut [u8]) -> Outcome {
        let answer = run::run(file, path, out);
        if answer.number == 0 {
            let arrays = Routine::parse(file).unwrap().array_count();
            for entry in out[..ENTRY * arrays].chunks_exact_mut(ENTRY) {
                entry[6] = if entry[6] < 32 {
                    entry[6] % 16
                } else {
                    entry[6]
                };
            }
        }
        answer
    }
    for faulty in [live as Run, current] {
        let (_, draft) = runner(faulty);
        needs_many(draft);
    }
}

/// Labels with the fields of the plan before: 16 bits for each set, and the old mark.
#[test]
fn the_plan_before() {
    fn mark(file: &[u8], out: &mut [u8]) -> Outcome {
        let answer = plan::plan(file, out);
        if answer.number == 0 {
            out[3] = b'P';
        }
        answer
    }
    fn exchanged(file: &[u8], out: &mut [u8]) -> Outcome {
        let answer = plan::plan(file, out);
        if answer.number == 0 {
            for label in labels(out, answer.first as usize) {
                label.swap(6, 8);
                label.swap(7, 9);
            }
        }
        answer
    }
    let (mismatch, _) = planner(mark);
    assert_eq!(mismatch.fault.difference, Difference::Written(3));
    let (mismatch, _) = planner(exchanged);
    assert!(matches!(mismatch.fault.difference, Difference::Written(_)));
}

/// A converted row names its version by four bits.
#[test]
fn converted_by_four_bits() {
    let (mismatch, program) = converter(|directives, out| {
        let answer = convert(directives, out);
        if answer.number == 0 {
            let routine = &mut out[..answer.first as usize];
            let mut draft = Draft::from_bytes(routine).unwrap();
            for byte in draft.rows.iter_mut().flatten() {
                *byte = (*byte).min(remap(15)).max(*byte & 0x80);
            }
            routine.copy_from_slice(&draft.bytes());
        }
        answer
    });
    assert!(matches!(mismatch.fault.difference, Difference::Written(_)));
    let directives = program.unwrap().vertices;
    let directives = directives.iter().filter(|vertex| vertex.is_directive());
    assert!(directives.count() >= 16, "{mismatch}");
}
