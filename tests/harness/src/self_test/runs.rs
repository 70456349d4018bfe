//! Faults of a runner.

use super::{labelled_home, outcome, records_in, runner, with_expanded};
use crate::check::Difference;
use crate::library::Run;
use oracle::builder;
use oracle::outcome::Outcome;
use oracle::record::RECORD;
use oracle::routine::{Kind, Routine};
use oracle::run::{self, ENTRY, LONGEST_REPORT};

/// One copy too many where there are two or more: more than the machine's.
#[test]
fn invented_copies() {
    fn faulty(file: &[u8], path: &[u8], out: &mut [u8]) -> Outcome {
        let answer = run::run(file, path, out);
        if answer.number == 0 && out[0] > 1 {
            out[0] += 1;
        }
        answer
    }
    let (mismatch, draft) = runner(faulty);
    let copies = String::from("array 0: 3 copies against 2");
    assert_eq!(mismatch.fault.difference, Difference::Demand3(copies));
    assert!(draft.unwrap().rows.len() <= 6, "{mismatch}");
    assert!(mismatch.input.path().unwrap().len() <= 12);
}

/// One copy too few: demand 3 cannot see it.
#[test]
fn a_copy_not_counted() {
    fn faulty(file: &[u8], path: &[u8], out: &mut [u8]) -> Outcome {
        let answer = run::run(file, path, out);
        if answer.number == 0 && out[0] > 1 {
            out[0] -= 1;
        }
        answer
    }
    let (mismatch, draft) = runner(faulty);
    assert_eq!(mismatch.fault.difference, Difference::Written(0));
    assert!(draft.unwrap().rows.len() <= 6, "{mismatch}");
}

/// A stamp that is wrong only after a modify that follows a copy.
#[test]
fn a_wrong_stamp() {
    fn faulty(file: &[u8], path: &[u8], out: &mut [u8]) -> Outcome {
        let answer = run::run(file, path, out);
        if answer.number == 0 {
            let copied = out[0] > 0;
            let records = &mut out[records_in(file, answer.first)];
            for record in records.chunks_exact_mut(RECORD) {
                if copied && record[4] == 3 {
                    record[6] ^= 1;
                }
            }
        }
        answer
    }
    let (mismatch, draft) = runner(faulty);
    let difference = &mismatch.fault.difference;
    assert!(matches!(difference, Difference::Demand3(_)), "{mismatch}");
    assert!(draft.unwrap().rows.len() <= 5, "{mismatch}");
    assert!(mismatch.input.path().unwrap().len() <= 10);
}

/// Shows `change` the entry of each in argument after a full path, with its initial version and
/// its entry one step before.
fn change_callers(
    file: &[u8],
    path: &[u8],
    out: &mut [u8],
    change: impl Fn(&mut [u8], u8, &[u8]),
) -> Outcome {
    let answer = run::run(file, path, out);
    if answer.number == 0 {
        let routine = Routine::parse(file).unwrap();
        let steps = run::vertices(path).len();
        if run::vertices(path).last() == Some(with_expanded(file, |routine| routine.exit())) {
            let mut before = vec![0; LONGEST_REPORT];
            run::run(file, &path[..2 * (steps - 1)], &mut before);
            let heads = out.chunks_exact_mut(ENTRY).zip(before.chunks_exact(ENTRY));
            for (array, (head, before)) in routine.arrays().zip(heads) {
                if array.kind == Kind::In {
                    change(head, array.initial, before);
                }
            }
        }
    }
    answer
}

/// The exit does nothing with an in argument, or takes its last copy too.
#[test]
fn the_callers_copy_left_dead() {
    fn as_it_was(file: &[u8], path: &[u8], out: &mut [u8]) -> Outcome {
        change_callers(file, path, out, |head, _, before| {
            head.copy_from_slice(before);
        })
    }
    fn current_and_dead(file: &[u8], path: &[u8], out: &mut [u8]) -> Outcome {
        change_callers(file, path, out, |head, _, _| head[2..6].fill(0))
    }
    fn as_a_local_array(file: &[u8], path: &[u8], out: &mut [u8]) -> Outcome {
        change_callers(file, path, out, |head, _, _| {
            head[2..7].copy_from_slice(&[0, 0, 0, 0, 255]);
        })
    }
    for (faulty, vertices) in [
        (as_it_was as Run, 4),
        (current_and_dead, 2),
        (as_a_local_array, 2),
    ] {
        let (mismatch, draft) = runner(faulty);
        let Difference::Demand3(reason) = &mismatch.fault.difference else {
            panic!("{mismatch}");
        };
        assert!(reason.ends_with("not the caller's"), "{mismatch}");
        let draft = draft.unwrap();
        assert_eq!(draft.arrays[0][0], builder::IN, "{mismatch}");
        assert_eq!(draft.rows.len(), vertices, "{mismatch}");
    }
}

/// A copy home is counted where the caller's copy is not current before the exit.
#[test]
fn a_copy_home_counted() {
    fn faulty(file: &[u8], path: &[u8], out: &mut [u8]) -> Outcome {
        change_callers(file, path, out, |head, initial, before| {
            head[0] += u8::from(before[6] != initial);
        })
    }
    let (mismatch, draft) = runner(faulty);
    let copies = String::from("array 0: 2 copies against 1");
    assert_eq!(mismatch.fault.difference, Difference::Demand3(copies));
    assert_eq!(draft.unwrap(), builder::read_only(), "{mismatch}");
}

/// Runs as before request 1: on an unfinished path the caller's copy stays live for a label that is
/// gone.
#[test]
fn kept_live_for_a_label_that_is_gone() {
    fn faulty(file: &[u8], path: &[u8], out: &mut [u8]) -> Outcome {
        match run::run(file, path, &mut []).number {
            2 => run::run(&labelled_home(file), path, out),
            _ => run::run(file, path, out),
        }
    }
    let (mismatch, draft) = runner(faulty);
    assert_eq!(mismatch.fault.difference, Difference::Written(2));
    assert_eq!(mismatch.fault.found.buffer[..8], [1, 0, 3, 0, 0, 0, 1, 0]);
    assert_eq!(draft.unwrap(), builder::read_only(), "{mismatch}");
}

#[test]
fn an_odd_byte_that_counts() {
    fn faulty(file: &[u8], path: &[u8], out: &mut [u8]) -> Outcome {
        let mut path = path.to_vec();
        if path.len() % 2 == 1 {
            path.push(0);
        }
        run::run(file, &path, out)
    }
    let (mismatch, _) = runner(faulty);
    assert_eq!(mismatch.fault.difference, Difference::Outcome);
    assert_eq!(mismatch.input.path().unwrap().len(), 1);
}

#[test]
fn the_wrong_index_in_a_path() {
    fn faulty(file: &[u8], path: &[u8], out: &mut [u8]) -> Outcome {
        let mut answer = run::run(file, path, out);
        if answer.number == 32 {
            answer.first -= 1;
        }
        answer
    }
    let (mismatch, draft) = runner(faulty);
    assert_eq!(mismatch.fault.difference, Difference::Outcome);
    assert_eq!(draft.unwrap().rows.len(), 2, "{mismatch}");
    assert_eq!(mismatch.input.path().unwrap().len(), 4);
}

/// A path's length in vertices taken modulo 65,536.
#[test]
fn a_path_length_of_16_bits() {
    fn faulty(file: &[u8], path: &[u8], out: &mut [u8]) -> Outcome {
        run::run(file, &path[..path.len() % 131_072], out)
    }
    let (mismatch, _) = runner(faulty);
    assert_eq!(mismatch.fault.difference, Difference::Outcome);
    assert_eq!(mismatch.fault.expected.outcome.number, 30);
    assert_eq!(mismatch.kind, "run, far too long");
}

/// The place of 30 cut to 16 bits.
#[test]
fn a_place_of_16_bits() {
    fn faulty(file: &[u8], path: &[u8], out: &mut [u8]) -> Outcome {
        let mut answer = run::run(file, path, out);
        if answer.number == 30 {
            answer.first &= 0xffff;
        }
        answer
    }
    let (mismatch, _) = runner(faulty);
    assert_eq!(mismatch.fault.difference, Difference::Outcome);
    assert_eq!(mismatch.fault.expected.outcome, outcome(30, 65_536, 0));
    assert_eq!(mismatch.fault.found.outcome, outcome(30, 0, 0));
}

/// Copies beyond 2,047 lost, with as many or fewer on the machine's side.
#[test]
fn copies_of_11_bits() {
    fn faulty(file: &[u8], path: &[u8], out: &mut [u8]) -> Outcome {
        let answer = run::run(file, path, out);
        if answer.number == 0 {
            let arrays = Routine::parse(file).unwrap().array_count();
            for head in out[..ENTRY * arrays].chunks_exact_mut(ENTRY) {
                head[1] &= 7;
            }
        }
        answer
    }
    let (mismatch, _) = runner(faulty);
    assert!(matches!(
        mismatch.fault.difference,
        Difference::Written(0 | 1)
    ));
    assert_eq!(mismatch.kind, "run, limits");
}

#[test]
fn a_byte_before_the_buffer() {
    fn faulty(file: &[u8], path: &[u8], out: &mut [u8]) -> Outcome {
        let answer = run::run(file, path, out);
        if answer.number == 32 {
            // SAFETY: guard bytes stand before the buffer.
            unsafe { *out.as_mut_ptr().sub(1) ^= 1 };
        }
        answer
    }
    let (mismatch, _) = runner(faulty);
    assert_eq!(mismatch.fault.difference, Difference::Outside);
}
