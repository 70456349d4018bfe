//! Faults of rounds.

use super::{counter, outcome, with_expanded};
use crate::check::Difference;
use oracle::builder;
use oracle::calls::is_call;
use oracle::outcome::Outcome;
use oracle::{plan, rounds};

/// The right numbers, and then what a fault does with them: those of a file with calls are six.
fn changed(file: &[u8], out: &mut [u8], change: impl Fn(&mut [u16])) -> Outcome {
    let answer = rounds::rounds(file, out);
    if answer.number == 0 {
        let words = out[..answer.first as usize].as_chunks_mut::<2>().0;
        let mut numbers: Vec<u16> = words.iter().map(|word| u16::from_le_bytes(*word)).collect();
        change(&mut numbers);
        for (word, number) in words.iter_mut().zip(numbers) {
            *word = number.to_le_bytes();
        }
    }
    answer
}

fn is_wrong_number(difference: &Difference) -> bool {
    matches!(difference, Difference::Rounds(_))
}

/// Of the last four numbers one is that of another pass, each for each.
#[test]
fn a_number_of_another_pass() {
    fn faulty<const PASS: usize, const OTHER: usize>(file: &[u8], out: &mut [u8]) -> Outcome {
        changed(file, out, |numbers| {
            let first = numbers.len() - 4;
            numbers[first + PASS] = numbers[first + OTHER];
        })
    }
    for faulty in [
        faulty::<0, 1>,
        faulty::<0, 2>,
        faulty::<0, 3>,
        faulty::<1, 0>,
        faulty::<1, 2>,
        faulty::<1, 3>,
        faulty::<2, 0>,
        faulty::<2, 1>,
        faulty::<2, 3>,
        faulty::<3, 0>,
        faulty::<3, 1>,
        faulty::<3, 2>,
    ] {
        let (mismatch, draft) = counter(faulty);
        assert!(is_wrong_number(&mismatch.fault.difference), "{mismatch}");
        assert!(draft.unwrap().rows.len() <= 5, "{mismatch}");
    }
}

/// The passes of a file with calls are told in another order.
#[test]
fn passes_of_the_file_last() {
    fn faulty(file: &[u8], out: &mut [u8]) -> Outcome {
        changed(file, out, |numbers| {
            if numbers.len() == 6 {
                numbers.rotate_left(2);
            }
        })
    }
    let (mismatch, draft) = counter(faulty);
    assert!(is_wrong_number(&mismatch.fault.difference), "{mismatch}");
    let draft = draft.unwrap();
    assert!(draft.rows.iter().any(|row| is_call(row)), "{mismatch}");
    assert_eq!(draft.rows.len(), 3, "{mismatch}");
}

/// The last round, which alters nothing, is not counted.
#[test]
fn the_idle_round_not_counted() {
    fn faulty<const PASS: usize>(file: &[u8], out: &mut [u8]) -> Outcome {
        changed(file, out, |numbers| {
            let first = numbers.len() - 4;
            numbers[first + PASS] = numbers[first + PASS].saturating_sub(1);
        })
    }
    for faulty in [faulty::<0>, faulty::<1>, faulty::<2>, faulty::<3>] {
        let (mismatch, draft) = counter(faulty);
        assert!(is_wrong_number(&mismatch.fault.difference), "{mismatch}");
        assert_eq!(draft.unwrap().rows.len(), 2, "{mismatch}");
    }
}

/// A pass goes on for another round after the first that alters nothing.
#[test]
fn one_round_more() {
    fn faulty<const PASS: usize>(file: &[u8], out: &mut [u8]) -> Outcome {
        changed(file, out, |numbers| {
            let first = numbers.len() - 4;
            numbers[first + PASS] += 1;
        })
    }
    for faulty in [faulty::<0>, faulty::<1>, faulty::<2>, faulty::<3>] {
        let (mismatch, draft) = counter(faulty);
        assert!(is_wrong_number(&mismatch.fault.difference), "{mismatch}");
        assert_eq!(draft.unwrap().rows.len(), 2, "{mismatch}");
    }
}

/// A number is one more than there may be: the vertices and one more.
#[test]
fn more_than_the_vertices() {
    fn faulty(file: &[u8], out: &mut [u8]) -> Outcome {
        let answer = rounds::rounds(file, out);
        if answer.number == 0 && out[6] > 2 {
            let vertices = with_expanded(file, |routine| routine.vertex_count());
            let kept = answer.first as usize - 2;
            out[kept..kept + 2].copy_from_slice(&(vertices as u16 + 2).to_le_bytes());
        }
        answer
    }
    let (mismatch, _) = counter(faulty);
    assert!(is_wrong_number(&mismatch.fault.difference), "{mismatch}");
}

/// P's last pass takes a round less: another order could do that, but it is not the number told.
#[test]
fn another_number_of_p() {
    fn faulty(file: &[u8], out: &mut [u8]) -> Outcome {
        changed(file, out, |numbers| {
            if numbers == [2, 0, 2, 3] {
                numbers[3] = 2;
            }
        })
    }
    let mut out = [0; 8];
    faulty(&builder::p().bytes(), &mut out);
    assert_eq!(rounds::fault(&builder::p().bytes(), &out), None);
    let (mismatch, _) = counter(faulty);
    assert!(is_wrong_number(&mismatch.fault.difference), "{mismatch}");
}

/// The pass for reached vertices, of a file with calls or of the routine that is planned, is made,
/// and counted, where it need not be; or is not made where it must be.
#[test]
fn the_pass_for_reached_vertices() {
    fn faulty<const CALLS: bool, const MADE: bool>(file: &[u8], out: &mut [u8]) -> Outcome {
        changed(file, out, |numbers| {
            let at = if CALLS { 0 } else { numbers.len() - 3 };
            if (numbers.len() == 6 || !CALLS) && (numbers[at] == 0) == MADE {
                numbers[at] = if MADE { 2 } else { 0 };
            }
        })
    }
    for faulty in [
        faulty::<true, true>,
        faulty::<true, false>,
        faulty::<false, true>,
        faulty::<false, false>,
    ] {
        let (mismatch, draft) = counter(faulty);
        assert!(is_wrong_number(&mismatch.fault.difference), "{mismatch}");
        let rows = draft.unwrap().rows;
        let calls = rows.iter().any(|row| is_call(row));
        assert_eq!(rows.len(), if calls { 3 } else { 2 }, "{mismatch}");
    }
}

/// The numbers depend on the length of the buffer.
#[test]
fn others_in_a_longer_buffer() {
    fn faulty(file: &[u8], out: &mut [u8]) -> Outcome {
        let longer = out.len() > rounds::LONGEST_ROUNDS;
        changed(file, out, |numbers| {
            let last = numbers.len() - 1;
            if numbers[last] == 3 && longer {
                numbers[last] = 2;
            }
        })
    }
    let (mismatch, _) = counter(faulty);
    assert!(is_wrong_number(&mismatch.fault.difference), "{mismatch}");
}

/// A number is written although the call is refused, and beyond the length.
#[test]
fn a_byte_written_on_refusal() {
    fn faulty(file: &[u8], out: &mut [u8]) -> Outcome {
        let answer = rounds::rounds(file, out);
        if answer.number == 21 && out.len() > 12 {
            out[0] = 2;
        }
        answer
    }
    let (mismatch, _) = counter(faulty);
    assert_eq!(mismatch.fault.difference, Difference::Refused(0));
    fn beyond(file: &[u8], out: &mut [u8]) -> Outcome {
        let answer = rounds::rounds(file, out);
        if answer == outcome(0, 8, 0) && out.len() >= 12 {
            out[8..12].fill(0);
        }
        answer
    }
    let (mismatch, draft) = counter(beyond);
    assert_eq!(mismatch.fault.difference, Difference::Beyond(8));
    assert_eq!(draft.unwrap().rows.len(), 2, "{mismatch}");
}

/// 21 is not asked; a file with calls is taken for one without; a short buffer needs a plan's length.
#[test]
fn other_answers() {
    fn ambiguous(file: &[u8], out: &mut [u8]) -> Outcome {
        match rounds::rounds(file, out) {
            Outcome { number: 21, .. } => outcome(1, 8, 0),
            answer => answer,
        }
    }
    fn without_calls(file: &[u8], out: &mut [u8]) -> Outcome {
        match rounds::rounds(file, out) {
            Outcome { number: 0, .. } => outcome(0, 8, 0),
            answer => answer,
        }
    }
    fn of_the_plan(file: &[u8], out: &mut [u8]) -> Outcome {
        match rounds::rounds(file, out) {
            Outcome { number: 1, .. } => plan::plan(file, &mut []),
            answer => answer,
        }
    }
    for faulty in [ambiguous, without_calls, of_the_plan] {
        let (mismatch, _) = counter(faulty);
        assert_eq!(mismatch.fault.difference, Difference::Outcome);
    }
}
