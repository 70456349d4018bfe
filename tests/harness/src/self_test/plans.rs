//! Faults of a planner.

use super::{labelled_home, outcome, planner, with_expanded};
use crate::check::Difference;
use crate::drive::Mismatch;
use crate::library::Plan;
use oracle::builder::{self, Draft};
use oracle::outcome::Outcome;
use oracle::plan::{self, LABEL};
use oracle::routine::{Action, Event, Kind, Reference, Routine};
use std::sync::Mutex;

/// The labels of a plan that was written: vertex and record.
fn labels(out: &mut [u8]) -> Vec<(usize, &mut [u8])> {
    let vertex_count = usize::from(u16::from_le_bytes([out[4], out[5]]));
    let (head, records) = out.split_at_mut(8 + 4 * vertex_count);
    let word = |at: usize| usize::from(u16::from_le_bytes([head[at], head[at + 1]]));
    let counts = (0..vertex_count).map(|vertex| (vertex, word(10 + 4 * vertex)));
    let vertices = counts.flat_map(|(vertex, count)| std::iter::repeat_n(vertex, count));
    vertices.zip(records.chunks_exact_mut(LABEL)).collect()
}

/// Whether a segment from here meets a read or modify without a define before it.
fn old_value_read(routine: &Routine, array: usize, vertex: usize, seen: &mut Vec<usize>) -> bool {
    routine
        .edges()
        .filter(|edge| edge.0 == vertex)
        .any(|(_, next)| {
            if seen.contains(&next) {
                return false;
            }
            seen.push(next);
            match routine.event(next, array) {
                Event::Reference(Reference::Read | Reference::Modify) => true,
                Event::Nothing => old_value_read(routine, array, next, seen),
                Event::Reference(_) | Event::Label(_) | Event::Call(_) => false,
            }
        })
}

/// Q's vertex 1 as D: the next label, met without a define, does not count.
#[test]
fn define_on_one_branch_only() {
    fn faulty(file: &[u8], out: &mut [u8]) -> Outcome {
        let answer = plan::plan(file, out);
        if answer.number == 0 {
            with_expanded(file, |routine| {
                for (vertex, label) in labels(out) {
                    let array = usize::from(label[0]);
                    if label[1] == b'W'
                        && vertex != routine.exit()
                        && !old_value_read(routine, array, vertex, &mut Vec::new())
                    {
                        label[1] = b'D';
                    }
                }
            });
        }
        answer
    }
    let mut out = [0; 80];
    let written = faulty(&builder::q().bytes(), &mut out).first as usize;
    assert_eq!(out[..written][8 + 24 + LABEL + 1], b'D');
    let (mismatch, draft) = planner(faulty);
    assert!(matches!(mismatch.fault.difference, Difference::Written(_)));
    let draft = draft.unwrap();
    assert_eq!(draft.arrays.len(), 1);
    assert!(draft.rows.len() <= 4, "{mismatch}");
    assert!(draft.edges.len() <= 3, "{mismatch}");
}

/// The plan before request 1 of an accepted routine: the exit labels in arguments too, with R.
fn plan_before_request_1(file: &[u8], out: &mut [u8]) -> Outcome {
    let home = labelled_home(file);
    let answer = plan::plan(&home, out);
    if answer.number == 0 {
        with_expanded(file, |routine| {
            for (vertex, label) in labels(out) {
                let kind = routine.array(usize::from(label[0])).kind;
                if vertex == routine.exit() && kind == Kind::In {
                    label[1] = b'R';
                }
            }
        });
    }
    answer
}

fn is_accepted(file: &[u8]) -> bool {
    plan::plan(file, &mut []).number == 1
}

#[test]
fn in_labelled_at_the_exit() {
    fn faulty(file: &[u8], out: &mut [u8]) -> Outcome {
        if is_accepted(file) {
            plan_before_request_1(file, out)
        } else {
            plan::plan(file, out)
        }
    }
    let (mismatch, draft) = planner(faulty);
    assert_eq!(mismatch.fault.difference, Difference::Outcome);
    let draft = draft.unwrap();
    assert_eq!((draft.arrays.len(), draft.rows.len()), (1, 2), "{mismatch}");
    assert_eq!(draft.arrays[0][0], builder::IN, "{mismatch}");
}

/// The exit's label is left out of the plan, but still brings the caller's version into the kept
/// sets of the labels before it.
#[test]
fn kept_for_a_label_that_is_gone() {
    fn faulty(file: &[u8], out: &mut [u8]) -> Outcome {
        let answer = plan::plan(file, out);
        if answer.number == 0 {
            let mut before = vec![0; plan::LONGEST_PLAN];
            plan_before_request_1(file, &mut before);
            let before = labels(&mut before);
            with_expanded(file, |routine| {
                let left = before.iter().filter(|(vertex, label)| {
                    let kind = routine.array(usize::from(label[0])).kind;
                    *vertex != routine.exit() || kind != Kind::In
                });
                for ((_, label), (_, before)) in labels(out).into_iter().zip(left) {
                    label[8..12].copy_from_slice(&before[8..12]);
                }
            });
        }
        answer
    }
    let (mismatch, draft) = planner(faulty);
    assert!(matches!(mismatch.fault.difference, Difference::Written(_)));
    let draft = draft.unwrap();
    assert_eq!((draft.arrays.len(), draft.rows.len()), (1, 2), "{mismatch}");
    assert_eq!(draft.arrays[0][0], builder::IN, "{mismatch}");
}

/// S's version 0 freed at vertex 2: the kept set of a dropped label is empty.
#[test]
fn nothing_kept_at_a_dropped_label() {
    fn faulty(file: &[u8], out: &mut [u8]) -> Outcome {
        let answer = plan::plan(file, out);
        if answer.number == 0 {
            for (_, label) in labels(out) {
                if label[1] == b'N' {
                    label[8..12].fill(0);
                }
            }
        }
        answer
    }
    let (mismatch, draft) = planner(faulty);
    assert!(matches!(mismatch.fault.difference, Difference::Written(_)));
    assert!(draft.unwrap().rows.len() <= 5, "{mismatch}");
}

/// A fault that shows on eight arrays only: the small routine still has them.
#[test]
fn last_of_eight_arrays() {
    fn faulty(file: &[u8], out: &mut [u8]) -> Outcome {
        let answer = plan::plan(file, out);
        if answer.number == 0 {
            for (_, label) in labels(out) {
                if label[0] == 7 && label[1] == b'R' {
                    label[4] ^= 1;
                }
            }
        }
        answer
    }
    let (mismatch, draft) = planner(faulty);
    let draft = draft.unwrap();
    assert_eq!(draft.arrays.len(), 8);
    assert!(draft.rows.len() <= 3, "{mismatch}");
}

/// The plan is begun where there is room for one.
#[test]
fn a_byte_written_on_refusal() {
    fn faulty(file: &[u8], out: &mut [u8]) -> Outcome {
        let answer = plan::plan(file, out);
        if answer.number == 21 && out.len() > 100 {
            out[0] = b'H';
        }
        answer
    }
    let (mismatch, draft) = planner(faulty);
    assert_eq!(mismatch.fault.difference, Difference::Refused(0));
    let draft = draft.unwrap();
    assert_eq!((draft.arrays.len(), draft.rows.len()), (1, 4), "{mismatch}");
    assert_eq!(draft.edges.len(), 3, "{mismatch}");
}

#[test]
fn the_wrong_place() {
    fn faulty(file: &[u8], out: &mut [u8]) -> Outcome {
        let mut answer = plan::plan(file, out);
        if answer.number == 16 {
            answer.first += 2;
        }
        answer
    }
    let (mismatch, draft) = planner(faulty);
    assert_eq!(mismatch.fault.difference, Difference::Outcome);
    let draft = draft.unwrap();
    assert!(draft.rows.len() <= 4, "{mismatch}");
    assert!(draft.edges.len() <= 2, "{mismatch}");
}

/// 13 checked before 12: files with both faults are tried.
#[test]
fn the_wrong_order_of_checks() {
    fn faulty(file: &[u8], out: &mut [u8]) -> Outcome {
        let answer = plan::plan(file, out);
        if answer.number == 12 && file[6..8] != [18, 0] {
            return Outcome {
                number: 13,
                first: 6,
                second: 0,
            };
        }
        answer
    }
    let (mismatch, _) = planner(faulty);
    assert_eq!(mismatch.fault.difference, Difference::Outcome);
    assert_eq!(mismatch.kind, "plan, several faults");
    assert_eq!(mismatch.input.file().len(), 18);
}

/// The row of an action byte, and its place there.
fn row_of(draft: &Draft, place: u64) -> (usize, usize) {
    let index = place as usize - 18 - 4 * draft.arrays.len();
    (index / draft.arrays.len(), index % draft.arrays.len())
}

/// References, remappings, calls.
fn family(byte: u8) -> u8 {
    match byte {
        0..0x40 | 0x80 => 1,
        0x40..0x60 => 2,
        _ => 3,
    }
}

/// Where a row has a byte of another family than this one.
fn mixed_with(row: &[u8], byte: u8) -> Option<usize> {
    let other = |&earlier: &u8| earlier != 0 && family(earlier) != family(byte);
    row.iter().position(other)
}

/// The mismatch of a planner that gives another answer where it refuses with `number`, the small
/// routine and what was answered rightly.
fn refused_otherwise(faulty: Plan, number: u64) -> (Box<Mismatch>, Draft, Outcome) {
    let (mismatch, draft) = planner(faulty);
    assert_eq!(mismatch.fault.difference, Difference::Outcome);
    let right = mismatch.fault.expected.outcome;
    assert_eq!(right.number, number, "{mismatch}");
    (mismatch, draft.unwrap(), right)
}

/// 18 asked before 17.
#[test]
fn not_zero_before_too_large() {
    fn faulty(file: &[u8], out: &mut [u8]) -> Outcome {
        let mut answer = plan::plan(file, out);
        if answer.number == 17 {
            let draft = Draft::from_bytes(file).unwrap();
            let (vertex, _) = row_of(&draft, answer.first);
            if vertex == 0 || vertex + 1 == draft.rows.len() {
                answer.number = 18;
            }
        }
        answer
    }
    let (mismatch, draft, _) = refused_otherwise(faulty, 17);
    assert_eq!((draft.arrays.len(), draft.rows.len()), (1, 2), "{mismatch}");
}

/// 19 asked before 17: a remapping that is too large and mixed.
#[test]
fn mixed_before_too_large() {
    fn faulty(file: &[u8], out: &mut [u8]) -> Outcome {
        let mut answer = plan::plan(file, out);
        if answer.number == 17 {
            let draft = Draft::from_bytes(file).unwrap();
            let (vertex, array) = row_of(&draft, answer.first);
            let row = &draft.rows[vertex];
            if mixed_with(&row[..array], row[array]).is_some() {
                answer.number = 19;
            }
        }
        answer
    }
    let (mismatch, draft, _) = refused_otherwise(faulty, 17);
    assert_eq!((draft.arrays.len(), draft.rows.len()), (2, 3), "{mismatch}");
}

/// The whole file is searched for 15 before any 19, or any 17, or any 18.
#[test]
fn unknown_bytes_searched_first() {
    fn faulty<const NUMBER: u64>(file: &[u8], out: &mut [u8]) -> Outcome {
        let answer = plan::plan(file, out);
        if answer.number == NUMBER {
            let draft = Draft::from_bytes(file).unwrap();
            let mut bytes = draft.rows.iter().flatten();
            let unknown = bytes.position(|&byte| Action::from_byte(byte).is_none());
            if let Some(place) = unknown {
                let place = 18 + 4 * draft.arrays.len() + place;
                return outcome(15, place as u64, 0);
            }
        }
        answer
    }
    let faults: [(Plan, u64); 3] = [(faulty::<17>, 17), (faulty::<18>, 18), (faulty::<19>, 19)];
    for (faulty, number) in faults {
        let (mismatch, _, right) = refused_otherwise(faulty, number);
        assert!(
            mismatch.fault.found.outcome.first > right.first,
            "{mismatch}"
        );
    }
}

/// 19 at the byte that stood first in its row.
#[test]
fn mixed_at_the_earlier_byte() {
    fn faulty(file: &[u8], out: &mut [u8]) -> Outcome {
        let mut answer = plan::plan(file, out);
        if answer.number == 19 {
            let draft = Draft::from_bytes(file).unwrap();
            let (vertex, array) = row_of(&draft, answer.first);
            let row = &draft.rows[vertex];
            let earlier = mixed_with(&row[..array], row[array]).unwrap();
            answer.first -= (array - earlier) as u64;
        }
        answer
    }
    let (mismatch, draft, _) = refused_otherwise(faulty, 19);
    assert_eq!((draft.arrays.len(), draft.rows.len()), (2, 3), "{mismatch}");
}

/// 19 in the rows of entry and exit.
#[test]
fn mixed_at_entry_or_exit() {
    fn faulty(file: &[u8], out: &mut [u8]) -> Outcome {
        let answer = plan::plan(file, out);
        if answer.number == 18 {
            let draft = Draft::from_bytes(file).unwrap();
            let (vertex, array) = row_of(&draft, answer.first);
            let row = &draft.rows[vertex];
            let later = mixed_with(&row[array + 1..], row[array]);
            if let Some(later) = later {
                return outcome(19, answer.first + 1 + later as u64, 0);
            }
        }
        answer
    }
    let (mismatch, draft, _) = refused_otherwise(faulty, 18);
    assert_eq!((draft.arrays.len(), draft.rows.len()), (2, 2), "{mismatch}");
}

/// 16 asked before 15, 17, 18 or 19.
#[test]
fn edges_before_action_bytes() {
    fn faulty<const NUMBER: u64>(file: &[u8], out: &mut [u8]) -> Outcome {
        let answer = plan::plan(file, out);
        if answer.number == NUMBER {
            let mut draft = Draft::from_bytes(file).unwrap();
            draft.rows.iter_mut().for_each(|row| row.fill(0));
            let edges = plan::plan(&draft.bytes(), &mut []);
            if edges.number == 16 {
                return edges;
            }
        }
        answer
    }
    let faults: [(Plan, u64); 4] = [
        (faulty::<15>, 15),
        (faulty::<17>, 17),
        (faulty::<18>, 18),
        (faulty::<19>, 19),
    ];
    for (faulty, number) in faults {
        let (mismatch, _, _) = refused_otherwise(faulty, number);
        assert_eq!(mismatch.kind, "plan, several faults");
    }
}

#[test]
fn a_byte_beyond_the_length() {
    fn faulty(file: &[u8], out: &mut [u8]) -> Outcome {
        let answer = plan::plan(file, out);
        let length = answer.first as usize;
        if answer.number == 0 && out.len() > length {
            out[length] ^= 1;
        }
        answer
    }
    let (mismatch, _) = planner(faulty);
    assert!(matches!(mismatch.fault.difference, Difference::Beyond(_)));
}

#[test]
fn an_exact_buffer_refused() {
    fn faulty(file: &[u8], out: &mut [u8]) -> Outcome {
        let room = out.len().saturating_sub(1);
        plan::plan(file, &mut out[..room])
    }
    let (mismatch, _) = planner(faulty);
    assert_eq!(mismatch.fault.difference, Difference::Outcome);
    assert_eq!(mismatch.fault.expected.outcome.number, 0);
    assert_eq!(mismatch.fault.found.outcome.number, 1);
}

/// A plan that is wrong with so many vertices and edges only.
fn wrong_with<const VERTICES: usize, const EDGES: usize>(file: &[u8], out: &mut [u8]) -> Outcome {
    let answer = plan::plan(file, out);
    if answer.number == 0 {
        let counts = |routine: &Routine| (routine.vertex_count(), routine.edge_count());
        out[7] ^= u8::from(with_expanded(file, counts) == (VERTICES, EDGES));
    }
    answer
}

#[test]
fn a_table_that_ends_too_early() {
    for faulty in [
        wrong_with::<32, 127>,
        wrong_with::<32, 128>,
        wrong_with::<32, 129>,
        wrong_with::<33, 127>,
        wrong_with::<33, 128>,
        wrong_with::<33, 129>,
        wrong_with::<128, 512>,
        wrong_with::<129, 513>,
        wrong_with::<256, 1025>,
        wrong_with::<256, 1192>,
    ] {
        let (mismatch, _) = planner(faulty);
        assert_eq!(mismatch.fault.difference, Difference::Written(7));
        assert_eq!(mismatch.kind, "plan, limits");
    }
}

/// 20 names the last in argument that its row changes, not the first.
#[test]
fn the_last_array_of_20() {
    fn faulty(file: &[u8], out: &mut [u8]) -> Outcome {
        let mut answer = plan::plan(file, out);
        if answer.number == 20 {
            let routine = Routine::parse(file).unwrap();
            let is_changed = |array: &usize| {
                let changes = match routine.event(answer.first as usize, *array) {
                    Event::Reference(reference) => reference.changes(),
                    Event::Call(call) => call.intent.reference().changes(),
                    _ => false,
                };
                routine.array(*array).kind == Kind::In && changes
            };
            let last = (0..routine.array_count()).rfind(is_changed);
            answer.second = last.unwrap() as u64;
        }
        answer
    }
    let (mismatch, draft) = planner(faulty);
    assert_eq!(mismatch.fault.difference, Difference::Outcome);
    assert!(mismatch.index < 600, "{mismatch}");
    let draft = draft.unwrap();
    assert_eq!((draft.arrays.len(), draft.rows.len()), (2, 3), "{mismatch}");
}

/// A file with no vertices can be made smaller too.
#[test]
fn no_vertices() {
    fn faulty(file: &[u8], out: &mut [u8]) -> Outcome {
        let mut answer = plan::plan(file, out);
        if answer.number == 12 && file[12..14] == [0, 0] && file.len() > 18 {
            answer.first += 1;
        }
        answer
    }
    let (mismatch, draft) = planner(faulty);
    assert_eq!(mismatch.fault.difference, Difference::Outcome);
    assert_eq!(draft.unwrap().rows.len(), 0, "{mismatch}");
}

#[test]
fn a_byte_after_the_buffer() {
    fn faulty(file: &[u8], out: &mut [u8]) -> Outcome {
        let answer = plan::plan(file, out);
        if answer.number == 0 && answer.first as usize == out.len() {
            // SAFETY: guard bytes stand after the buffer.
            unsafe { *out.as_mut_ptr().add(out.len()) ^= 1 };
        }
        answer
    }
    let (mismatch, _) = planner(faulty);
    assert_eq!(mismatch.fault.difference, Difference::Outside);
}

/// A library that is wrong once and right when it is asked again: its input is told all the same.
#[test]
fn a_fault_that_does_not_come_again() {
    static CALLS: Mutex<u64> = Mutex::new(0);
    fn faulty(file: &[u8], out: &mut [u8]) -> Outcome {
        let mut calls = CALLS.lock().unwrap();
        *calls += 1;
        let mut answer = plan::plan(file, out);
        answer.second += u64::from(*calls == 1000);
        answer
    }
    let (mismatch, _) = planner(faulty);
    assert_eq!(mismatch.fault.difference, Difference::Outcome);
    assert_eq!(mismatch.fault.found.outcome.second, 1);
}
