//! Faults of the counts of edges.

use super::{records_in, runner, with_expanded};
use crate::check::Difference;
use crate::library::Run;
use oracle::builder::Draft;
use oracle::calls::is_call;
use oracle::outcome::Outcome;
use oracle::run::{self, vertices};

/// The right counts, and then what a fault does with them; it is shown the edges and the path.
fn changed(
    file: &[u8],
    path: &[u8],
    out: &mut [u8],
    change: impl Fn(&mut [u16], &[(usize, usize)], &[usize]),
) -> Outcome {
    let answer = run::run(file, path, out);
    if answer.number == 0 {
        let first = records_in(file, answer.first).end;
        let words = out[first..answer.first as usize].as_chunks_mut::<2>().0;
        let mut counts: Vec<u16> = words.iter().map(|word| u16::from_le_bytes(*word)).collect();
        let edges: Vec<_> = with_expanded(file, |routine| routine.edges().collect());
        change(&mut counts, &edges, &vertices(path).collect::<Vec<_>>());
        for (word, count) in words.iter_mut().zip(counts) {
            *word = count.to_le_bytes();
        }
    }
    answer
}

/// A fault is found on the report itself, by a routine with so many vertices at most.
fn found(faulty: Run, vertices: usize) -> Draft {
    let (mismatch, draft) = runner(faulty);
    let difference = &mismatch.fault.difference;
    assert!(matches!(difference, Difference::Passes(_)), "{mismatch}");
    let draft = draft.unwrap();
    assert!(draft.rows.len() <= vertices, "{mismatch}");
    draft
}

/// No fault, to show that the others are found for what was changed.
#[test]
fn nothing_changed() {
    use super::FEW;
    use crate::drive::compare_runs;
    use crate::library::{Library, ORACLE};
    let library = Library {
        run: |file, path, out| changed(file, path, out, |_, _, _| {}),
        ..ORACLE
    };
    if let Err(mismatch) = compare_runs(&library, FEW) {
        panic!("{mismatch}");
    }
}

/// The first step, to the entry, is counted at the first edge; the last one is not counted.
#[test]
fn a_step_more_or_less() {
    fn first(file: &[u8], path: &[u8], out: &mut [u8]) -> Outcome {
        changed(file, path, out, |counts, _, _| {
            if let Some(count) = counts.first_mut() {
                *count += 1;
            }
        })
    }
    fn last(file: &[u8], path: &[u8], out: &mut [u8]) -> Outcome {
        changed(file, path, out, |counts, edges, path| {
            if let [.., from, to] = path {
                let place = edges.iter().position(|edge| edge == &(*from, *to));
                counts[place.unwrap()] -= 1;
            }
        })
    }
    assert_eq!(found(first, 2).edges.len(), 1);
    assert_eq!(found(last, 2).edges.len(), 1);
}

/// Each count stands at the place before, or behind.
#[test]
fn another_place() {
    fn before(file: &[u8], path: &[u8], out: &mut [u8]) -> Outcome {
        changed(file, path, out, |counts, _, _| {
            if !counts.is_empty() {
                counts.rotate_left(1);
            }
        })
    }
    fn behind(file: &[u8], path: &[u8], out: &mut [u8]) -> Outcome {
        changed(file, path, out, |counts, _, _| {
            if !counts.is_empty() {
                counts.rotate_right(1);
            }
        })
    }
    for faulty in [before as Run, behind] {
        assert_eq!(found(faulty, 3).edges.len(), 2);
    }
}

/// The counts are in the file's order before expansion: those of the file's edges first, then the
/// inner edges of calls; or the inner edges come first.
#[test]
fn the_order_of_the_file() {
    fn faulty<const INNER_FIRST: bool>(file: &[u8], path: &[u8], out: &mut [u8]) -> Outcome {
        changed(file, path, out, |counts, edges, _| {
            let places = Draft::from_bytes(file).unwrap().places();
            let is_inner = |&(from, to): &(usize, usize)| {
                places[from].vertex == places[to].vertex && from < to
            };
            let both = || edges.iter().zip(counts.iter());
            let some = |inner: bool| both().filter(move |(edge, _)| is_inner(edge) == inner);
            let all = some(INNER_FIRST).chain(some(!INNER_FIRST));
            let all: Vec<u16> = all.map(|(_, &count)| count).collect();
            counts.copy_from_slice(&all);
        })
    }
    for faulty in [faulty::<false>, faulty::<true>] {
        let draft = found(faulty, 4);
        assert!(draft.rows.iter().any(|row| is_call(row)), "{draft:?}");
    }
}

/// An edge that is passed again is counted once; a count has eight bits, or twelve.
#[test]
fn counts_too_small() {
    fn once(file: &[u8], path: &[u8], out: &mut [u8]) -> Outcome {
        changed(file, path, out, |counts, _, _| {
            counts.iter_mut().for_each(|count| *count = (*count).min(1));
        })
    }
    fn low<const BITS: usize>(file: &[u8], path: &[u8], out: &mut [u8]) -> Outcome {
        changed(file, path, out, |counts, _, _| {
            let mask = (1 << BITS) - 1;
            counts.iter_mut().for_each(|count| *count &= mask);
        })
    }
    for faulty in [once as Run, low::<8>, low::<11>] {
        found(faulty, 4);
    }
}

/// Two edges from one vertex are exchanged, or the counts go by to, then from: the total is right.
#[test]
fn another_order() {
    fn exchanged(file: &[u8], path: &[u8], out: &mut [u8]) -> Outcome {
        changed(file, path, out, |counts, edges, _| {
            for place in 1..edges.len() {
                if edges[place - 1].0 == edges[place].0 {
                    counts.swap(place - 1, place);
                }
            }
        })
    }
    fn by_end(file: &[u8], path: &[u8], out: &mut [u8]) -> Outcome {
        changed(file, path, out, |counts, edges, _| {
            let mut both: Vec<_> = edges.iter().copied().zip(counts.iter().copied()).collect();
            both.sort_unstable_by_key(|&((from, to), _)| (to, from));
            for (count, (_, other)) in counts.iter_mut().zip(both) {
                *count = other;
            }
        })
    }
    for faulty in [exchanged as Run, by_end] {
        found(faulty, 4);
    }
}

/// Without a record the counts are left out; the needed length leaves them out.
#[test]
fn left_out() {
    fn without_records(file: &[u8], path: &[u8], out: &mut [u8]) -> Outcome {
        let mut answer = run::run(file, path, out);
        if answer.number == 0 {
            let records = records_in(file, answer.first);
            if records.is_empty() {
                answer.first = records.start as u64;
            }
        }
        answer
    }
    fn needed(file: &[u8], path: &[u8], out: &mut [u8]) -> Outcome {
        let mut answer = run::run(file, path, out);
        if answer.number == 2 {
            answer.first = records_in(file, answer.first).end as u64;
        }
        answer
    }
    let (mismatch, draft) = runner(without_records);
    let difference = &mismatch.fault.difference;
    assert!(matches!(difference, Difference::Demand3(_)), "{mismatch}");
    assert_eq!(draft.unwrap().rows.len(), 2, "{mismatch}");
    let (mismatch, draft) = runner(needed);
    assert_eq!(mismatch.fault.difference, Difference::Outcome);
    assert_eq!(draft.unwrap().rows.len(), 2, "{mismatch}");
}
