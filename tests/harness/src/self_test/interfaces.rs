//! Faults about calls with interfaces.

use super::{FEW, outcome, planner, runner};
use crate::check::Difference;
use crate::drive::{Mismatch, compare_plans};
use crate::library::{Library, ORACLE, Plan};
use oracle::builder::{Draft, IN, READ, call_in};
use oracle::calls::{Part, Place, is_call};
use oracle::outcome::Outcome;
use oracle::routine::{Action, MAX_EDGES, Routine};
use oracle::{labels::fixpoint, plan, run};

/// The plan of a file whose calls were written out, and then changed: it is shown each expanded
/// vertex with the file's row. A file that is refused, or has no calls, is planned as it is.
fn written_out(
    file: &[u8],
    out: &mut [u8],
    change: impl Fn(&mut Draft, &Draft, usize, Place),
) -> Outcome {
    let answer = plan::plan(file, &mut []);
    let draft = Draft::from_bytes(file).unwrap_or_default();
    if answer.number != 1 || !draft.rows.iter().any(|row| is_call(row)) {
        return plan::plan(file, out);
    }
    let mut expanded = draft.expanded();
    expanded.edges.truncate(MAX_EDGES);
    for (vertex, place) in draft.places().into_iter().enumerate() {
        change(&mut expanded, &draft, vertex, place);
    }
    plan::plan(&expanded.bytes(), out)
}

/// The mismatch of a faulty planner, and a small routine with one call.
fn one_call(faulty: Plan) -> (Box<Mismatch>, Draft) {
    let (mismatch, draft) = planner(faulty);
    let draft = draft.unwrap();
    let calls = draft.rows.iter().filter(|row| is_call(row));
    assert_eq!(calls.count(), 1, "{mismatch}");
    (mismatch, draft)
}

/// No fault, to show that the others are found for what was changed.
#[test]
fn nothing_changed() {
    let library = Library {
        plan: |file, out| match Routine::parse(file) {
            // Files with more edges have no file of their own.
            Ok(routine) if routine.edge_count() + 2 * routine.call_count() <= MAX_EDGES => {
                written_out(file, out, |_, _, _, _| {})
            }
            _ => plan::plan(file, out),
        },
        ..ORACLE
    };
    if let Err(mismatch) = compare_plans(&library, FEW) {
        panic!("{mismatch}");
    }
}

/// The remapping back names the version in which the array was passed.
#[test]
fn not_mapped_back() {
    fn faulty(file: &[u8], out: &mut [u8]) -> Outcome {
        written_out(file, out, |expanded, _, vertex, place| {
            if place.part == Part::After {
                expanded.rows[vertex] = expanded.rows[vertex - 2].clone();
            }
        })
    }
    let (mismatch, draft) = one_call(faulty);
    assert!(draft.rows.len() <= 5, "{mismatch}");
}

/// The remapping back names the initial version, whatever the source names.
#[test]
fn mapped_home() {
    fn faulty(file: &[u8], out: &mut [u8]) -> Outcome {
        written_out(file, out, |expanded, draft, vertex, place| {
            if place.part == Part::After {
                for (byte, record) in expanded.rows[vertex].iter_mut().zip(&draft.arrays) {
                    *byte = if *byte == 0 { 0 } else { 0x40 + record[2] };
                }
            }
        })
    }
    let (mismatch, draft) = one_call(faulty);
    assert!(draft.rows.len() <= 6, "{mismatch}");
}

/// An unreached call maps back to version 0.
#[test]
fn not_the_initial_version() {
    fn faulty(file: &[u8], out: &mut [u8]) -> Outcome {
        let reached = reached(file);
        written_out(file, out, |expanded, _, vertex, place| {
            if place.part == Part::After && !reached[place.vertex] {
                for byte in &mut expanded.rows[vertex] {
                    *byte = (*byte).min(0x40);
                }
            }
        })
    }
    let (mismatch, draft) = one_call(faulty);
    assert!(draft.rows.len() <= 4, "{mismatch}");
}

/// The vertices of a well-formed file that some path gets to.
fn reached(file: &[u8]) -> Vec<bool> {
    let Ok(routine) = Routine::parse(file) else {
        return Vec::new();
    };
    let mut reached = vec![false; routine.vertex_count()];
    reached[0] = true;
    for _ in 0..routine.vertex_count() {
        for (from, to) in routine.edges() {
            reached[to] |= reached[from];
        }
    }
    reached
}

/// The edge from a call's second vertex to its third is left out.
#[test]
fn an_inner_edge_left_out() {
    fn faulty(file: &[u8], out: &mut [u8]) -> Outcome {
        written_out(file, out, |expanded, _, vertex, place| {
            if place.part == Part::Inside {
                let inner = (vertex as u16, vertex as u16 + 1);
                expanded.edges.retain(|&edge| edge != inner);
            }
        })
    }
    let (mismatch, _) = one_call(faulty);
    assert!(matches!(mismatch.fault.difference, Difference::Written(_)));
}

/// Every array is remapped to the version in which another one is passed.
#[test]
fn all_arrays_passed() {
    fn faulty(file: &[u8], out: &mut [u8]) -> Outcome {
        written_out(file, out, |expanded, _, vertex, place| {
            if place.part == Part::After {
                for byte in &mut expanded.rows[vertex] {
                    *byte = (*byte).max(0x40);
                }
            }
        })
    }
    let (mismatch, draft) = one_call(faulty);
    assert_eq!((draft.arrays.len(), draft.rows.len()), (2, 3), "{mismatch}");
}

/// A call with intent out reads.
#[test]
fn out_reads() {
    fn faulty(file: &[u8], out: &mut [u8]) -> Outcome {
        written_out(file, out, |expanded, _, vertex, place| {
            if place.part == Part::Inside {
                for byte in &mut expanded.rows[vertex] {
                    *byte = if *byte == 0x20 { 0x10 } else { *byte };
                }
            }
        })
    }
    let (mismatch, draft) = one_call(faulty);
    assert_eq!((draft.arrays.len(), draft.rows.len()), (1, 3), "{mismatch}");
}

/// A file with its calls gone: what is refused for a call alone is answered otherwise.
fn without_calls(file: &[u8]) -> Vec<u8> {
    let mut draft = Draft::from_bytes(file).unwrap();
    for row in draft.rows.iter_mut().filter(|row| is_call(row)) {
        row.fill(0);
    }
    draft.bytes()
}

/// 21 is not asked of calls.
#[test]
fn an_ambiguous_call_accepted() {
    fn faulty(file: &[u8], out: &mut [u8]) -> Outcome {
        match plan::plan(file, out) {
            Outcome { number: 21, .. } => plan::plan(&without_calls(file), out),
            answer => answer,
        }
    }
    let (mismatch, draft) = one_call(faulty);
    assert_eq!(mismatch.fault.expected.outcome, outcome(21, 2, 0));
    assert_eq!((draft.arrays.len(), draft.rows.len()), (1, 4), "{mismatch}");
}

/// 21 names an ambiguous call before any reference, or any reference before a call.
#[test]
fn ambiguous_calls_in_another_order() {
    fn faulty<const CALLS_FIRST: bool>(file: &[u8], out: &mut [u8]) -> Outcome {
        let answer = plan::plan(file, out);
        if answer.number == 21 {
            let routine = Routine::parse(file).unwrap();
            let ambiguous = fixpoint::ambiguous(&routine);
            let is_first = |place: &&(usize, usize)| is_call(routine.row(place.0)) == CALLS_FIRST;
            if let Some(&(vertex, array)) = ambiguous.iter().find(is_first) {
                return outcome(21, vertex as u64, array as u64);
            }
        }
        answer
    }
    for faulty in [faulty::<true>, faulty::<false>] {
        let (mismatch, draft) = one_call(faulty);
        assert_eq!(mismatch.fault.expected.outcome.number, 21, "{mismatch}");
        assert!(draft.rows.len() <= 5, "{mismatch}");
    }
}

/// 20 is not asked of calls.
#[test]
fn in_passed_as_out() {
    fn faulty(file: &[u8], out: &mut [u8]) -> Outcome {
        match plan::plan(file, out) {
            Outcome { number: 20, .. } => plan::plan(&without_calls(file), out),
            answer => answer,
        }
    }
    let (mismatch, draft) = one_call(faulty);
    assert_eq!(mismatch.fault.expected.outcome, outcome(20, 1, 0));
    assert_eq!((draft.arrays.len(), draft.rows.len()), (1, 3), "{mismatch}");
    assert_eq!(draft.arrays[0][0], IN, "{mismatch}");
}

/// 20 and 21 name expanded vertices.
#[test]
fn places_of_the_expanded_routine() {
    fn faulty<const NUMBER: u64>(file: &[u8], out: &mut [u8]) -> Outcome {
        let mut answer = plan::plan(file, out);
        if answer.number == NUMBER {
            let places = Draft::from_bytes(file).unwrap().places();
            let named = places.iter().position(|p| p.vertex as u64 == answer.first);
            answer.first = named.unwrap() as u64;
        }
        answer
    }
    let faults: [(Plan, u64); 2] = [(faulty::<20>, 20), (faulty::<21>, 21)];
    for (faulty, number) in faults {
        let (mismatch, draft) = planner(faulty);
        assert_eq!(mismatch.fault.expected.outcome.number, number);
        assert!(draft.unwrap().rows.len() <= 6, "{mismatch}");
    }
}

/// 22 at 257 passed, and planned as another routine.
#[test]
fn one_vertex_too_many() {
    fn faulty(file: &[u8], out: &mut [u8]) -> Outcome {
        match plan::plan(file, out) {
            Outcome {
                number: 22,
                first: 257,
                ..
            } => plan::plan(&without_calls(file), out),
            answer => answer,
        }
    }
    let (mismatch, _) = planner(faulty);
    assert_eq!(mismatch.fault.expected.outcome, outcome(22, 257, 0));
    assert_eq!(mismatch.kind, "plan, limits");
}

/// 22 asked before 16, and after 20 and 21.
#[test]
fn too_many_vertices_in_the_wrong_order() {
    fn before_edges(file: &[u8], out: &mut [u8]) -> Outcome {
        let answer = plan::plan(file, out);
        if answer.number == 16 {
            let mut draft = Draft::from_bytes(file).unwrap();
            draft.edges.clear();
            let other = plan::plan(&draft.bytes(), &mut []);
            if other.number == 22 {
                return other;
            }
        }
        answer
    }
    fn after_20(file: &[u8], out: &mut [u8]) -> Outcome {
        let answer = plan::plan(file, out);
        if answer.number == 22 {
            // Calls as references with the same intents.
            let mut draft = Draft::from_bytes(file).unwrap();
            for byte in draft.rows.iter_mut().flatten() {
                if let Some(Action::Call(_)) = Action::from_byte(*byte) {
                    *byte = if *byte < 0x80 { 0x10 } else { 0x20 };
                }
            }
            let other = plan::plan(&draft.bytes(), &mut []);
            if other.number == 20 || other.number == 21 {
                return other;
            }
        }
        answer
    }
    let (mismatch, _) = planner(before_edges);
    assert_eq!(mismatch.fault.expected.outcome.number, 16, "{mismatch}");
    let (mismatch, _) = planner(after_20);
    assert_eq!(mismatch.fault.expected.outcome.number, 22, "{mismatch}");
}

/// 17 is not asked of calls: a version that its array does not have becomes another one.
#[test]
fn a_called_version_too_large() {
    fn faulty(file: &[u8], out: &mut [u8]) -> Outcome {
        let answer = plan::plan(file, out);
        let place = answer.first as usize;
        if answer.number == 17 && file[place] >= 0x60 {
            let mut file = file.to_vec();
            file[place] &= 0xe0;
            return plan::plan(&file, out);
        }
        answer
    }
    let (mismatch, draft) = one_call(faulty);
    assert_eq!(mismatch.fault.expected.outcome.number, 17, "{mismatch}");
    assert_eq!(draft.arrays.len(), 1, "{mismatch}");
}

/// Unknown bytes about those of calls are taken for calls.
#[test]
fn unknown_bytes_taken_for_calls() {
    fn faulty<const LOW: u8, const HIGH: u8>(file: &[u8], out: &mut [u8]) -> Outcome {
        let answer = plan::plan(file, out);
        let place = answer.first as usize;
        if answer.number == 15 && (LOW..=HIGH).contains(&file[place]) {
            let mut file = file.to_vec();
            file[place] = call_in(0);
            return plan::plan(&file, out);
        }
        answer
    }
    for faulty in [faulty::<0x81, 0x9f>, faulty::<0xe0, 0xff>] {
        let (mismatch, _) = planner(faulty);
        assert_eq!(mismatch.fault.expected.outcome.number, 15, "{mismatch}");
    }
}

/// A call beside a reference, and beside a remapping, is taken for one of its family.
#[test]
fn a_call_mixed_with_others() {
    fn faulty<const REFERENCE: bool>(file: &[u8], out: &mut [u8]) -> Outcome {
        let answer = plan::plan(file, out);
        if answer.number == 19 {
            let mut draft = Draft::from_bytes(file).unwrap();
            let index = answer.first as usize - 18 - 4 * draft.arrays.len();
            let row = &mut draft.rows[index / draft.arrays.len()];
            let with_reference = row.iter().any(|&byte| Action::is_reference(byte));
            if is_call(row) && with_reference == REFERENCE {
                row.fill(READ);
                return plan::plan(&draft.bytes(), out);
            }
        }
        answer
    }
    for faulty in [faulty::<true>, faulty::<false>] {
        let (mismatch, draft) = one_call(faulty);
        assert_eq!(mismatch.fault.expected.outcome.number, 19, "{mismatch}");
        assert_eq!((draft.arrays.len(), draft.rows.len()), (2, 3), "{mismatch}");
    }
}

/// A path may not end inside a call: it is cut before it, or goes on.
#[test]
fn paths_end_outside_calls() {
    fn faulty<const CUT: usize>(file: &[u8], path: &[u8], out: &mut [u8]) -> Outcome {
        let answer = run::run(file, path, &mut []);
        if answer.number == 2 {
            let places = Draft::from_bytes(file).unwrap().places();
            let last = run::vertices(path).last().unwrap();
            let wanted = [Part::Whole, Part::Before, Part::Inside][CUT];
            if places[last].part == wanted {
                return run::run(file, &path[..path.len() - 2 * CUT], out);
            }
        }
        run::run(file, path, out)
    }
    for faulty in [faulty::<1>, faulty::<2>] {
        let (mismatch, draft) = runner(faulty);
        let draft = draft.unwrap();
        assert!(draft.rows.iter().any(|row| is_call(row)), "{mismatch}");
        assert!(draft.rows.len() <= 4, "{mismatch}");
    }
}

/// 32 names the index by the file's vertices: the second and third of a call are not counted.
#[test]
fn an_index_by_the_files_vertices() {
    fn faulty(file: &[u8], path: &[u8], out: &mut [u8]) -> Outcome {
        let mut answer = run::run(file, path, out);
        if answer.number == 32 {
            let places = Draft::from_bytes(file).unwrap().places();
            let before = run::vertices(path).take(answer.first as usize);
            let inner =
                before.filter(|&vertex| matches!(places[vertex].part, Part::Inside | Part::After));
            answer.first -= inner.count() as u64;
        }
        answer
    }
    let (mismatch, draft) = runner(faulty);
    assert_eq!(mismatch.fault.expected.outcome.number, 32, "{mismatch}");
    assert_eq!(draft.unwrap().rows.len(), 3, "{mismatch}");
}
