//! Refusals of a path.

use super::list;
use crate::layout::counted;
use crate::routine::{Phase, Routine};
use hpf_remap::formats::{STEP, word_at};
use hpf_remap::{LONGEST_PATH, Refusal, refusal};

pub fn sentence(refused: Refusal, routine: &[u8], path: &[u8]) -> String {
    let index = refused.first as usize;
    match refused.number {
        refusal::WRONG_PATH_LENGTH => format!(
            "The path has {}; it has at least 1 and at most {LONGEST_PATH}.",
            counted(index, "vertex", "vertices")
        ),
        refusal::WRONG_START => format!(
            "The path starts at vertex {}; a path starts at the entry, vertex 0.",
            vertex(path, 0)
        ),
        refusal::NO_SUCH_EDGE => match Routine::from_bytes(routine) {
            Some(routine) => no_edge(index, path, &routine),
            None => String::new(),
        },
        _ => refusal::text(refused.number).map_or(String::new(), String::from),
    }
}

fn vertex(path: &[u8], index: usize) -> usize {
    word_at(path, STEP.saturating_mul(index)).map_or(0, usize::from)
}

fn no_edge(index: usize, path: &[u8], routine: &Routine) -> String {
    let from = vertex(path, index.saturating_sub(1));
    let to = vertex(path, index);
    let next: Vec<String> = routine
        .expanded_edges()
        .into_iter()
        .filter(|edge| edge.0 == from)
        .map(|edge| edge.1.to_string())
        .collect();
    let there_are = match next.as_slice() {
        [] => format!("no edge leaves vertex {from}"),
        [_] => format!("the only edge from {from} leads to {}", list(&next)),
        _ => format!("the edges from {from} lead to {}", list(&next)),
    };
    let parts = routine.parts();
    let calls = parts.iter().any(|part| part.phase != Phase::Whole);
    let numbered = match calls {
        true => {
            "\nVertices of a path are those of the expanded routine, in which each call is three."
        }
        false => "",
    };
    let whereabouts = match parts.get(to) {
        Some(_) => String::new(),
        None => format!(
            ", which does not exist: the last vertex is {}",
            parts.len() - 1
        ),
    };
    format!(
        "Index {index} of the path, step {}, goes from vertex {from} to vertex {to}{whereabouts}. \
         There is no such edge: {there_are}.{numbered}",
        index + 1
    )
}
