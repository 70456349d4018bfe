//! The conversion by whole states, along all paths: for small files.

use super::convert::Conversion;
use super::meaning::State;
use super::{Mapping, Program, Statement};
use crate::builder::remap;
use crate::outcome::Refusal;
use crate::routine::MAX_VERSIONS;
use std::collections::{BTreeSet, HashSet};

/// For each vertex the states that paths from the entry bring to it. None if vertices have more
/// than `most` states together.
pub fn brought(program: &Program, most: usize) -> Option<Vec<Vec<State>>> {
    let successors = program.successors();
    let mut brought = vec![Vec::new(); program.vertices.len()];
    let mut waiting = vec![(0, State::initial(program))];
    let mut seen: HashSet<(usize, State)> = waiting.iter().cloned().collect();
    while let Some((vertex, state)) = waiting.pop() {
        if seen.len() > most {
            return None;
        }
        let after = state.after(&program.vertices[vertex]);
        brought[vertex].push(state);
        for &next in &successors[vertex] {
            let found = (next, after.clone());
            if seen.insert(found.clone()) {
                waiting.push(found);
            }
        }
    }
    Some(brought)
}

/// The conversion, or refusal 41 or 42. None beyond `most` states.
pub fn conversion(program: &Program, most: usize) -> Option<Result<Conversion, Refusal>> {
    let brought = brought(program, most)?;
    Some(by_states(program, &brought))
}

fn by_states(program: &Program, brought: &[Vec<State>]) -> Result<Conversion, Refusal> {
    let arrays = 0..program.arrays.len();
    for array in arrays.clone() {
        if all_mappings(program, brought, array).len() > MAX_VERSIONS {
            return Err(Refusal::at(41, array));
        }
    }
    let versions: Vec<Vec<Mapping>> = arrays
        .map(|array| versions(program, brought, array))
        .collect();
    let mut rows = Vec::new();
    for (vertex, statement) in program.vertices.iter().enumerate() {
        rows.push(match statement {
            Statement::References(row) => row.clone(),
            _ => remaps(vertex, statement, &brought[vertex], &versions)?,
        });
    }
    Ok(Conversion { versions, rows })
}

/// All mappings that some path can give to an array.
fn all_mappings(program: &Program, brought: &[Vec<State>], array: usize) -> BTreeSet<Mapping> {
    let vertices = program.vertices.iter().zip(brought);
    vertices
        .flat_map(|(statement, states)| states.iter().map(|state| state.after(statement)))
        .map(|after| after.mapping(array))
        .collect()
}

/// The initial mapping of an array, then those that its remappings give, by lowest vertex.
fn versions(program: &Program, brought: &[Vec<State>], array: usize) -> Vec<Mapping> {
    let mut versions = vec![State::initial(program).mapping(array)];
    for (statement, states) in program.vertices.iter().zip(brought) {
        for state in states {
            let given = state.after(statement).mapping(array);
            if state.is_remapped(statement, array) && !versions.contains(&given) {
                versions.push(given);
            }
        }
    }
    versions
}

/// The row of a directive to which paths bring these states, or refusal 42.
fn remaps(
    vertex: usize,
    directive: &Statement,
    states: &[State],
    versions: &[Vec<Mapping>],
) -> Result<Vec<u8>, Refusal> {
    let mut row = vec![0; versions.len()];
    for (array, byte) in row.iter_mut().enumerate() {
        if !states
            .iter()
            .any(|state| state.is_remapped(directive, array))
        {
            continue;
        }
        // Paths on which it does not remap the array leave it in its old mapping.
        let mut left = states.iter().map(|state| state.after(directive));
        let first = left.next().expect("it is remapped").mapping(array);
        if left.any(|state| state.mapping(array) != first) {
            return Err(Refusal::at_two(42, vertex, array));
        }
        let version = versions[array].iter().position(|&mapping| mapping == first);
        *byte = remap(version.expect("every mapping has a version") as u8);
    }
    Ok(row)
}
