//! The conversion by sets, for files of any size.
//!
//! What paths bring to a vertex is kept apart: for each array its alignments, for each template the
//! vertices that gave its spread. What a directive gives is known from these two: a realign finds
//! any spread of its template, whatever the array's alignment was. For 42 a third set is needed,
//! for each array its versions, each with the template that the array is then aligned with: a
//! redistribute leaves those with another template as they are.

use super::convert::Conversion;
use super::file::MAX_TEMPLATES;
use super::{Alignment, Mapping, Program, Statement};
use crate::builder::remap;
use crate::outcome::Refusal;
use crate::routine::{MAX_ARRAYS, MAX_VERSIONS, MAX_VERTICES, Set};
use std::collections::BTreeSet;

/// Sets that are joined where paths meet.
trait Sets: Clone + PartialEq {
    fn join(&mut self, other: &Self);
}

/// For each vertex what paths from the entry bring to it, or nothing if no path gets there. Sweeps
/// take up the vertices to which more was brought since.
fn solve<S: Sets>(
    program: &Program,
    at_entry: S,
    after: impl Fn(usize, &S) -> S,
) -> Vec<Option<S>> {
    let successors = program.successors();
    let mut brought = vec![None; successors.len()];
    let mut has_more = vec![false; successors.len()];
    brought[0] = Some(at_entry);
    has_more[0] = true;
    while has_more.contains(&true) {
        for vertex in 0..successors.len() {
            let Some(sets) = brought[vertex].as_ref().filter(|_| has_more[vertex]) else {
                continue;
            };
            has_more[vertex] = false;
            let left = after(vertex, sets);
            for &next in &successors[vertex] {
                let mut joined = left.clone();
                if let Some(before) = &brought[next] {
                    joined.join(before);
                }
                if brought[next].as_ref() != Some(&joined) {
                    brought[next] = Some(joined);
                    has_more[next] = true;
                }
            }
        }
    }
    brought
}

/// Numbers of vertices.
type Vertices = [u64; MAX_VERTICES / 64];

fn only(vertex: usize) -> Vertices {
    let mut vertices = [0; MAX_VERTICES / 64];
    vertices[vertex / 64] = 1 << (vertex % 64);
    vertices
}

fn members(vertices: &Vertices) -> impl Iterator<Item = usize> {
    (0..MAX_VERTICES).filter(|vertex| vertices[vertex / 64] >> (vertex % 64) & 1 == 1)
}

fn alignment_bit(alignment: Alignment) -> u16 {
    1 << (2 * alignment.template + usize::from(alignment.exchanged))
}

#[derive(Clone, PartialEq)]
struct Origins {
    /// For each array its alignments.
    alignments: [u16; MAX_ARRAYS],
    /// For each template the vertices that gave its spread, the entry for the first one.
    givers: [Vertices; MAX_TEMPLATES],
}

impl Sets for Origins {
    fn join(&mut self, other: &Origins) {
        for (one, more) in self.alignments.iter_mut().zip(other.alignments) {
            *one |= more;
        }
        let givers = self.givers.as_flattened_mut().iter_mut();
        for (one, more) in givers.zip(other.givers.as_flattened()) {
            *one |= more;
        }
    }
}

impl Origins {
    fn at_entry(program: &Program) -> Origins {
        let mut alignments = [0; MAX_ARRAYS];
        for (set, array) in alignments.iter_mut().zip(&program.arrays) {
            *set = alignment_bit(array.alignment);
        }
        Origins {
            alignments,
            givers: [only(0); MAX_TEMPLATES],
        }
    }

    fn after(&self, program: &Program, vertex: usize) -> Origins {
        let mut left = self.clone();
        match program.vertices[vertex] {
            Statement::References(_) => {}
            Statement::Realign(array, alignment) => {
                left.alignments[array] = alignment_bit(alignment);
            }
            Statement::Redistribute(template, _) => left.givers[template] = only(vertex),
        }
        left
    }

    /// The mappings that a directive here can give to an array that it remaps.
    fn given(&self, program: &Program, vertex: usize, array: usize) -> BTreeSet<Mapping> {
        match program.vertices[vertex] {
            Statement::Realign(realigned, alignment) if realigned == array => {
                members(&self.givers[alignment.template])
                    .map(|giver| alignment.mapping(spread(program, alignment.template, giver)))
                    .collect()
            }
            Statement::Redistribute(template, spread) => [
                Alignment::straight(template),
                Alignment::exchanged(template),
            ]
            .into_iter()
            .filter(|&alignment| self.alignments[array] & alignment_bit(alignment) != 0)
            .map(|alignment| alignment.mapping(spread))
            .collect(),
            _ => BTreeSet::new(),
        }
    }
}

/// The spread that a vertex gave to a template.
fn spread(program: &Program, template: usize, giver: usize) -> Mapping {
    match program.vertices[giver] {
        Statement::Redistribute(_, spread) => spread,
        _ => program.templates[template],
    }
}

/// For each array the versions in which paths bring it, for each template with which it is then
/// aligned.
#[derive(Clone, PartialEq)]
struct Brought([[Set; MAX_TEMPLATES]; MAX_ARRAYS]);

impl Sets for Brought {
    fn join(&mut self, other: &Brought) {
        let sets = self.0.as_flattened_mut().iter_mut();
        for (one, more) in sets.zip(other.0.as_flattened()) {
            *one |= more;
        }
    }
}

/// These versions with a template.
fn with_template(template: usize, versions: Set) -> [Set; MAX_TEMPLATES] {
    let mut pairs = [0; MAX_TEMPLATES];
    pairs[template] = versions;
    pairs
}

/// The versions, whatever their template.
fn versions_of(pairs: [Set; MAX_TEMPLATES]) -> Set {
    pairs.iter().fold(0, |versions, more| versions | more)
}

/// For each vertex and array the versions that the vertex's directive gives.
type Given = Vec<[Set; MAX_ARRAYS]>;

impl Brought {
    fn at_entry(program: &Program) -> Brought {
        let mut pairs = [[0; MAX_TEMPLATES]; MAX_ARRAYS];
        for (set, array) in pairs.iter_mut().zip(&program.arrays) {
            *set = with_template(array.alignment.template, 1);
        }
        Brought(pairs)
    }

    fn after(&self, program: &Program, given: &Given, vertex: usize) -> Brought {
        let mut left = self.clone();
        match program.vertices[vertex] {
            Statement::References(_) => {}
            Statement::Realign(array, alignment) => {
                left.0[array] = with_template(alignment.template, given[vertex][array]);
            }
            Statement::Redistribute(template, _) => {
                for (pairs, versions) in left.0.iter_mut().zip(given[vertex]) {
                    pairs[template] = versions;
                }
            }
        }
        left
    }
}

/// The mappings of an array's versions, or refusal 41; puts down which ones each directive gives.
fn number(
    program: &Program,
    origins: &[Option<Origins>],
    array: usize,
    given: &mut Given,
) -> Result<Vec<Mapping>, Refusal> {
    let mut versions = vec![program.initial(array)];
    for (vertex, origins) in origins.iter().enumerate() {
        let Some(origins) = origins else { continue };
        for mapping in origins.given(program, vertex, array) {
            let known = versions.iter().position(|&version| version == mapping);
            let version = known.unwrap_or(versions.len());
            if version == MAX_VERSIONS {
                return Err(Refusal::at(41, array));
            }
            if known.is_none() {
                versions.push(mapping);
            }
            given[vertex][array] |= 1 << version;
        }
    }
    Ok(versions)
}

/// The row of a directive that remaps the arrays to which it gives versions, or refusal 42. `left`
/// has the versions in which paths leave each array.
fn remaps(
    vertex: usize,
    arrays: usize,
    given: &[Set; MAX_ARRAYS],
    left: &Brought,
) -> Result<Vec<u8>, Refusal> {
    let mut row = vec![0; arrays];
    for (array, byte) in row.iter_mut().enumerate() {
        let left = versions_of(left.0[array]);
        if given[array] == 0 {
            continue;
        }
        if left.count_ones() > 1 {
            return Err(Refusal::at_two(42, vertex, array));
        }
        *byte = remap(left.trailing_zeros() as u8);
    }
    Ok(row)
}

/// The conversion, or refusal 41 or 42.
pub fn conversion(program: &Program) -> Result<Conversion, Refusal> {
    let arrays = program.arrays.len();
    let origins = solve(program, Origins::at_entry(program), |vertex, origins| {
        origins.after(program, vertex)
    });
    let mut given = vec![[0; MAX_ARRAYS]; origins.len()];
    let versions = (0..arrays)
        .map(|array| number(program, &origins, array, &mut given))
        .collect::<Result<Vec<_>, _>>()?;
    let after = |vertex, brought: &Brought| brought.after(program, &given, vertex);
    let brought = solve(program, Brought::at_entry(program), after);
    let mut rows = Vec::new();
    for (vertex, brought) in brought.iter().enumerate() {
        rows.push(match (&program.vertices[vertex], brought) {
            (Statement::References(row), _) => row.clone(),
            (_, None) => vec![0; arrays],
            (_, Some(brought)) => remaps(vertex, arrays, &given[vertex], &after(vertex, brought))?,
        });
    }
    Ok(Conversion { versions, rows })
}
