//! The versions that paths from the entry bring to a vertex of the file, and such paths. A label
//! gives its version, kept or dropped; a call hands on what comes to it.

use crate::routine::Routine;
use hpf_remap::formats::Action;
use std::collections::{BTreeMap, VecDeque};

/// A version that comes to a vertex.
type Arrival = (usize, u8);

/// What comes to the vertices, for one array.
pub struct Arrivals {
    /// From each arrival to the one before it on a shortest path; those from the entry have none.
    before: BTreeMap<Arrival, Option<Arrival>>,
}

impl Arrivals {
    /// Searches the file's graph from the entry, widening.
    pub fn new(routine: &Routine, array: usize) -> Arrivals {
        let mut next = vec![Vec::new(); routine.rows.len()];
        for &(from, to) in &routine.edges {
            next[usize::from(from)].push(usize::from(to));
        }
        let mut before = BTreeMap::new();
        let mut queue = VecDeque::new();
        for &to in &next[0] {
            let arrival = (to, routine.arrays[array].initial);
            before.insert(arrival, None);
            queue.push_back(arrival);
        }
        while let Some(arrival @ (vertex, version)) = queue.pop_front() {
            let leaving = match routine.rows[vertex][array] {
                Action::Remap(target) => target,
                _ => version,
            };
            for &to in &next[vertex] {
                before.entry((to, leaving)).or_insert_with(|| {
                    queue.push_back((to, leaving));
                    Some(arrival)
                });
            }
        }
        Arrivals { before }
    }

    /// The versions that come to a vertex, rising.
    pub fn versions(&self, vertex: usize) -> Vec<u8> {
        let here = self.before.range((vertex, 0)..=(vertex, u8::MAX));
        here.map(|((_, version), _)| *version).collect()
    }

    /// A shortest path that brings a version to a vertex; empty if there is none.
    pub fn path(&self, vertex: usize, version: u8) -> Vec<usize> {
        let mut path = Vec::new();
        let mut at = self.before.get_key_value(&(vertex, version));
        while let Some((arrival, before)) = at {
            path.push(arrival.0);
            if before.is_none() {
                path.push(0);
            }
            at = before.and_then(|before| self.before.get_key_value(&before));
        }
        path.reverse();
        path
    }
}

/// The first vertex, and there the first array, whose reference or call is ambiguous.
pub fn ambiguous(routine: &Routine) -> Option<(usize, usize)> {
    let arrivals: Vec<Arrivals> = (0..routine.arrays.len())
        .map(|array| Arrivals::new(routine, array))
        .collect();
    let refers = |action: &Action| matches!(action, Action::Reference(_) | Action::Call(..));
    (0..routine.rows.len()).find_map(|vertex| {
        let row = routine.rows[vertex].iter().zip(&arrivals).enumerate();
        row.into_iter()
            .find(|(_, (action, arrivals))| refers(action) && arrivals.versions(vertex).len() > 1)
            .map(|(array, _)| (vertex, array))
    })
}
