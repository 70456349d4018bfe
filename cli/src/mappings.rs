//! The mappings that paths from the entry bring to a vertex of a directive file, and such paths:
//! a search over the states of one array.

use crate::directives::{Alignment, Program, Spread, Statement};
use std::collections::{BTreeSet, HashSet};

/// So many states are searched, and no more.
const MOST_STATES: usize = 20_000;

/// What decides an array's mapping on arrival at a vertex: its alignment, and the spreads of the
/// templates with which it can be aligned.
#[derive(Clone, Debug, PartialEq, Eq, Hash)]
struct State {
    alignment: Alignment,
    spreads: Vec<Spread>,
}

impl State {
    fn mapping(&self) -> Spread {
        let Spread(first, second) = self.spreads[usize::from(self.alignment.template)];
        match self.alignment.exchanged {
            true => Spread(second, first),
            false => Spread(first, second),
        }
    }
}

/// What comes to the vertices, for one array.
pub struct Search<'p> {
    program: &'p Program,
    array: usize,
    /// A vertex, a state that comes to it, and where on a shortest path it comes from.
    found: Vec<(usize, State, Option<usize>)>,
    /// Whether there is nothing beyond these.
    pub is_complete: bool,
}

impl<'p> Search<'p> {
    /// Searches from the entry, widening.
    pub fn new(program: &'p Program, array: usize) -> Search<'p> {
        let mut next = vec![Vec::new(); program.vertices.len()];
        for &(from, to) in &program.edges {
            next[usize::from(from)].push(usize::from(to));
        }
        let start = State {
            alignment: program.arrays[array].alignment,
            spreads: program.templates.clone(),
        };
        let mut known = HashSet::from([(0, start.clone())]);
        let mut search = Search {
            program,
            array,
            found: vec![(0, start, None)],
            is_complete: false,
        };
        let matters = search.templates();
        let mut at = 0;
        while at < search.found.len() && at < MOST_STATES {
            let vertex = search.found[at].0;
            let left = search.left(at, &matters);
            for &to in &next[vertex] {
                let arrival = (to, left.clone());
                if known.insert(arrival) {
                    search.found.push((to, left.clone(), Some(at)));
                }
            }
            at += 1;
        }
        search.is_complete = at == search.found.len();
        search
    }

    /// The templates with which the array can be aligned.
    fn templates(&self) -> BTreeSet<u8> {
        let realigned = self.program.vertices.iter().filter_map(|statement| {
            let Statement::Realign(array, alignment) = statement else {
                return None;
            };
            (usize::from(*array) == self.array).then_some(alignment.template)
        });
        let first = self.program.arrays[self.array].alignment.template;
        realigned.chain([first]).collect()
    }

    /// The state behind a vertex.
    fn left(&self, at: usize, matters: &BTreeSet<u8>) -> State {
        let (vertex, state, _) = &self.found[at];
        let mut state = state.clone();
        match &self.program.vertices[*vertex] {
            Statement::Realign(array, alignment) if usize::from(*array) == self.array => {
                state.alignment = *alignment;
            }
            Statement::Redistribute(template, spread) if matters.contains(template) => {
                state.spreads[usize::from(*template)] = *spread;
            }
            _ => {}
        }
        state
    }

    /// Whether a vertex's directive remaps the array in a state that comes to it.
    fn is_remapped(&self, vertex: usize, state: &State) -> bool {
        match &self.program.vertices[vertex] {
            Statement::Realign(array, _) => usize::from(*array) == self.array,
            Statement::Redistribute(template, _) => state.alignment.template == *template,
            Statement::References(_) => false,
        }
    }

    /// The different mappings among these, each with a path to it.
    fn different(
        &self,
        mappings: impl Iterator<Item = (usize, Spread)>,
    ) -> Vec<(Spread, Vec<usize>)> {
        let mut found: Vec<(Spread, Vec<usize>)> = Vec::new();
        for (at, mapping) in mappings {
            if found.iter().all(|(known, _)| *known != mapping) {
                found.push((mapping, self.path(at)));
            }
        }
        found
    }

    fn path(&self, at: usize) -> Vec<usize> {
        let before = |at: &usize| self.found[*at].2;
        let mut path: Vec<usize> = std::iter::successors(Some(at), before)
            .map(|at| self.found[at].0)
            .collect();
        path.reverse();
        path
    }

    /// The mappings in which the array comes to a vertex.
    pub fn coming(&self, vertex: usize) -> Vec<(Spread, Vec<usize>)> {
        let here = self.found.iter().enumerate();
        let here = here.filter(|(_, (at, ..))| *at == vertex);
        self.different(here.map(|(at, (_, state, _))| (at, state.mapping())))
    }

    /// The mappings in which a vertex leaves the array.
    pub fn leaving(&self, vertex: usize) -> Vec<(Spread, Vec<usize>)> {
        let matters = self.templates();
        let here = (0..self.found.len()).filter(|&at| self.found[at].0 == vertex);
        self.different(here.map(|at| (at, self.left(at, &matters).mapping())))
    }

    /// How many mappings the array can have: that with which it starts, and all that directives
    /// give it.
    pub fn count(&self) -> usize {
        let matters = self.templates();
        let given = (0..self.found.len()).filter(|&at| {
            let (vertex, state, _) = &self.found[at];
            at == 0 || self.is_remapped(*vertex, state)
        });
        self.different(given.map(|at| (at, self.left(at, &matters).mapping())))
            .len()
    }
}
