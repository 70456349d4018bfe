//! The label rules by searching explicit path states, for routines of any size.
//!
//! A state is a vertex and what the path that arrived there has met so far. Each rule is
//! asked for each vertex by itself, from the words of "Labels".

use super::{Label, Use, refusal_20, refusal_21};
use crate::calls::{self, Room};
use crate::outcome::Refusal;
use crate::routine::{Array, Event, MAX_VERSIONS, Reference, Routine, Set};

/// One array in its graph.
struct View<'a> {
    array: Array,
    events: Vec<Event>,
    successors: &'a [Vec<usize>],
}

/// What the segments of a label meet.
#[derive(Default)]
struct Met {
    reference: bool,
    read: bool,
    change: bool,
    /// A read, a modify or the next label, without a define before it.
    old_value: bool,
}

/// All states that the paths from `start` come to, `start` included.
fn states<const KINDS: usize>(
    vertices: usize,
    start: (usize, usize),
    mut next: impl FnMut((usize, usize), &mut Vec<(usize, usize)>),
) -> Vec<[bool; KINDS]> {
    let mut seen = vec![[false; KINDS]; vertices];
    let mut open = vec![start];
    seen[start.0][start.1] = true;
    let mut following = Vec::new();
    while let Some(state) = open.pop() {
        next(state, &mut following);
        for (vertex, kind) in following.drain(..) {
            if !seen[vertex][kind] {
                seen[vertex][kind] = true;
                open.push((vertex, kind));
            }
        }
    }
    seen
}

impl View<'_> {
    /// Takes every segment of a label; the state is whether a define was met.
    fn met(&self, label: usize) -> Met {
        let mut met = Met::default();
        for &first in &self.successors[label] {
            states::<2>(self.events.len(), (first, 0), |(vertex, defined), next| {
                let mut defined_after = defined;
                match self.events[vertex] {
                    Event::Nothing | Event::Call(_) => {}
                    Event::Label(_) => {
                        met.old_value |= defined == 0;
                        return;
                    }
                    Event::Reference(reference) => {
                        met.reference = true;
                        met.read |= reference == Reference::Read;
                        met.change |= reference.changes();
                        met.old_value |= !reference.is_define() && defined == 0;
                        if reference.is_define() {
                            defined_after = 1;
                        }
                    }
                }
                next.extend(self.successors[vertex].iter().map(|&v| (v, defined_after)));
            });
        }
        met
    }

    /// **Use** of the label at a vertex.
    fn letter(&self, label: usize) -> Use {
        if label + 1 == self.events.len() {
            return Use::AT_EXIT;
        }
        let met = self.met(label);
        if !met.reference {
            Use::N
        } else if !met.old_value {
            Use::D
        } else if met.read && !met.change {
            Use::R
        } else {
            Use::W
        }
    }

    /// For each vertex the versions that paths from the entry bring to it, where
    /// `replaced` gives the version that a path carries on from a vertex, if it changes,
    /// and `brought` the one that it carries into the entry.
    fn arriving(&self, brought: Option<u8>, replaced: impl Fn(usize) -> Option<u8>) -> Vec<Set> {
        const NONE: usize = MAX_VERSIONS;
        let start = brought.map_or(NONE, usize::from);
        let seen =
            states::<{ NONE + 1 }>(self.events.len(), (0, start), |(vertex, carried), next| {
                let leaves = replaced(vertex).map_or(carried, usize::from);
                next.extend(self.successors[vertex].iter().map(|&v| (v, leaves)));
            });
        let mask = |kinds: &[bool; NONE + 1]| {
            (0..NONE)
                .filter(|&version| kinds[version])
                .fold(0, |mask, version| mask | 1 << version)
        };
        seen.iter().map(mask).collect()
    }

    /// Versions of the last label on the paths to each vertex, dropped ones included.
    fn last_versions(&self) -> Vec<Set> {
        self.arriving(None, |vertex| match self.events[vertex] {
            Event::Label(version) => Some(version),
            _ => None,
        })
    }

    fn labels(&self) -> Vec<Option<Label>> {
        let vertices = self.events.len();
        let letters: Vec<Option<(Use, u8)>> = (0..vertices)
            .map(|vertex| match self.events[vertex] {
                Event::Label(version) => Some((self.letter(vertex), version)),
                _ => None,
            })
            .collect();
        let leaving = |vertex: usize| match letters[vertex] {
            Some((Use::D | Use::R | Use::W, version)) => Some(version),
            _ => None,
        };
        let brought = self.array.kind.brings_value().then_some(self.array.initial);
        let reaching = self.arriving(brought, leaving);
        let kept = |label: usize| {
            let seen = states::<1>(vertices, (label, 0), |(vertex, _), next| {
                if !matches!(letters[vertex], Some((Use::D | Use::W, _))) {
                    next.extend(self.successors[vertex].iter().map(|&v| (v, 0)));
                }
            });
            (0..vertices)
                .filter(|&vertex| seen[vertex][0])
                .filter_map(leaving)
                .fold(0, |mask, version| mask | 1 << version)
        };
        (0..vertices)
            .map(|vertex| {
                letters[vertex].map(|(letter, version)| Label {
                    letter,
                    version,
                    reaching: reaching[vertex],
                    kept: kept(vertex),
                })
            })
            .collect()
    }
}

fn successors(routine: &Routine) -> Vec<Vec<usize>> {
    let mut successors = vec![Vec::new(); routine.vertex_count()];
    for (from, to) in routine.edges() {
        successors[from].push(to);
    }
    successors
}

fn views<'a>(routine: &Routine, successors: &'a [Vec<usize>]) -> Vec<View<'a>> {
    (0..routine.array_count())
        .map(|array| View {
            array: routine.array(array),
            events: (0..routine.vertex_count())
                .map(|vertex| routine.event(vertex, array))
                .collect(),
            successors,
        })
        .collect()
}

/// The labels of every array of a routine without calls, by array, then vertex.
pub fn labels(routine: &Routine) -> Vec<Vec<Option<Label>>> {
    views(routine, &successors(routine))
        .iter()
        .map(View::labels)
        .collect()
}

/// Versions of the last label on the paths to each vertex, by array.
fn last_versions(file: &Routine) -> Vec<Vec<Set>> {
    views(file, &successors(file))
        .iter()
        .map(View::last_versions)
        .collect()
}

/// Refusal 20 or 21 of a file's routine, if there is one.
pub fn refusal(file: &Routine) -> Option<Refusal> {
    let arriving = last_versions(file);
    let refusal_21 = || refusal_21(file, |vertex, array| arriving[array][vertex]);
    refusal_20(file).or_else(refusal_21)
}

/// A file's routine that is not refused, with its calls expanded.
pub fn expanded<'a>(file: &Routine<'a>, room: &'a mut Room) -> Routine<'a> {
    let arriving = last_versions(file);
    calls::expanded(file, |vertex, array| arriving[array][vertex], room)
}
