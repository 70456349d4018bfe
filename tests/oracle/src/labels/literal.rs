//! The label rules by listing paths, for small routines.
//!
//! Every rule asks for a path of at most two stretches that join at a label: from the
//! entry to a last label, and on from a label. Cutting a loop out of a stretch keeps what
//! the rules ask of it, so the paths on which each vertex stands at most twice decide.

use super::{Label, Use, refusal_20, refusal_21};
use crate::calls::{self, Room};
use crate::outcome::Refusal;
use crate::routine::{Array, Event, Kind, Reference, Routine, Set};

/// A kill is a define in every rule.
const DEFINES: [Reference; 2] = [Reference::Define, Reference::Kill];

/// One array in its graph.
struct View {
    array: Array,
    events: Vec<Event>,
    successors: Vec<Vec<usize>>,
}

impl View {
    fn new(routine: &Routine, array: usize) -> View {
        let mut successors = vec![Vec::new(); routine.vertex_count()];
        for (from, to) in routine.edges() {
            successors[from].push(to);
        }
        View {
            array: routine.array(array),
            events: (0..routine.vertex_count())
                .map(|vertex| routine.event(vertex, array))
                .collect(),
            successors,
        }
    }

    /// Shows `visit` every path from `start`; it says whether to go further.
    fn each_path(&self, start: usize, visit: &mut dyn FnMut(&[usize]) -> bool) {
        self.extend(&mut vec![start], visit);
    }

    fn extend(&self, path: &mut Vec<usize>, visit: &mut dyn FnMut(&[usize]) -> bool) {
        if !visit(path) {
            return;
        }
        for &next in &self.successors[path[path.len() - 1]] {
            if path.iter().filter(|&&vertex| vertex == next).count() < 2 {
                path.push(next);
                self.extend(path, visit);
                path.pop();
            }
        }
    }

    fn is_label(&self, vertex: usize) -> bool {
        matches!(self.events[vertex], Event::Label(_))
    }

    fn is(&self, vertex: usize, references: &[Reference]) -> bool {
        match self.events[vertex] {
            Event::Reference(reference) => references.contains(&reference),
            _ => false,
        }
    }

    /// The segments of a label, without the label they start at.
    fn segments(&self, label: usize) -> Vec<Vec<usize>> {
        let mut segments = Vec::new();
        self.each_path(label, &mut |path| {
            segments.push(path[1..].to_vec());
            path.len() == 1 || !self.is_label(path[path.len() - 1])
        });
        segments
    }

    /// A read, a modify or the next label, without a define before it.
    fn needs_old_value(&self, segment: &[usize]) -> bool {
        segment.iter().enumerate().any(|(index, &vertex)| {
            let met =
                self.is(vertex, &[Reference::Read, Reference::Modify]) || self.is_label(vertex);
            let defined = segment[..index]
                .iter()
                .any(|&earlier| self.is(earlier, &DEFINES));
            met && !defined
        })
    }

    /// **Use** of the label at a vertex.
    fn letter(&self, label: usize) -> Use {
        if label + 1 == self.events.len() {
            return Use::AT_EXIT;
        }
        let segments = self.segments(label);
        let some_meets = |references: &[Reference]| {
            segments
                .iter()
                .any(|segment| segment.iter().any(|&vertex| self.is(vertex, references)))
        };
        let read = some_meets(&[Reference::Read]);
        let change = some_meets(&DEFINES) || some_meets(&[Reference::Modify]);
        if !read && !change {
            Use::N
        } else if !segments.iter().any(|segment| self.needs_old_value(segment)) {
            Use::D
        } else if read && !change {
            Use::R
        } else {
            Use::W
        }
    }

    /// Versions of the last label before the vertex, dropped ones included.
    fn last_versions(&self, vertex: usize) -> Set {
        let mut versions = 0;
        self.each_path(0, &mut |path| {
            if let [before @ .., last] = path
                && *last == vertex
            {
                let label = before.iter().rev().find_map(|&v| match self.events[v] {
                    Event::Label(version) => Some(version),
                    _ => None,
                });
                versions |= label.map_or(0, |version| 1 << version);
            }
            true
        });
        versions
    }

    fn labels(&self) -> Vec<Option<Label>> {
        let letters: Vec<Option<Use>> = (0..self.events.len())
            .map(|vertex| self.is_label(vertex).then(|| self.letter(vertex)))
            .collect();
        let leaving = |vertex: usize| match (self.events[vertex], letters[vertex]) {
            (Event::Label(version), Some(Use::D | Use::R | Use::W)) => Some(version),
            _ => None,
        };
        let reaching = |vertex: usize| {
            let mut versions: Set = 0;
            self.each_path(0, &mut |path| {
                if let [before @ .., last] = path
                    && *last == vertex
                {
                    match before.iter().rev().find_map(|&v| leaving(v)) {
                        Some(version) => versions |= 1 << version,
                        None if matches!(self.array.kind, Kind::In | Kind::Inout) => {
                            versions |= 1 << self.array.initial
                        }
                        None => {}
                    }
                }
                true
            });
            versions
        };
        let kept = |vertex: usize| {
            let mut versions: Set = leaving(vertex).map_or(0, |version| 1 << version);
            self.each_path(vertex, &mut |path| {
                if let [before @ .., last] = path
                    && before
                        .iter()
                        .all(|&v| matches!(letters[v], None | Some(Use::N | Use::R)))
                {
                    versions |= leaving(*last).map_or(0, |version| 1 << version);
                }
                true
            });
            versions
        };
        (0..self.events.len())
            .map(|vertex| match (self.events[vertex], letters[vertex]) {
                (Event::Label(version), Some(letter)) => Some(Label {
                    letter,
                    version,
                    reaching: reaching(vertex),
                    kept: kept(vertex),
                }),
                _ => None,
            })
            .collect()
    }
}

fn views(routine: &Routine) -> Vec<View> {
    (0..routine.array_count())
        .map(|array| View::new(routine, array))
        .collect()
}

/// The labels of every array of a routine without calls, by array, then vertex.
pub fn labels(routine: &Routine) -> Vec<Vec<Option<Label>>> {
    views(routine).iter().map(View::labels).collect()
}

/// Refusal 20 or 21 of a file's routine, if there is one.
pub fn refusal(file: &Routine) -> Option<Refusal> {
    let views = views(file);
    let arriving = |vertex, array: usize| views[array].last_versions(vertex);
    refusal_20(file).or_else(|| refusal_21(file, arriving))
}

/// A file's routine that is not refused, with its calls expanded.
pub fn expanded<'a>(file: &Routine<'a>, room: &'a mut Room) -> Routine<'a> {
    let views = views(file);
    let arriving = |vertex, array: usize| views[array].last_versions(vertex);
    calls::expanded(file, arriving, room)
}

/// A file's routine with its calls expanded, or refusal 20 or 21.
pub fn accept<'a>(file: &Routine<'a>, room: &'a mut Room) -> Result<Routine<'a>, Refusal> {
    match refusal(file) {
        Some(refusal) => Err(refusal),
        None => Ok(expanded(file, room)),
    }
}
