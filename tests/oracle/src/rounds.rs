//! Rounds over the edges (request 5 of document 02): after how many of them a pass of the planner
//! stops.
//!
//! A pass finds a set for each vertex and array, empty at first. A round takes every edge once, in
//! some order: the set at its near end grows by what its far end gives, and by what that end holds
//! and passes on. The first round that alters no set is the last, and counts. The order is the
//! planner's own, and so is the number. Here is what all orders share; and where few edges hand
//! anything on, every number that some order gives.

use crate::calls::Room;
use crate::labels::fixpoint::{Solved, Wide};
use crate::labels::{Label, Labels, Use, literal};
use crate::outcome::{Outcome, Refusal};
use crate::routine::{Event, MAX_ARRAYS, Reference, Routine, Set};

/// The most bytes that are written: two for each of six passes.
pub const LONGEST_ROUNDS: usize = 12;

/// All orders of so many edges are tried.
const FEW_EDGES: usize = 6;

const EVERY: Set = !0;

/// Writes the rounds of each pass for a routine file over the front of `out`: those of the order in
/// which facts travel furthest if the vertices are numbered along the edges.
pub fn rounds(file: &[u8], out: &mut [u8]) -> Outcome {
    rounds_in(file, |_| {}, out)
}

/// The same with the edges of each pass put into another order.
pub fn rounds_in(file: &[u8], mut order: impl FnMut(&mut [Edge]), out: &mut [u8]) -> Outcome {
    Outcome::of(Routine::parse(file).and_then(|file| {
        let (mut solved, mut room) = (Solved::<Wide>::EMPTY, Room::EMPTY);
        let routine = solved.accept(&file, &mut room)?;
        let out = room_in(out, &file)?;
        let mut passes = passes(&file, &routine, &solved);
        for pass in &mut passes {
            order(&mut pass.edges);
        }
        Ok(write(&passes, out))
    }))
}

/// The rounds of the first order with the labels by listing paths, for small routines.
pub fn rounds_by_paths(file: &[u8], out: &mut [u8]) -> Outcome {
    Outcome::of(Routine::parse(file).and_then(|file| {
        let mut room = Room::EMPTY;
        let routine = literal::accept(&file, &mut room)?;
        let out = room_in(out, &file)?;
        let labels = literal::labels(&routine);
        Ok(write(&passes(&file, &routine, &labels), out))
    }))
}

/// The part of a buffer that is written, for four passes or six; or refusal 1.
fn room_in<'o>(out: &'o mut [u8], file: &Routine) -> Result<&'o mut [u8], Refusal> {
    let needed = if file.call_count() > 0 { 12 } else { 8 };
    out.get_mut(..needed).ok_or(Refusal::at(1, needed))
}

fn write(passes: &[Pass], out: &mut [u8]) -> usize {
    assert_eq!(2 * passes.len(), out.len());
    for (word, pass) in out.as_chunks_mut::<2>().0.iter_mut().zip(passes) {
        *word = (pass.rounds(&pass.edges) as u16).to_le_bytes();
    }
    out.len()
}

/// What is wrong with the numbers written for an accepted file, in words.
pub fn fault(file: &[u8], written: &[u8]) -> Option<String> {
    let file = Routine::parse(file).ok()?;
    let (mut solved, mut room) = (Solved::<Wide>::EMPTY, Room::EMPTY);
    let routine = solved.accept(&file, &mut room).ok()?;
    let passes = passes(&file, &routine, &solved);
    let numbers = written.as_chunks::<2>().0.iter().map(number);
    passes.iter().zip(numbers).find_map(|(pass, number)| {
        let fault = pass.fault(number)?;
        Some(format!("{}: {number} rounds, {fault}", pass.name))
    })
}

fn number(word: &[u8; 2]) -> usize {
    usize::from(u16::from_le_bytes(*word))
}

/// A set for each array.
#[derive(Clone, Copy, Default, PartialEq, Eq)]
struct Sets([Set; MAX_ARRAYS]);

impl Sets {
    /// These sets, of each that of the same array.
    fn joined(self, other: Sets, join: impl Fn(Set, Set) -> Set) -> Sets {
        Sets(std::array::from_fn(|array| {
            join(self.0[array], other.0[array])
        }))
    }

    fn is_empty(self) -> bool {
        self == Sets::default()
    }
}

/// The end of an edge that hands on, and the one that takes.
pub type Edge = (usize, usize);

/// One pass over the edges.
struct Pass {
    name: &'static str,
    /// Whether it is made.
    made: bool,
    edges: Vec<Edge>,
    /// What each vertex gives, and of what it holds passes on.
    gives: Vec<Sets>,
    passes: Vec<Sets>,
}

impl Pass {
    /// A pass from ends to starts of edges, by falling numbers.
    fn against(
        name: &'static str,
        routine: &Routine,
        facts: impl Fn(usize, usize) -> (Set, Set),
    ) -> Pass {
        let edges = routine.edges().map(|(from, to)| (to, from));
        let mut edges: Vec<Edge> = edges.collect();
        edges.reverse();
        Pass::new(name, routine, edges, facts)
    }

    /// A pass from starts to ends of edges, by rising numbers.
    fn along(
        name: &'static str,
        routine: &Routine,
        facts: impl Fn(usize, usize) -> (Set, Set),
    ) -> Pass {
        Pass::new(name, routine, routine.edges().collect(), facts)
    }

    fn new(
        name: &'static str,
        routine: &Routine,
        edges: Vec<Edge>,
        facts: impl Fn(usize, usize) -> (Set, Set),
    ) -> Pass {
        let vertices = 0..routine.vertex_count();
        let row = |vertex: usize| {
            let (mut gives, mut passes) = (Sets::default(), Sets::default());
            for array in 0..routine.array_count() {
                (gives.0[array], passes.0[array]) = facts(vertex, array);
            }
            (gives, passes)
        };
        let (gives, passes) = vertices.map(row).unzip();
        Pass {
            name,
            made: true,
            edges,
            gives,
            passes,
        }
    }

    fn handed(&self, sets: &[Sets], far: usize) -> Sets {
        let passed = sets[far].joined(self.passes[far], |held, passes| held & passes);
        passed.joined(self.gives[far], |passed, gives| passed | gives)
    }

    /// The set at an edge's near end, with what its far end hands on.
    fn after(&self, sets: &[Sets], far: usize, near: usize) -> Sets {
        let handed = self.handed(sets, far);
        handed.joined(sets[near], |handed, held| handed | held)
    }

    /// The number of rounds if each takes these edges in this order.
    fn rounds(&self, edges: &[Edge]) -> usize {
        if !self.made {
            return 0;
        }
        let mut sets = vec![Sets::default(); self.gives.len()];
        let mut rounds = 0;
        let mut altered = true;
        while altered {
            altered = false;
            rounds += 1;
            for &(far, near) in edges {
                let after = self.after(&sets, far, near);
                altered |= after != sets[near];
                sets[near] = after;
            }
        }
        rounds
    }

    /// The sets in the end, and the number of rounds if every edge handed on what its far end held
    /// when the round began. No order takes more: round by round its sets have all that these have.
    fn slowest(&self) -> (Vec<Sets>, usize) {
        let mut sets = vec![Sets::default(); self.gives.len()];
        let mut rounds = 0;
        loop {
            rounds += 1;
            let before = sets.clone();
            for &(far, near) in &self.edges {
                let handed = self.handed(&before, far);
                sets[near] = handed.joined(sets[near], |handed, held| handed | held);
            }
            if sets == before {
                return (sets, rounds);
            }
        }
    }

    /// Whether some order of the edges, those before `from` being fixed, gives this number.
    fn some_order_gives(&self, edges: &mut [Edge], from: usize, number: usize) -> bool {
        if from == edges.len() {
            return self.rounds(edges) == number;
        }
        (from..edges.len()).any(|next| {
            edges.swap(from, next);
            let given = self.some_order_gives(edges, from + 1, number);
            edges.swap(from, next);
            given
        })
    }

    /// Why no order of the edges gives this number of rounds, as far as that is seen.
    fn fault(&self, number: usize) -> Option<String> {
        if number == self.rounds(&self.edges) {
            return None;
        }
        if !self.made {
            return Some(String::from("each vertex is entered from an earlier one"));
        }
        // An edge that never hands anything on alters nothing, wherever it stands. If there are
        // others, the first round alters a set: one of them starts at a vertex that gives.
        let (sets, most) = self.slowest();
        let mut edges = self.edges.clone();
        edges.retain(|&(far, _)| !self.handed(&sets, far).is_empty());
        let least = if edges.is_empty() { 1 } else { 2 };
        if number < least || most < number {
            return Some(format!("any order takes {least} to {most}"));
        }
        let tried = edges.len() <= FEW_EDGES;
        (tried && !self.some_order_gives(&mut edges, 0, number))
            .then(|| String::from("no order takes so many"))
    }
}

/// The passes of an accepted file, in the order in which they are made; `routine` has its calls
/// expanded, and these labels.
fn passes(file: &Routine, routine: &Routine, labels: &impl Labels) -> Vec<Pass> {
    let mut passes = Vec::new();
    if file.call_count() > 0 {
        let reached = reached("reached vertices of the file", file);
        let arriving = arriving(file, &reached);
        passes.extend([reached, arriving]);
    }
    let mut at = vec![vec![None; routine.array_count()]; routine.vertex_count()];
    for (vertex, row) in at.iter_mut().enumerate() {
        for (array, label) in labels.at(vertex) {
            row[array] = Some(label);
        }
    }
    let reached = reached("reached vertices", routine);
    let reaching = reaching(routine, &reached, &at);
    passes.extend([letters(routine), reached, reaching, kept(routine, &at)]);
    passes
}

/// Labels by vertex, then array.
type Rows = [Vec<Option<Label>>];

fn version_if(given: bool, version: u8) -> Set {
    if given { 1 << version } else { 0 }
}

/// What a segment meets, by the words of **use**: bit 0 a reference; bit 1 a read, a modify or the
/// next label without a define before it; bit 2 a read; bit 3 a define or modify.
fn letters(routine: &Routine) -> Pass {
    Pass::against("letters", routine, |vertex, array| {
        match routine.event(vertex, array) {
            Event::Nothing | Event::Call(_) => (0b0000, 0b1111),
            Event::Reference(Reference::Read) => (0b0111, 0b1111),
            Event::Reference(Reference::Define | Reference::Kill) => (0b1001, 0b1101),
            Event::Reference(Reference::Modify) => (0b1011, 0b1111),
            Event::Label(_) => (0b0010, 0b0000),
        }
    })
}

/// Whether a path from the entry gets to a vertex. Where each vertex but the entry is entered from
/// an earlier one, no pass is made, and its number is 0.
fn reached(name: &'static str, routine: &Routine) -> Pass {
    let pass = Pass::along(name, routine, |vertex, _| (Set::from(vertex == 0), 1));
    let made = !entered_from_earlier(routine);
    Pass { made, ..pass }
}

/// Whether each vertex but the entry is entered from one with a lower number.
fn entered_from_earlier(routine: &Routine) -> bool {
    let mut entered = vec![false; routine.vertex_count()];
    entered[0] = true;
    for (from, to) in routine.edges() {
        entered[to] |= from < to;
    }
    entered.iter().all(|&entered| entered)
}

/// Whether a path gets to each vertex, the entry included.
fn marks(reached: &Pass) -> Vec<bool> {
    let (sets, _) = reached.slowest();
    let marks = sets.iter().enumerate();
    marks
        .map(|(vertex, &set)| vertex == 0 || !set.is_empty())
        .collect()
}

/// The versions of the last labels on paths from the entry.
fn arriving(file: &Routine, reached: &Pass) -> Pass {
    let marks = marks(reached);
    Pass::along("arriving versions", file, |vertex, array| {
        match file.event(vertex, array) {
            Event::Label(version) => (version_if(marks[vertex], version), 0),
            _ => (0, EVERY),
        }
    })
}

/// **Reaching**: the versions of the last kept labels, and the initial one of in and inout.
fn reaching(routine: &Routine, reached: &Pass, labels: &Rows) -> Pass {
    let marks = marks(reached);
    Pass::along("reaching sets", routine, |vertex, array| {
        let Some(label) = labels[vertex][array] else {
            return (0, EVERY);
        };
        let initial = vertex == 0 && routine.array(array).kind.brings_value();
        let gives = marks[vertex] && (label.is_kept() || initial);
        let passes = if label.is_kept() { 0 } else { EVERY };
        (version_if(gives, label.version), passes)
    })
}

/// **Kept set**: the leaving versions ahead, through all labels but D and W.
fn kept(routine: &Routine, labels: &Rows) -> Pass {
    Pass::against("kept sets", routine, |vertex, array| {
        let Some(label) = labels[vertex][array] else {
            return (0, EVERY);
        };
        let passes = match label.letter {
            Use::N | Use::R => EVERY,
            Use::D | Use::W => 0,
        };
        (version_if(label.is_kept(), label.version), passes)
    })
}
