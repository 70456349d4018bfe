//! Labels ("Labels") and refusals 20 and 21.

pub mod fixpoint;
pub mod literal;
pub mod search;

use crate::outcome::Refusal;
use crate::routine::{Event, Kind, Routine, Set};

/// **Use** of a label.
#[derive(Clone, Copy, Debug, PartialEq, Eq)]
pub enum Use {
    N,
    D,
    R,
    W,
}

impl Use {
    /// The letter as it stands in the plan.
    pub fn letter(self) -> u8 {
        match self {
            Use::N => b'N',
            Use::D => b'D',
            Use::R => b'R',
            Use::W => b'W',
        }
    }

    /// Use of a label at the exit, which out and inout arguments have.
    pub const AT_EXIT: Use = Use::W;
}

/// One label of the plan.
#[derive(Clone, Copy, Debug, PartialEq, Eq)]
pub struct Label {
    pub letter: Use,
    /// The label's version, whether it leaves or not.
    pub version: u8,
    /// **Reaching** set.
    pub reaching: Set,
    /// **Kept set**.
    pub kept: Set,
}

impl Label {
    /// A label is kept if it is not N.
    pub fn is_kept(&self) -> bool {
        self.letter != Use::N
    }

    /// **Leaving** version, or none for N.
    pub fn leaving(&self) -> Option<u8> {
        self.is_kept().then_some(self.version)
    }
}

/// The labels of a routine, as a form of the rules works them out.
pub trait Labels {
    /// The arrays with a label at a vertex, rising, each with its label.
    fn at(&self, vertex: usize) -> impl Iterator<Item = (usize, Label)>;
}

/// Labels by array, then vertex.
impl Labels for Vec<Vec<Option<Label>>> {
    fn at(&self, vertex: usize) -> impl Iterator<Item = (usize, Label)> {
        let labels = self.iter().map(move |labels| labels[vertex]);
        labels
            .enumerate()
            .filter_map(|(array, label)| Some((array, label?)))
    }
}

/// The first event of a file's routine that passes a test, by vertex, then array, as a refusal.
fn first_event(
    number: u64,
    file: &Routine,
    test: impl Fn(usize, usize, Event) -> bool,
) -> Option<Refusal> {
    for vertex in 0..file.vertex_count() {
        for array in 0..file.array_count() {
            if test(vertex, array, file.event(vertex, array)) {
                return Some(Refusal::at_two(number, vertex, array));
            }
        }
    }
    None
}

/// The first define, modify or kill of an in argument, or call that passes one as out or inout.
pub fn refusal_20(file: &Routine) -> Option<Refusal> {
    first_event(20, file, |_, array, event| {
        let changes = match event {
            Event::Reference(reference) => reference.changes(),
            Event::Call(call) => call.intent.reference().changes(),
            Event::Nothing | Event::Label(_) => false,
        };
        changes && file.array(array).kind == Kind::In
    })
}

/// The first reference, or array passed to a call, that two versions may come to. `arriving` gives
/// those that come, by vertex and array: of the last labels before it on paths from the entry,
/// dropped ones included. A call is no label, and hands on all that come.
fn refusal_21(file: &Routine, arriving: impl Fn(usize, usize) -> Set) -> Option<Refusal> {
    first_event(21, file, |vertex, array, event| {
        let names_one = matches!(event, Event::Reference(_) | Event::Call(_));
        names_one && arriving(vertex, array).count_ones() > 1
    })
}
