//! Copying at every remapping (document 01, "Run"): what is held for an array, its stamp and the
//! copies. It is fed the arrays, the actions and the path, and nothing of the plan or of the run.

use crate::routine::{Array, Event};
use hpf_remap::formats::{CALLERS_STAMP, NEVER_GIVEN, Reference};

#[derive(Clone, Copy, Debug, PartialEq, Eq)]
pub struct Machine {
    pub held: u8,
    pub stamp: u16,
    pub copies: usize,
    /// What was held when the last call was come to.
    before_call: u8,
}

impl Machine {
    pub fn new(array: &Array) -> Machine {
        Machine {
            held: array.initial,
            stamp: match array.kind.brings_value() {
                true => CALLERS_STAMP,
                false => NEVER_GIVEN,
            },
            copies: 0,
            before_call: array.initial,
        }
    }

    /// The version of a label that is come to, if the event is one.
    pub fn target(&self, event: Event) -> Option<u8> {
        match event {
            Event::Nothing | Event::Reference(_) => None,
            Event::Label(version) | Event::Pass(version) => Some(version),
            Event::Back => Some(self.before_call),
        }
    }

    /// Takes a step.
    pub fn take(&mut self, event: Event, step: u16) {
        if let Event::Pass(_) = event {
            self.before_call = self.held;
        }
        if let Some(version) = self.target(event) {
            self.copies += usize::from(version != self.held);
            self.held = version;
        }
        if let Event::Reference(reference) = event {
            self.stamp = match reference {
                Reference::Read => self.stamp,
                Reference::Define | Reference::Modify => step,
                Reference::Kill => NEVER_GIVEN,
            };
        }
    }
}
