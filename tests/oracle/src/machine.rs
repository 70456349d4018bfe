//! The machine that copies at every remapping ("Run", second part). It is fed the arrays,
//! the action bytes, with calls expanded, and the path, and nothing of the plan or of the run.

use crate::record::Record;
use crate::routine::{Action, Array, Reference};

/// What the machine has for one array.
#[derive(Clone, Copy, Debug, PartialEq, Eq)]
pub struct Machine {
    pub held: u8,
    pub stamp: u16,
    pub count: usize,
}

/// Takes the path's vertices in order: the last state of each array and the references.
pub fn run(arrays: &[Array], actions: &[u8], path: &[usize]) -> (Vec<Machine>, Vec<Record>) {
    let mut machines: Vec<Machine> = arrays
        .iter()
        .map(|array| Machine {
            held: array.initial,
            stamp: if array.kind.brings_value() { 65_535 } else { 0 },
            count: 0,
        })
        .collect();
    let exit = actions.len() / arrays.len() - 1;
    let mut records = Vec::new();
    for (index, &vertex) in path.iter().enumerate() {
        let step = index as u16 + 1;
        for (array, machine) in machines.iter_mut().enumerate() {
            let kind = arrays[array].kind;
            let entry_or_exit = vertex == 0 || vertex == exit && kind.is_out_or_inout();
            match Action::from_byte(actions[vertex * arrays.len() + array]) {
                _ if entry_or_exit => machine.label(arrays[array].initial),
                Some(Action::Remap(version)) => machine.label(version),
                Some(Action::Reference(reference)) => {
                    records.push(machine.reference(step, array, reference));
                }
                Some(Action::Nothing | Action::Call(_)) | None => {}
            }
        }
    }
    (machines, records)
}

impl Machine {
    /// At each label, kept or dropped; the stamp stays.
    fn label(&mut self, version: u8) {
        if version != self.held {
            self.count += 1;
        }
        self.held = version;
    }

    /// A reference uses the held version. All but a read give the new stamp, which a kill makes 0.
    fn reference(&mut self, step: u16, array: usize, reference: Reference) -> Record {
        let record = Record::new(step, array, self.held, reference, self.stamp);
        if reference.changes() {
            self.stamp = record.new;
        }
        record
    }
}
