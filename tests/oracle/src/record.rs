//! The report's records ("Plan and report"): what a run and the machine say of a reference.

use crate::routine::Reference;

/// The bytes of a record.
pub const RECORD: usize = 10;

/// One reference on a path.
#[derive(Clone, Copy, Debug, PartialEq, Eq)]
pub struct Record {
    pub step: u16,
    pub array: u8,
    pub version: u8,
    pub reference: Reference,
    /// Stamp seen, 0 for define and kill.
    pub seen: u16,
    /// New stamp, 0 for read and kill.
    pub new: u16,
}

impl Record {
    /// The record of a reference that finds this stamp.
    pub fn new(step: u16, array: usize, version: u8, reference: Reference, stamp: u16) -> Record {
        let sees = matches!(reference, Reference::Read | Reference::Modify);
        let gives = matches!(reference, Reference::Define | Reference::Modify);
        Record {
            step,
            array: array as u8,
            version,
            reference,
            seen: if sees { stamp } else { 0 },
            new: if gives { step } else { 0 },
        }
    }

    /// The record's bytes in the report.
    pub fn bytes(&self) -> [u8; RECORD] {
        let [step, step_high] = self.step.to_le_bytes();
        let [seen, seen_high] = self.seen.to_le_bytes();
        let [new, new_high] = self.new.to_le_bytes();
        [
            step,
            step_high,
            self.array,
            self.version,
            self.reference.kind(),
            0,
            seen,
            seen_high,
            new,
            new_high,
        ]
    }
}
