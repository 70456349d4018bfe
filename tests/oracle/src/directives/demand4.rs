//! What request 4 promises of references, on a report: the report has each reference of the
//! directive file along the path, in a version whose mapping is the one that the directives give.

use super::meaning::State;
use super::{Mapping, Program, Statement};
use crate::builder::REFERENCES;
use crate::record::RECORD;
use crate::run::{self, Parts};

/// A reference: its step, its array, and its byte in the row.
type Found = (usize, usize, u8);

/// The references in the records of a report, and the version of each.
fn told(records: &[u8]) -> impl Iterator<Item = (Found, u8)> {
    records.chunks_exact(RECORD).map(|record| {
        let step = usize::from(u16::from_le_bytes([record[0], record[1]]));
        let byte = match record[4] {
            kind @ 1..=4 => REFERENCES[usize::from(kind) - 1],
            _ => 0,
        };
        ((step, record[2].into(), byte), record[3])
    })
}

/// Holds a report of a path against the directives; gives the number of references. `versions` has
/// for each array the mappings of its versions.
pub fn of_report(
    program: &Program,
    versions: &[Vec<Mapping>],
    path: &[u8],
    report: &[u8],
) -> Result<usize, String> {
    let Some(parts) = Parts::split(report, program.arrays.len(), program.edges.len()) else {
        return Err(format!("{} bytes are no report", report.len()));
    };
    let mut told = told(parts.records);
    let mut state = State::initial(program);
    let mut references = 0;
    for (before, vertex) in run::vertices(path).enumerate() {
        let statement = &program.vertices[vertex];
        if let Statement::References(row) = statement {
            for (array, &byte) in row.iter().enumerate().filter(|(_, byte)| **byte != 0) {
                let due = (before + 1, array, byte);
                let (found, version) = told.next().unwrap_or_default();
                let mapping = versions[array].get(usize::from(version));
                let given = state.mapping(array);
                if found != due {
                    return Err(format!("reference {found:?}, due {due:?}"));
                }
                if mapping != Some(&given) {
                    return Err(format!("{due:?}: version {version}, due {given}"));
                }
                references += 1;
            }
        }
        state = state.after(statement);
    }
    match told.next() {
        None => Ok(references),
        Some((found, _)) => Err(format!("reference {found:?}, none is due")),
    }
}
