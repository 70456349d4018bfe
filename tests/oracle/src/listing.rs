//! Plans, reports and refusals as the programs print them ("Routine P and others").

use crate::outcome::Outcome;
use crate::plan::LABEL;
use crate::record::RECORD;
use crate::run::{COUNT, ENTRY, Parts};

fn word(bytes: &[u8], at: usize) -> usize {
    usize::from(u16::from_le_bytes([bytes[at], bytes[at + 1]]))
}

fn set(bytes: &[u8], at: usize) -> usize {
    word(bytes, at) + 65_536 * word(bytes, at + 2)
}

/// The planner program's lines for a plan.
pub fn plan(plan: &[u8]) -> String {
    let mut text = String::from("vertex array use leave reach keep\n");
    let vertices = word(plan, 4);
    let labels = &plan[8 + 4 * vertices..];
    for vertex in 0..vertices {
        let first = word(plan, 8 + 4 * vertex);
        let count = word(plan, 10 + 4 * vertex);
        for label in labels.chunks_exact(LABEL).skip(first).take(count) {
            let leaving = match label[2] {
                255 => String::from("-"),
                version => version.to_string(),
            };
            text += &format!(
                "{vertex} {} {} {leaving} {:08x} {:08x}\n",
                label[0],
                char::from(label[1]),
                set(label, 4),
                set(label, 8)
            );
        }
    }
    text
}

/// The run program's lines for a report on so many arrays and expanded edges.
pub fn report(report: &[u8], arrays: usize, edges: usize) -> String {
    let parts = Parts::split(report, arrays, edges).expect("the report has its parts");
    let mut text = String::new();
    for head in parts.entries.chunks_exact(ENTRY) {
        text += &format!("{} {} {}\n", word(head, 0), set(head, 2), head[6]);
    }
    for record in parts.records.chunks_exact(RECORD) {
        text += &format!(
            "{} {} {} {} {} {}\n",
            word(record, 0),
            record[2],
            record[3],
            record[4],
            word(record, 6),
            word(record, 8)
        );
    }
    for count in parts.counts.chunks_exact(COUNT) {
        text += &format!("{}\n", word(count, 0));
    }
    text
}

/// Any program's line for a refusal.
pub fn refusal(outcome: Outcome) -> String {
    let Outcome {
        number,
        first,
        second,
    } = outcome;
    format!("{number} {first} {second}\n")
}
