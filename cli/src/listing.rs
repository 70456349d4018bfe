//! Plans and reports as the programs print them, and as tables.

use crate::layout::Table;
use crate::notation::Names;
use crate::routine::Routine;
use hpf_remap::formats::{NONE, SET};
use hpf_remap::{Plan, Report};
use std::fmt::Write;

/// The columns of a plan.
const PLAN: [&str; 6] = ["vertex", "array", "use", "leave", "reach", "keep"];

/// Hexadecimal digits of a set.
const DIGITS: usize = 2 * SET;

fn or_dash(version: Option<u8>) -> String {
    version.map_or(String::from("-"), |version| version.to_string())
}

/// What the planner prints.
pub fn plan(plan: &Plan) -> String {
    let mut text = format!("{}\n", PLAN.join(" "));
    for label in plan.labels() {
        let _ = writeln!(
            text,
            "{} {} {} {} {:0DIGITS$x} {:0DIGITS$x}",
            label.vertex,
            label.array,
            label.letter,
            or_dash(label.leaving),
            label.reaching,
            label.kept
        );
    }
    text
}

/// The same in columns, with the arrays' names.
pub fn plan_table(plan: &Plan, names: &Names) -> String {
    let mut table = Table::new(&PLAN);
    for label in plan.labels() {
        table.row([
            label.vertex.to_string(),
            names.array(label.array),
            label.letter.to_string(),
            or_dash(label.leaving),
            format!("{:0DIGITS$x}", label.reaching),
            format!("{:0DIGITS$x}", label.kept),
        ]);
    }
    table.text()
}

/// What the runner prints.
pub fn report(report: &Report) -> String {
    let mut text = String::new();
    for entry in report.entries() {
        let current = entry.current.unwrap_or(NONE);
        let _ = writeln!(text, "{} {} {current}", entry.copies, entry.live);
    }
    for record in report.records() {
        let _ = writeln!(
            text,
            "{} {} {} {} {} {}",
            record.step,
            record.array,
            record.version,
            record.reference.kind(),
            record.seen,
            record.given
        );
    }
    for count in report.counts() {
        let _ = writeln!(text, "{count}");
    }
    text
}

/// The same in columns, with the arrays' names.
pub fn report_table(report: &Report, routine: &Routine, names: &Names) -> String {
    let mut arrays = Table::new(&["array", "copies", "live", "current"]);
    for (array, entry) in report.entries().enumerate() {
        arrays.row([
            names.array(array),
            entry.copies.to_string(),
            format!("{:0DIGITS$x}", entry.live),
            or_dash(entry.current),
        ]);
    }
    let mut records = Table::new(&["step", "array", "version", "kind", "seen", "given"]);
    for record in report.records() {
        records.row([
            record.step.to_string(),
            names.array(record.array),
            record.version.to_string(),
            record.reference.to_string(),
            record.seen.to_string(),
            record.given.to_string(),
        ]);
    }
    let mut edges = Table::new(&["from", "to", "passed"]);
    for ((from, to), count) in routine.expanded_edges().iter().zip(report.counts()) {
        edges.row([from.to_string(), to.to_string(), count.to_string()]);
    }
    [arrays, records, edges]
        .map(|table| table.text())
        .join("\n")
}
