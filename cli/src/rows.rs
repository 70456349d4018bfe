//! The monitor's rows, as `hpf watch` prints them.

use crate::Accepted;
use crate::layout::{COLUMNS, Table};
use crate::machine::Machine;
use crate::routine::Array;
use crate::watch::{Change, Row};
use hpf_remap::Record;
use hpf_remap::formats::NEVER_GIVEN;
use std::ops::Range;

const LEGEND: &str = "\
C current   L live   . dead   x dead from this step on
+ copied to   = live copy taken up again   ? sees no value
";

const MACHINE_LEGEND: &str = "\
plan, every: version and stamp with the plan (a stamp at references alone), and
with copying at every remapping
";

/// The columns of step and vertex with the blanks behind them, and the blanks between arrays.
const MARGIN: usize = 13;
const GAP: usize = 3;

/// The columns of an action with its letter, and of a version with its stamp.
const ACTION: usize = 10;
const HELD: usize = 8;

/// What the step does with the array.
fn action(change: &Change) -> String {
    match (change.label, change.record) {
        (Some((version, letter)), _) => format!("remap {version} {letter}"),
        (None, Some(record)) => record.reference.to_string(),
        (None, None) => String::new(),
    }
}

fn mark(change: &Change) -> char {
    let is_unset = |record: &Record| record.reference.sees() && record.seen == NEVER_GIVEN;
    match change.record {
        Some(record) if is_unset(&record) => '?',
        _ if change.copies() => '+',
        _ if change.takes_up() => '=',
        _ => ' ',
    }
}

/// A place for each version.
fn flags(change: &Change, versions: u8) -> String {
    let flag = |version: u8| {
        let is_live = |set: u32| set >> version & 1 == 1;
        match (is_live(change.before.live), is_live(change.after.live)) {
            _ if change.after.current == Some(version) => 'C',
            (_, true) => 'L',
            (true, false) => 'x',
            (false, false) => '.',
        }
    };
    (0..versions).map(flag).collect()
}

/// The version with the plan, and at a reference its stamp.
fn ours(change: &Change) -> String {
    let stamp = |record: Record| match record.reference.writes() {
        true => record.given,
        false => record.seen,
    };
    match (change.after.current, change.record) {
        (None, _) => String::from("-"),
        (Some(version), None) => version.to_string(),
        (Some(version), Some(record)) => format!("{version}:{}", stamp(record)),
    }
}

/// The columns of an array.
struct Columns {
    title: String,
    /// What stands before each action: the array's name where lines are wrapped, or nothing.
    name: String,
    versions: u8,
    machine: bool,
}

impl Columns {
    /// The first of these titles for which a line has room.
    fn new(array: &Array, titles: &[String], machine: bool) -> Columns {
        let mut columns = Columns {
            title: String::new(),
            name: String::new(),
            versions: array.versions,
            machine,
        };
        let room = COLUMNS - MARGIN - columns.held();
        let title = titles.iter().find(|title| title.len() <= room);
        columns.title = title.cloned().unwrap_or_default();
        columns
    }

    /// Puts the array's name before each action, if a line has room for it.
    fn name(&mut self, name: &str) {
        self.name = format!("{name}: ");
        if MARGIN + self.width() > COLUMNS {
            self.name.clear();
        }
    }

    /// Of action, mark and flags, over which the title stands.
    fn first(&self) -> usize {
        let flags = self.name.len() + ACTION + 3 + usize::from(self.versions);
        flags.max(self.title.len())
    }

    /// Of what is held.
    fn held(&self) -> usize {
        if self.machine { 2 * (HELD + 1) } else { 0 }
    }

    fn width(&self) -> usize {
        self.first() + self.held()
    }

    /// What stands in the columns, the last two only if they are wanted.
    fn line(&self, first: &str, ours: &str, every: &str) -> String {
        let width = self.first();
        match self.machine {
            true => format!("{first:width$} {ours:>HELD$} {every:>HELD$}"),
            false => format!("{first:width$}"),
        }
    }

    fn head(&self) -> String {
        self.line(&self.title, "plan", "every")
    }

    fn cell(&self, change: &Change) -> String {
        let (name, action, mark) = (&self.name, action(change), mark(change));
        let flags = flags(change, self.versions);
        let first = format!("{name}{action:ACTION$} {mark} {flags}");
        let Machine { held, stamp, .. } = change.machine;
        self.line(&first, &ours(change), &format!("{held}:{stamp}"))
    }
}

/// The columns of all arrays, and the arrays that share a line.
fn columns(accepted: &Accepted, machine: bool) -> (Vec<Columns>, Vec<Range<usize>>) {
    let names = &accepted.names;
    let arrays = accepted.routine.arrays.iter().enumerate();
    let mut columns: Vec<Columns> = arrays
        .map(|(at, array)| {
            let (name, kind) = (names.array(at), array.kind);
            let titles = [
                format!("array {name}, {kind}"),
                name,
                format!("array {at}, {kind}"),
            ];
            Columns::new(array, &titles, machine)
        })
        .collect();
    let unwrapped = sharing(&columns);
    if unwrapped.len() == 1 {
        return (columns, unwrapped);
    }
    for (array, column) in columns.iter_mut().enumerate() {
        column.name(&names.array(array));
    }
    let wrapped = sharing(&columns);
    (columns, wrapped)
}

/// The arrays that share a line, so that every line fits.
fn sharing(columns: &[Columns]) -> Vec<Range<usize>> {
    let (mut lines, mut first, mut used) = (Vec::new(), 0, MARGIN);
    for (array, column) in columns.iter().enumerate() {
        used += column.width();
        if array > first && used > COLUMNS {
            lines.push(first..array);
            first = array;
            used = MARGIN + column.width();
        }
        used += GAP;
    }
    lines.push(first..columns.len());
    lines
}

/// The lines of one row: the margin on the first of them, the cells of the arrays behind it.
fn lines(
    margin: &str,
    columns: &[Columns],
    sharing: &[Range<usize>],
    cell: impl Fn(usize) -> String,
) -> String {
    let mut text = String::new();
    for (index, arrays) in sharing.iter().enumerate() {
        let margin = if index == 0 { margin } else { "" };
        let mut line = format!("{margin:MARGIN$}");
        for array in arrays.clone() {
            line += &format!(
                "{:width$}",
                cell(array),
                width = columns[array].width() + GAP
            );
        }
        text += line.trim_end();
        text.push('\n');
    }
    text
}

/// The rows of a path with their legend, and the copies at its end.
pub fn shown(rows: &[Row], accepted: &Accepted, machine: bool) -> String {
    let (columns, sharing) = columns(accepted, machine);
    let mut text = String::from(LEGEND);
    if machine {
        text += MACHINE_LEGEND;
    }
    text.push('\n');
    let head = |array: usize| columns[array].head();
    text += &lines("step vertex", &columns, &sharing, head);
    for (row, step) in rows.iter().zip(1..) {
        let margin = format!("{step:4} {:6}", row.vertex);
        let cell = |array: usize| columns[array].cell(&row.changes[array]);
        text += &lines(&margin, &columns, &sharing, cell);
    }
    text.push('\n');
    text += &copies(rows, accepted);
    text
}

/// The copies of the whole path.
fn copies(rows: &[Row], accepted: &Accepted) -> String {
    let mut table = Table::new(&["array", "copies", "copying at every remapping"]);
    let last = rows.last().map_or(&[][..], |row| &row.changes);
    for (array, change) in last.iter().enumerate() {
        table.row([
            accepted.names.array(array),
            change.after.copies.to_string(),
            change.machine.copies.to_string(),
        ]);
    }
    table.text()
}
