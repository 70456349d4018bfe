//! What the drawn inputs show: a generator that draws little but trifles is found by the shares.

mod directives;

use crate::library::Input;
use oracle::builder::{Draft, KILL, MODIFY};
use oracle::calls::{self, Part, Place, Room, is_call};
use oracle::labels::fixpoint;
use oracle::machine;
use oracle::outcome::Outcome;
use oracle::plan::LABEL;
use oracle::record::RECORD;
use oracle::routine::{HEAD, Kind, MAX_ARRAYS, MAX_VERSIONS, Routine, Set};
use oracle::run::{ENTRY, Parts, vertices};
use std::fmt;

/// The shares that are counted, and the least that each must be in percent.
const SHARES: [(&str, u64); 72] = [
    ("plans drawn: accepted", 40),
    ("plans drawn: with calls", 50),
    ("plans drawn: two arrays of each kind", 10),
    ("plans drawn: refused by 22", 1),
    ("plans refused by 20: at a call", 20),
    ("plans refused by 20: at a kill", 5),
    ("plans refused by 19: beside a kill", 10),
    ("plans refused by 18: a kill", 5),
    ("plans refused by 21: at a call", 20),
    ("  an ambiguous reference behind it", 5),
    ("plans refused by 21: at a reference", 20),
    ("  an ambiguous call behind it", 5),
    ("accepted plans: without calls", 15),
    ("accepted plans: with calls", 50),
    ("  one that no path gets to", 4),
    ("  one in a loop", 10),
    ("  two in a row", 10),
    ("  one that does not pass every array", 20),
    ("accepted plans: with a kill", 25),
    ("  planned otherwise with modifies in its place", 12),
    ("accepted plans: an array of 17 versions or more", 20),
    ("labels of accepted plans: a version above 15", 10),
    ("  that leaves", 4),
    ("  in the reaching set", 8),
    ("  in the kept set", 8),
    ("labels of accepted plans: N", 20),
    ("labels of accepted plans: D", 4),
    ("labels of accepted plans: R", 10),
    ("labels of accepted plans: W", 10),
    ("labels of accepted plans: in", 20),
    ("runs drawn: accepted", 60),
    ("runs drawn: two arrays of each kind", 10),
    ("accepted runs: end at the exit", 40),
    ("accepted runs: with a copy", 30),
    ("accepted runs: fewer copies than remaps", 30),
    ("accepted runs: with a record", 60),
    ("accepted runs: without record", 1),
    ("accepted runs: with a kill", 15),
    ("  a read or modify that sees what it left", 5),
    ("  and after a copy of that", 2),
    ("accepted runs: a record in a version above 15", 10),
    ("  one live", 10),
    ("  one current, with a copy", 5),
    ("accepted runs: an edge passed more than once", 30),
    ("  one passed more than 63 times", 1),
    ("  one not passed", 40),
    ("  a call's inner edges passed, not all", 20),
    ("  passes, and no record", 4),
    ("accepted runs: to the exit, in argument", 30),
    ("  its last label not home", 20),
    ("  with a copy of it", 15),
    ("accepted runs: through a call", 40),
    ("accepted runs: end at a call's first vertex", 3),
    ("accepted runs: end at a call's second vertex", 3),
    ("conversions drawn: accepted", 40),
    ("conversions drawn: refused by 40", 5),
    ("conversions drawn: refused by 41", 1),
    ("conversions drawn: refused by 42", 5),
    ("conversions drawn: refused by 20", 1),
    ("conversions drawn: refused by 21", 2),
    ("accepted conversions: with a remapping", 60),
    ("  back to version 0", 30),
    ("  of two arrays at once", 5),
    ("  exchanges matter", 10),
    ("  a redistribute that remaps nothing matters", 3),
    ("  a directive that no path gets to", 3),
    ("  with a kill", 15),
    ("  of 17 mappings or more", 2),
    ("converted runs: accepted", 60),
    ("  a reference in another version than 0", 15),
    ("  a kill in the report", 10),
    ("  a reference in a version above 15", 1),
];

/// A part of a whole.
#[derive(Clone, Copy, Debug, Default)]
struct Count {
    part: u64,
    whole: u64,
}

/// Counts over the drawn inputs.
#[derive(Clone, Debug)]
pub struct Drawn {
    counts: [Count; SHARES.len()],
}

impl Default for Drawn {
    fn default() -> Drawn {
        let counts = [Count::default(); SHARES.len()];
        Drawn { counts }
    }
}

impl Drawn {
    /// Counts one more of the whole of a share, and whether it belongs to the part.
    fn one(&mut self, name: &str, in_part: bool) {
        let index = SHARES.iter().position(|share| share.0 == name);
        let count = &mut self.counts[index.expect("the share is counted")];
        count.part += u64::from(in_part);
        count.whole += 1;
    }

    /// Counts an input, what it answers with room enough, and what was written, nothing if it is
    /// refused.
    pub fn count(&mut self, input: &Input, answer: Outcome, written: &[u8]) {
        match input {
            Input::Plan { routine } => self.count_plan(routine, answer, written),
            Input::Run { routine, path } => self.count_run_drawn(routine, path, written),
            Input::Convert { directives } => self.count_conversion(directives, answer, written),
            Input::ConvertAndRun { directives, .. } => {
                self.count_converted_run(directives, answer, written);
            }
            // Those of routines that are planned, and counted there.
            Input::Rounds { .. } => {}
        }
    }

    fn count_plan(&mut self, file: &[u8], answer: Outcome, plan: &[u8]) {
        let routine = Routine::parse(file).ok();
        let accepted = routine.filter(|_| !plan.is_empty());
        let is_wide = accepted.is_some_and(|routine| has_two_of_each_kind(&routine));
        self.one("plans drawn: accepted", accepted.is_some());
        self.one("plans drawn: with calls", has_calls(file));
        self.one("plans drawn: two arrays of each kind", is_wide);
        self.one("plans drawn: refused by 22", answer.number == 22);
        self.count_action_fault(file, answer);
        if let Some(routine) = routine {
            self.count_refusal(&routine, answer);
        }
        if let Some(routine) = accepted {
            self.count_calls(&routine);
            self.count_kills(file, plan);
            self.count_labels(&routine, plan);
        }
    }

    /// Whether 18 names a kill, and 19 a row that has one.
    fn count_action_fault(&mut self, file: &[u8], answer: Outcome) {
        let Some(draft) = Draft::from_bytes(file).filter(|_| [18, 19].contains(&answer.number))
        else {
            return;
        };
        let arrays = draft.arrays.len();
        let index = answer.first as usize - HEAD - 4 * arrays;
        let row = &draft.rows[index / arrays];
        match answer.number {
            18 => self.one("plans refused by 18: a kill", row[index % arrays] == KILL),
            _ => self.one("plans refused by 19: beside a kill", row.contains(&KILL)),
        }
    }

    /// Kills of an accepted routine, and whether its plan shows that they need no old value.
    fn count_kills(&mut self, file: &[u8], plan: &[u8]) {
        let mut draft = Draft::from_bytes(file).unwrap_or_default();
        let mut kills = 0;
        for byte in draft
            .rows
            .iter_mut()
            .flatten()
            .filter(|byte| **byte == KILL)
        {
            *byte = MODIFY;
            kills += 1;
        }
        let mut other = vec![0; plan.len()];
        let differs = kills > 0 && {
            oracle::plan::plan(&draft.bytes(), &mut other);
            other != plan
        };
        self.one("accepted plans: with a kill", kills > 0);
        self.one("  planned otherwise with modifies in its place", differs);
    }

    fn count_run_drawn(&mut self, file: &[u8], path: &[u8], report: &[u8]) {
        let accepted = Routine::parse(file).ok().filter(|_| !report.is_empty());
        let is_wide = accepted.is_some_and(|routine| has_two_of_each_kind(&routine));
        self.one("runs drawn: accepted", accepted.is_some());
        self.one("runs drawn: two arrays of each kind", is_wide);
        if let Some(file) = accepted {
            let mut room = Room::EMPTY;
            let routine = fixpoint::expanded(&file, &mut room);
            let path: Vec<usize> = vertices(path).collect();
            self.count_run(&routine, &path, report);
            self.count_call_steps(&places(&file), &path);
        }
    }

    /// Whether 20 and 21 name a call, and what else is ambiguous.
    fn count_refusal(&mut self, file: &Routine, answer: Outcome) {
        let is_call_at = |vertex: usize| is_call(file.row(vertex));
        let at_call = || is_call_at(answer.first as usize);
        match answer.number {
            20 => {
                let byte = file.row(answer.first as usize)[answer.second as usize];
                self.one("plans refused by 20: at a call", at_call());
                self.one("plans refused by 20: at a kill", byte == KILL);
            }
            21 => {
                let others = fixpoint::ambiguous(file);
                let other = |call| others.iter().any(|&(vertex, _)| is_call_at(vertex) == call);
                let at_call = at_call();
                self.one("plans refused by 21: at a call", at_call);
                self.one("plans refused by 21: at a reference", !at_call);
                let behind = "  an ambiguous reference behind it";
                self.one(behind, at_call && other(false));
                self.one("  an ambiguous call behind it", !at_call && other(true));
            }
            _ => {}
        }
    }

    /// The calls of an accepted routine.
    fn count_calls(&mut self, file: &Routine) {
        let some = |test: &dyn Fn(usize) -> bool| {
            let mut calls = (0..file.vertex_count()).filter(|&v| is_call(file.row(v)));
            calls.any(test)
        };
        let reached = reached(file, 0);
        let has_calls = file.call_count() > 0;
        let leads_to_call =
            |vertex| (file.edges()).any(|(from, to)| from == vertex && is_call(file.row(to)));
        self.one("accepted plans: without calls", !has_calls);
        self.one("accepted plans: with calls", has_calls);
        self.one("  one that no path gets to", some(&|call| !reached[call]));
        let in_loop = |call: usize| reached[call] && self::reached(file, call)[call];
        self.one("  one in a loop", some(&in_loop));
        self.one("  two in a row", some(&leads_to_call));
        let not_all = |call| file.row(call).contains(&0);
        self.one("  one that does not pass every array", some(&not_all));
    }

    fn count_labels(&mut self, routine: &Routine, plan: &[u8]) {
        let vertices = routine.vertex_count() + 2 * routine.call_count();
        for label in plan[8 + 4 * vertices..].chunks_exact(LABEL) {
            for (name, letter) in [
                ("labels of accepted plans: N", b'N'),
                ("labels of accepted plans: D", b'D'),
                ("labels of accepted plans: R", b'R'),
                ("labels of accepted plans: W", b'W'),
            ] {
                self.one(name, label[1] == letter);
            }
            let kind = routine.array(usize::from(label[0])).kind;
            self.one("labels of accepted plans: in", kind == Kind::In);
            let leaves = (16..MAX_VERSIONS as u8).contains(&label[2]);
            let [reaching, kept] = [4, 8].map(|at| set(label, at) > 0xffff);
            let any = leaves || reaching || kept;
            self.one("labels of accepted plans: a version above 15", any);
            self.one("  that leaves", leaves);
            self.one("  in the reaching set", reaching);
            self.one("  in the kept set", kept);
        }
        let is_wide = routine.is_wide();
        self.one("accepted plans: an array of 17 versions or more", is_wide);
    }

    fn count_run(&mut self, routine: &Routine, path: &[usize], report: &[u8]) {
        let Parts {
            entries: heads,
            records,
            counts,
        } = Parts::of(report, routine).expect("an accepted run has a report");
        let each = heads
            .chunks_exact(ENTRY)
            .map(|head| usize::from(u16::from_le_bytes([head[0], head[1]])));
        let each: Vec<usize> = each.collect();
        let copies: usize = each.iter().sum();
        let arrays: Vec<_> = routine.arrays().collect();
        let (machines, _) = machine::run(&arrays, routine.action_bytes(), path);
        let all: usize = machines.iter().map(|machine| machine.count).sum();
        let at_exit = path.last() == Some(&routine.exit());
        self.one("accepted runs: end at the exit", at_exit);
        self.one("accepted runs: with a copy", copies > 0);
        self.one("accepted runs: fewer copies than remaps", copies < all);
        self.one("accepted runs: with a record", !records.is_empty());
        self.one("accepted runs: without record", records.is_empty());
        self.count_kill_records(records);
        self.count_passes(records, counts);
        let mut records = records.chunks_exact(RECORD);
        let above = |version: u8| (16..MAX_VERSIONS as u8).contains(&version);
        let used = records.any(|record| above(record[3]));
        self.one("accepted runs: a record in a version above 15", used);
        let mut entries = heads.chunks_exact(ENTRY);
        let live = entries.clone().any(|entry| set(entry, 2) > 0xffff);
        self.one("  one live", live);
        let current = entries.any(|entry| entry[0] > 0 && above(entry[6]));
        self.one("  one current, with a copy", current);
        let some_in = |test: &dyn Fn(usize) -> bool| {
            let mut ins = (0..arrays.len()).filter(|&array| arrays[array].kind == Kind::In);
            at_exit && ins.any(test)
        };
        let away = |array: usize| machines[array].held != arrays[array].initial;
        self.one(
            "accepted runs: to the exit, in argument",
            some_in(&|_| true),
        );
        self.one("  its last label not home", some_in(&away));
        self.one("  with a copy of it", some_in(&|array| each[array] > 0));
    }

    /// Kills on a path, and whether what they left is seen: 0, in the version that was killed, or in
    /// another one to which it was copied.
    fn count_kill_records(&mut self, records: &[u8]) {
        let mut killed = [None; MAX_ARRAYS];
        let (mut kills, mut seen, mut copied) = (false, false, false);
        for record in records.chunks_exact(RECORD) {
            let (array, version, kind) = (usize::from(record[2]), record[3], record[4]);
            if kind % 2 == 1 {
                seen |= killed[array].is_some();
                copied |= killed[array].is_some_and(|before| before != version);
            }
            if kind > 1 {
                killed[array] = (kind == 4).then_some(version);
            }
            kills |= kind == 4;
        }
        self.one("accepted runs: with a kill", kills);
        self.one("  a read or modify that sees what it left", seen);
        self.one("  and after a copy of that", copied);
    }

    /// How often the edges are passed.
    fn count_passes(&mut self, records: &[u8], counts: &[u8]) {
        let counts: Vec<u16> = (counts.as_chunks::<2>().0.iter())
            .map(|&count| u16::from_le_bytes(count))
            .collect();
        let some = |test: &dyn Fn(u16) -> bool| counts.iter().any(|&count| test(count));
        let twice = some(&|count| count > 1);
        self.one("accepted runs: an edge passed more than once", twice);
        let often = some(&|count| count > 63);
        self.one("  one passed more than 63 times", often);
        self.one("  one not passed", some(&|count| count == 0));
        let alone = records.is_empty() && some(&|count| count > 0);
        self.one("  passes, and no record", alone);
    }

    /// The calls that a path takes, and whether it ends inside one.
    fn count_call_steps(&mut self, places: &[Place], path: &[usize]) {
        let part = |vertex: &usize| places[*vertex].part;
        let ends = |wanted| path.last().map(part) == Some(wanted);
        let through = path.iter().any(|vertex| part(vertex) == Part::After);
        self.one("accepted runs: through a call", through);
        let is_missed =
            |vertex: usize| places[vertex].part == Part::After && !path.contains(&vertex);
        let some_missed = (0..places.len()).any(is_missed);
        let name = "  a call's inner edges passed, not all";
        self.one(name, through && some_missed);
        let first = "accepted runs: end at a call's first vertex";
        self.one(first, ends(Part::Before));
        let second = "accepted runs: end at a call's second vertex";
        self.one(second, ends(Part::Inside));
    }

    pub fn add(&mut self, other: &Drawn) {
        for (count, more) in self.counts.iter_mut().zip(&other.counts) {
            count.part += more.part;
            count.whole += more.whole;
        }
    }

    /// The shares that are smaller than they must be, by name.
    pub fn lacking(&self) -> Vec<&'static str> {
        let shares = SHARES.iter().zip(&self.counts);
        shares
            .filter(|((_, least), count)| 100 * count.part < least * count.whole)
            .map(|((name, _), _)| *name)
            .collect()
    }
}

/// The set at a place.
fn set(bytes: &[u8], at: usize) -> Set {
    Set::from_le_bytes([bytes[at], bytes[at + 1], bytes[at + 2], bytes[at + 3]])
}

fn has_two_of_each_kind(routine: &Routine) -> bool {
    [Kind::Local, Kind::In, Kind::Out, Kind::Inout]
        .iter()
        .all(|&kind| routine.arrays().filter(|array| array.kind == kind).count() >= 2)
}

/// Whether a file whose parts fit together has a call byte.
fn has_calls(file: &[u8]) -> bool {
    let draft = Draft::from_bytes(file).unwrap_or_default();
    draft.rows.iter().any(|row| is_call(row))
}

fn places(file: &Routine) -> Vec<Place> {
    calls::places((0..file.vertex_count()).map(|vertex| file.row(vertex)))
}

/// The vertices that paths of an edge at least get to.
fn reached(routine: &Routine, start: usize) -> Vec<bool> {
    let mut reached = vec![false; routine.vertex_count()];
    let mut open = vec![start];
    while let Some(vertex) = open.pop() {
        for (from, to) in routine.edges() {
            if from == vertex && !reached[to] {
                reached[to] = true;
                open.push(to);
            }
        }
    }
    reached
}

impl fmt::Display for Drawn {
    fn fmt(&self, f: &mut fmt::Formatter) -> fmt::Result {
        writeln!(f, "{:<46}{:>9}{:>7}{:>9}", "share", "part", "%", "least %")?;
        for ((name, least), Count { part, whole }) in SHARES.iter().zip(&self.counts) {
            let percent = 100.0 * *part as f64 / (*whole).max(1) as f64;
            writeln!(f, "{name:<46}{part:>9}{percent:>7.1}{least:>9}")?;
        }
        Ok(())
    }
}
