//! What each step of a path does, and the flags after it.
//!
//! The flags are those that the library reports for the path up to that step. Nothing is computed
//! here but what copying at every remapping would have held.

use crate::Accepted;
use crate::ending::Stop;
use crate::machine::Machine;
use crate::routine::Array;
use hpf_remap::formats::{Letter, STEP, word_at};
use hpf_remap::{Entry, LARGEST_REPORT, Record};
use std::thread;

/// A further thread is worth its start for so many steps.
const STEPS_A_THREAD: usize = 256;

/// What one step is to one array.
pub struct Change {
    /// The label that is come to: the version that its remapping names, and its letter.
    pub label: Option<(u8, Letter)>,
    /// The reference.
    pub record: Option<Record>,
    pub before: Entry,
    pub after: Entry,
    /// Copying at every remapping, after the step.
    pub machine: Machine,
}

impl Change {
    /// Whether a stamp was copied.
    pub fn copies(&self) -> bool {
        self.after.copies > self.before.copies
    }

    /// Whether a live copy was taken up again, without one.
    pub fn takes_up(&self) -> bool {
        let is_live = |version: u8| self.before.live >> version & 1 == 1;
        self.label.is_some()
            && !self.copies()
            && self.after.current != self.before.current
            && self.after.current.is_some_and(is_live)
    }
}

/// A step of the path.
pub struct Row {
    pub vertex: usize,
    /// By array.
    pub changes: Vec<Change>,
}

/// What the library reports after a step.
struct Snapshot {
    entries: Vec<Entry>,
    /// Of the step itself.
    records: Vec<Record>,
}

/// Runs the path up to a step.
fn snapshot(
    accepted: &Accepted,
    path: &[u8],
    step: usize,
    buffer: &mut [u8],
) -> Result<Snapshot, Stop> {
    let length = hpf_remap::run(&accepted.bytes, &path[..STEP * step], buffer)?;
    let report = accepted.report(&buffer[..length])?;
    let records = report.records().rev();
    let records = records.take_while(|record| usize::from(record.step) == step);
    Ok(Snapshot {
        entries: report.entries().collect(),
        records: records.collect(),
    })
}

/// Runs every prefix of a path, or tells the refusal of the whole. Each thread takes every so many
/// steps, so that all have short prefixes and long ones.
fn snapshots(accepted: &Accepted, path: &[u8]) -> Result<Vec<Snapshot>, Stop> {
    let mut buffer = vec![0; LARGEST_REPORT];
    hpf_remap::run(&accepted.bytes, path, &mut buffer)?;
    let steps = path.len() / STEP;
    let processors = thread::available_parallelism().map_or(1, usize::from);
    let threads = processors.min(steps.div_ceil(STEPS_A_THREAD));
    let every = |first: usize| {
        let mut buffer = vec![0; LARGEST_REPORT];
        let steps = (first..=steps).step_by(threads);
        steps
            .map(|step| Ok((step, snapshot(accepted, path, step, &mut buffer)?)))
            .collect::<Result<Vec<(usize, Snapshot)>, Stop>>()
    };
    let mut all = thread::scope(|scope| {
        let others: Vec<_> = (2..=threads)
            .map(|first| thread::Builder::new().spawn_scoped(scope, move || every(first)))
            .collect();
        let mut all = every(1)?;
        for other in others {
            let stopped = |error| Stop::Trouble(format!("cannot start a thread: {error}"));
            let other = other.map_err(stopped)?.join();
            all.extend(other.unwrap_or(Err(Stop::unread("report")))?);
        }
        Ok::<_, Stop>(all)
    })?;
    all.sort_unstable_by_key(|(step, _)| *step);
    Ok(all.into_iter().map(|(_, snapshot)| snapshot).collect())
}

/// Before the first step an in or inout argument has the caller's copy, other arrays have none.
fn at_start(array: &Array) -> Entry {
    let current = array.kind.brings_value().then_some(array.initial);
    Entry {
        copies: 0,
        live: current.map_or(0, |initial| 1 << initial),
        current,
    }
}

/// Follows a path, step by step.
pub fn followed(accepted: &Accepted, path: &[u8]) -> Result<Vec<Row>, Stop> {
    let snapshots = snapshots(accepted, path)?;
    let (plan, routine) = (accepted.plan()?, &accepted.routine);
    let parts = routine.parts();
    let mut machines: Vec<Machine> = routine.arrays.iter().map(Machine::new).collect();
    let mut before: Vec<Entry> = routine.arrays.iter().map(at_start).collect();
    let mut rows = Vec::new();
    for (index, snapshot) in snapshots.into_iter().enumerate() {
        let vertex = usize::from(word_at(path, STEP * index).unwrap_or(0));
        let part = *parts.get(vertex).ok_or(Stop::unread("routine"))?;
        let entries = before.iter().zip(&snapshot.entries);
        let mut changes = Vec::new();
        for ((array, machine), (&before, &after)) in machines.iter_mut().enumerate().zip(entries) {
            let event = routine.event(part, array);
            let label = plan.labels_at(vertex).find(|label| label.array == array);
            let target = machine.target(event);
            machine.take(event, (index + 1) as u16); // at most 4,096
            let mut records = snapshot.records.iter();
            changes.push(Change {
                label: target.zip(label.map(|label| label.letter)),
                record: records.find(|record| record.array == array).copied(),
                before,
                after,
                machine: *machine,
            });
        }
        rows.push(Row { vertex, changes });
        before = snapshot.entries;
    }
    Ok(rows)
}
