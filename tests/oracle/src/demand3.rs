//! Demand 3 ("Run", last part): a run held against the machine that copies at every
//! remapping, over a whole accepted path. After a full path also what request 1 promises of the
//! caller's copy of an in argument.

use crate::labels::{Labels, refusal_20};
use crate::machine;
use crate::record::{RECORD, Record};
use crate::routine::{Array, Event, Kind, Reference, Routine, Set};
use crate::run::{self, Copies, ENTRY, Parts};

/// What a report shows of an array.
struct Head {
    copied: usize,
    live: Set,
    current: Option<u8>,
}

/// What a report shows.
struct Shown {
    heads: Vec<Head>,
    records: Vec<Record>,
}

/// Demand 3 of the run by the rules, the last stamps included.
pub fn of_run(routine: &Routine, labels: &impl Labels, bytes: &[u8]) -> Result<(), String> {
    let mut records = Vec::new();
    let states = run::walk(routine, labels, bytes, |record| records.push(record));
    let states = &states[..routine.array_count()];
    let shown = Shown {
        heads: states
            .iter()
            .map(|copies| Head {
                copied: usize::from(copies.copied),
                live: copies.live,
                current: copies.current,
            })
            .collect(),
        records,
    };
    let path: Vec<usize> = run::vertices(bytes).collect();
    check(routine, &path, &shown)?;

    let arrays: Vec<Array> = routine.arrays().collect();
    let (machines, _) = machine::run(&arrays, routine.action_bytes(), &path);
    for (array, record) in arrays.iter().enumerate() {
        let stamp = states[array].stamps[usize::from(record.initial)];
        if comes_home(routine, &path, record) && stamp != machines[array].stamp {
            return Err(format!(
                "array {array}: last stamp {stamp}, the machine's is {}",
                machines[array].stamp
            ));
        }
    }
    if is_full(routine, &path) {
        let before = &bytes[..2 * (path.len() - 1)];
        let before = run::walk(routine, labels, before, |_| {});
        callers_copies(routine, &before, states)?;
    }
    Ok(())
}

/// The last step of a full path counts no copy of an in argument and leaves its caller's stamp.
/// That is 65,535 where nothing writes an in argument, which 20 asks.
fn callers_copies(routine: &Routine, before: &[Copies], after: &[Copies]) -> Result<(), String> {
    let written = refusal_20(routine).is_some();
    for (array, record) in routine.arrays().enumerate() {
        let callers = |copies: &[Copies]| copies[array].stamps[usize::from(record.initial)];
        let (stamp, copied) = (callers(after), after[array].copied);
        if record.kind != Kind::In {
            continue;
        }
        if copied != before[array].copied {
            return Err(format!("array {array}: copied at the exit"));
        }
        if stamp != callers(before) || !written && stamp != 65_535 {
            return Err(format!("array {array}: the caller's stamp is {stamp}"));
        }
    }
    Ok(())
}

/// Demand 3 of a report's bytes; the last stamps do not show in them.
pub fn of_report(routine: &Routine, path: &[u8], report: &[u8]) -> Result<(), String> {
    let shown = read(routine, report)?;
    let path: Vec<usize> = run::vertices(path).collect();
    check(routine, &path, &shown)
}

/// Whether a path ends at the exit.
fn is_full(routine: &Routine, path: &[usize]) -> bool {
    path.last() == Some(&routine.exit())
}

fn comes_home(routine: &Routine, path: &[usize], array: &Array) -> bool {
    is_full(routine, path) && array.kind.is_out_or_inout()
}

fn check(routine: &Routine, path: &[usize], shown: &Shown) -> Result<(), String> {
    let arrays: Vec<Array> = routine.arrays().collect();
    let (machines, records) = machine::run(&arrays, routine.action_bytes(), path);
    if let Some(index) = (0..records.len().max(shown.records.len()))
        .find(|&index| records.get(index) != shown.records.get(index))
    {
        return Err(format!(
            "record {index}: {:?}, the machine's is {:?}",
            shown.records.get(index),
            records.get(index)
        ));
    }
    for record in &shown.records {
        let named = last_label_version(routine, path, record);
        if named != Some(record.version) {
            return Err(format!("{record:?}: the source names version {named:?}"));
        }
    }
    for (array, record) in arrays.iter().enumerate() {
        let Head {
            copied,
            live,
            current,
        } = shown.heads[array];
        if comes_home(routine, path, record) && current != Some(record.initial) {
            return Err(format!("array {array}: {current:?} is current at the exit"));
        }
        let callers = (1 << record.initial, Some(record.initial));
        if is_full(routine, path) && record.kind == Kind::In && (live, current) != callers {
            return Err(format!(
                "array {array}: live {live:08x}, current {current:?} at the exit, not the caller's"
            ));
        }
        if copied > machines[array].count {
            return Err(format!(
                "array {array}: {copied} copies against {}",
                machines[array].count
            ));
        }
    }
    Ok(())
}

/// The version of the array's last label before a record's step, dropped ones included.
fn last_label_version(routine: &Routine, path: &[usize], record: &Record) -> Option<u8> {
    path[..usize::from(record.step) - 1]
        .iter()
        .rev()
        .find_map(
            |&vertex| match routine.event(vertex, usize::from(record.array)) {
                Event::Label(version) => Some(version),
                _ => None,
            },
        )
}

/// Reads a report's bytes.
fn read(routine: &Routine, report: &[u8]) -> Result<Shown, String> {
    let Some(parts) = Parts::of(report, routine) else {
        return Err(format!("{} bytes are no report", report.len()));
    };
    let heads = parts
        .entries
        .as_chunks::<ENTRY>()
        .0
        .iter()
        .map(|head| Head {
            copied: usize::from(u16::from_le_bytes([head[0], head[1]])),
            live: Set::from_le_bytes([head[2], head[3], head[4], head[5]]),
            current: (head[6] != 255).then_some(head[6]),
        });
    let records = parts.records.as_chunks::<RECORD>().0.iter().map(|bytes| {
        let record = Record {
            step: u16::from_le_bytes([bytes[0], bytes[1]]),
            array: bytes[2],
            version: bytes[3],
            reference: match bytes[4] {
                1 => Reference::Read,
                2 => Reference::Define,
                3 => Reference::Modify,
                _ => Reference::Kill,
            },
            seen: u16::from_le_bytes([bytes[6], bytes[7]]),
            new: u16::from_le_bytes([bytes[8], bytes[9]]),
        };
        if record.bytes() == *bytes {
            Ok(record)
        } else {
            Err(format!("{bytes:02x?} is no record"))
        }
    });
    Ok(Shown {
        heads: heads.collect(),
        records: records.collect::<Result<_, _>>()?,
    })
}
