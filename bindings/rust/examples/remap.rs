//! Plans routine P, runs case 2 (docs/CASES.md), and prints what the plan's flags and the report
//! show. Then plans routine K, which has a call.

use hpf_remap::{Plan, Refusal, Report};
use std::process::ExitCode;

#[rustfmt::skip]
const ROUTINE: [u8; 62] = [
    b'H', b'P', b'F', b'R', 1, 0,
    18, 0, 1, 0, // arrays: offset, count
    22, 0, 8, 0, // vertices
    30, 0, 8, 0, // edges
    0, 3, 0, 0,  // one local array, 3 versions, initial 0
    // entry, define, remap 1, read, remap 2, remap 0, read, exit
    0x00, 0x20, 0x41, 0x10, 0x42, 0x40, 0x10, 0x00,
    // edges: from, to
    0, 0, 1, 0, 1, 0, 2, 0, 2, 0, 3, 0, 3, 0, 4, 0,
    4, 0, 5, 0, 5, 0, 6, 0, 6, 0, 2, 0, 6, 0, 7, 0,
];

/// Nine vertices, two bytes each.
const PATH: [u8; 18] = [0, 0, 1, 0, 2, 0, 3, 0, 4, 0, 5, 0, 6, 0, 2, 0, 3, 0];

#[rustfmt::skip]
const WITH_CALL: [u8; 50] = [
    b'H', b'P', b'F', b'R', 1, 0,
    18, 0, 2, 0, // arrays: offset, count
    26, 0, 4, 0, // vertices
    34, 0, 4, 0, // edges
    3, 2, 0, 0,  // an inout argument, 2 versions, initial 0
    1, 2, 0, 0,  // an in argument, the same
    // entry, call (inout, in; both in version 1), read both, exit
    0x00, 0x00, 0xC1, 0x61, 0x10, 0x10, 0x00, 0x00,
    // edges: from, to
    0, 0, 1, 0, 1, 0, 2, 0, 2, 0, 1, 0, 2, 0, 3, 0,
];

fn print_plan(plan: &[u8]) {
    for label in Plan::new(plan).iter().flat_map(Plan::labels) {
        print!("vertex {}: array {} ", label.vertex, label.array);
        match label.leaving {
            None => println!("is not copied"),
            Some(version) => {
                let (letter, kept) = (label.letter, label.kept);
                println!("leaves as version {version}, use {letter}, keep {kept:08x}");
            }
        }
    }
}

fn print_report(report: &Report) {
    for (array, entry) in report.entries().enumerate() {
        let copies = match entry.copies {
            1 => String::from("1 copy"),
            more => format!("{more} copies"),
        };
        let current = entry
            .current
            .map_or(String::from("none"), |version| version.to_string());
        let live = entry.live;
        println!("array {array}: {copies}, live {live:08x}, current {current}");
    }
    for record in report.records() {
        let (step, version, kind) = (record.step, record.version, record.reference.kind());
        let (seen, given) = (record.seen, record.given);
        println!("step {step}: version {version}, kind {kind}, sees {seen}, gives {given}");
    }
    // Without calls the edges are those of the file.
    for (edge, passed) in ROUTINE[30..].chunks_exact(4).zip(report.counts()) {
        println!("edge {}-{}: passed {passed}", edge[0], edge[2]);
    }
}

/// The call of K is three vertices of its plan: 1, 2 and 3.
fn show() -> Result<(), Refusal> {
    print_plan(&hpf_remap::planned(&ROUTINE)?);
    let report = hpf_remap::ran(&ROUTINE, &PATH)?;
    if let Some(report) = Report::new(&ROUTINE, &report) {
        print_report(&report);
    }
    print_plan(&hpf_remap::planned(&WITH_CALL)?);
    Ok(())
}

fn main() -> ExitCode {
    match show() {
        Ok(()) => ExitCode::SUCCESS,
        Err(refusal) => {
            eprintln!("refused: {refusal}");
            ExitCode::FAILURE
        }
    }
}
