//! Holds the verified static library against the oracle.
//!
//! compare [--routines N] [--paths N] [--conversions N] [--seed S]

mod stack;

use compare::{VERIFIED, verified_by_pointers};
use harness::drive::{Mismatch, Options, compare, compare_part, named};
use hpf_remap::Report;
use oracle::builder::path_bytes;
use oracle::generate::limits;
use oracle::routine::Routine;
use oracle::run::{LONGEST_REPORT, Parts};
use std::env;
use std::process::ExitCode;
use std::time::Instant;

const USAGE: &str = "compare [--routines N] [--paths N] [--conversions N] [--seed S]";

fn options() -> Option<Options> {
    let mut options = Options {
        routines: 20_000,
        paths: 20_000,
        conversions: 4_000,
        seed: 1,
    };
    let mut arguments = env::args().skip(1);
    while let Some(argument) = arguments.next() {
        let number = arguments.next()?.parse().ok()?;
        match argument.as_str() {
            "--routines" => options.routines = number,
            "--paths" => options.paths = number,
            "--conversions" => options.conversions = number,
            "--seed" => options.seed = number,
            _ => return None,
        }
    }
    Some(options)
}

/// The bindings tell the parts of reports as the oracle does: of the routines with a name, and of that
/// with the most edges.
fn hold_parts() -> Result<(), String> {
    let longest = (limits::longest_report(), vec![limits::longest_stay()]);
    let mut told = 0;
    for (draft, paths) in named().into_iter().chain([longest]) {
        let file = draft.bytes();
        for path in paths {
            let mut report = vec![0; LONGEST_REPORT];
            let answer = hpf_remap::run(&file, &path_bytes(&path), &mut report);
            let (Ok(routine), Ok(length)) = (Routine::parse(&file), answer) else {
                continue;
            };
            report.truncate(length);
            let found = Report::new(&file, &report).map(|report| report.parts());
            let due = Parts::of(&report, &routine)
                .map(|parts| [parts.entries, parts.records, parts.counts]);
            if found.is_none() || found != due {
                return Err(format!("parts of a report: {found:?}, due {due:?}\n"));
            }
            told += 1;
        }
    }
    println!("{told} reports have the same parts");
    Ok(())
}

/// Holds the library against the oracle and against its header; what differs, in words.
fn hold(options: Options) -> Result<(), String> {
    let in_words = |mismatch: Box<Mismatch>| mismatch.to_string();
    let start = Instant::now();
    let tally = compare(&VERIFIED, options).map_err(in_words)?;
    print!("{tally}");
    let seconds = start.elapsed().as_secs_f64();
    let inputs = tally.inputs();
    println!("{inputs} inputs agree, all calls at the same time, {seconds:.1} seconds");
    let missing = tally.missing();
    if !missing.is_empty() {
        return Err(format!("missing or too few: {}\n", missing.join(", ")));
    }
    let part = Options {
        routines: options.routines / 10,
        paths: options.paths / 10,
        conversions: options.conversions / 10,
        ..options
    };
    let tally = compare_part(&verified_by_pointers(), part).map_err(in_words)?;
    let inputs = tally.inputs();
    println!("{inputs} inputs agree and stay as they were, null pointers for what is empty");
    hold_parts()?;
    let most = stack::most(options.seed);
    println!("{most}");
    if most.bytes() > stack::LIMIT {
        return Err(format!("more stack than {} bytes\n", stack::LIMIT));
    }
    Ok(())
}

fn main() -> ExitCode {
    let Some(options) = options() else {
        eprintln!("{USAGE}");
        return ExitCode::from(2);
    };
    println!("seed {}", options.seed);
    match hold(options) {
        Ok(()) => ExitCode::SUCCESS,
        Err(words) => {
            print!("{words}");
            ExitCode::FAILURE
        }
    }
}
