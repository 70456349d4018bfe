//! Holds what the verified programs print against document 01 and request 4, byte by byte.
//!
//! programs [--seed S]

mod expected;
mod folder;
mod inputs;
mod unwritten;

use expected::{Answer, Met, Printed, program};
use folder::{Folder, Left};
use harness::library::Input;
use harness::shrink::shrink;
use oracle::builder::Draft;
use oracle::calls::is_call;
use oracle::directives::file;
use oracle::generate::damage::FILE_REFUSALS;
use oracle::generate::directives::REFUSALS;
use oracle::routine::LONGEST_FILE;
use std::collections::BTreeMap;
use std::env;
use std::io::{Error, Result};
use std::path::PathBuf;
use std::process::ExitCode;
use std::time::Instant;

/// What the inputs with one answer of a program were.
#[derive(Default)]
struct Inputs {
    count: u64,
    /// With calls in the routine.
    with_calls: u64,
    /// The bytes of the longest output.
    bytes: usize,
}

/// How often each program gave each answer.
type Tally = BTreeMap<(&'static str, Answer), Inputs>;

fn has_calls(input: &Input) -> bool {
    let draft = Draft::from_bytes(input.file()).unwrap_or_default();
    draft.rows.iter().any(|row| is_call(row))
}

fn seed() -> Option<u64> {
    let arguments: Vec<String> = env::args().skip(1).collect();
    match &arguments[..] {
        [] => Some(1),
        [name, number] if name == "--seed" => number.parse().ok(),
        _ => None,
    }
}

/// The folder of the programs: HPF_BIN_DIR, else target/bin of the repository.
fn programs() -> Result<PathBuf> {
    let folder = match env::var_os("HPF_BIN_DIR") {
        Some(folder) => PathBuf::from(folder),
        None => PathBuf::from(env!("CARGO_MANIFEST_DIR")).join("../../target/bin"),
    };
    let named = |error| Error::other(format!("{}: {error}", folder.display()));
    folder.canonicalize().map_err(named)
}

/// What the input's program leaves, beside what it is to print: planner and converter fed at once,
/// in two pieces and with a read that fails behind the last byte; all programs also with all else
/// that counts as empty.
fn runs(folder: &Folder, input: &Input) -> Result<Vec<(Left, Printed)>> {
    let (name, file) = (program(input), input.file());
    let mut all = Vec::new();
    let Some(path) = input.path() else {
        let (first, second) = file.split_at(file.len() / 2);
        let whole = expected::printed(input, Met::End, Met::End);
        let unread = expected::printed(input, Met::Unread, Met::End);
        all.push((folder.fed(name, &[file])?, whole.clone()));
        all.push((folder.fed(name, &[first, second])?, whole));
        if file.len() <= longest(input) {
            all.push((folder.fed_and_cut(name, file)?, unread.clone()));
        }
        if file.is_empty() {
            all.push((folder.fed_by_folder(name)?, unread.clone()));
            all.push((folder.not_fed(name)?, unread));
        }
        return Ok(all);
    };
    for routine in folder.contents(file)? {
        for path in folder.contents(path)? {
            let printed = expected::printed(input, routine.met(), path.met());
            all.push((folder.runner(routine, path)?, printed));
        }
    }
    Ok(all)
}

/// The longest file that a program reads from standard input to its end.
fn longest(input: &Input) -> usize {
    match input {
        Input::Convert { .. } => file::LONGEST_FILE,
        _ => LONGEST_FILE,
    }
}

/// What differs in words; what was to be printed comes first.
fn in_words(input: &Input, left: &Left, printed: &Printed) -> String {
    let due = String::from_utf8_lossy(&printed.output);
    let found = String::from_utf8_lossy(&left.output);
    let errors = String::from_utf8_lossy(&left.errors);
    let alike = printed.output.iter().zip(&left.output);
    let byte = alike.take_while(|(one, other)| one == other).count();
    format!(
        "output, errors, status; the outputs differ from byte {byte} on\n{input}oracle:\n{due}{}{}:\n{found}{errors}{}\n",
        printed.errors,
        program(input),
        left.status
    )
}

/// A run that left something else than it was to print.
fn difference(folder: &Folder, input: &Input) -> Result<Option<String>> {
    let runs = runs(folder, input)?;
    let other = |(left, printed): &&(Left, Printed)| {
        left.output != printed.output
            || left.errors != printed.errors.as_bytes()
            || !left.status.success()
    };
    let found = runs.iter().find(other);
    Ok(found.map(|(left, printed)| in_words(input, left, printed)))
}

/// Tries all inputs; a difference in words, with a small input.
fn hold(folder: &Folder, seed: u64, tally: &mut Tally) -> Result<Option<String>> {
    for (kind, inputs) in inputs::all(seed) {
        for (index, input) in inputs.into_iter().enumerate() {
            if difference(folder, &input)?.is_some() {
                let differs = |input: &Input| matches!(difference(folder, input), Ok(Some(_)));
                let small = shrink(input, &differs);
                let words = difference(folder, &small)?.unwrap_or_default();
                let found = format!("mismatch: seed {seed}, {kind}, input {index}\n{words}");
                return Ok(Some(found));
            }
            let (answer, output) = expected::output(&input);
            let inputs = tally.entry((program(&input), answer)).or_default();
            inputs.count += 1;
            inputs.with_calls += u64::from(has_calls(&input));
            inputs.bytes = output.len().max(inputs.bytes);
        }
    }
    Ok(None)
}

/// The answers that each program must have given.
fn due() -> Vec<(&'static str, Answer)> {
    let mut due = vec![
        ("planner", Answer::Done),
        ("runner", Answer::Done),
        ("runner", Answer::Long),
        ("converter", Answer::Done),
    ];
    let files = FILE_REFUSALS.map(Answer::Refused);
    let paths = [30, 31, 32].map(Answer::Refused);
    due.extend(files.map(|answer| ("planner", answer)));
    due.extend(files.map(|answer| ("runner", answer)));
    due.extend(paths.map(|answer| ("runner", answer)));
    let directives = REFUSALS.map(Answer::Refused);
    due.extend(directives.map(|answer| ("converter", answer)));
    due
}

fn run(seed: u64) -> Result<ExitCode> {
    let folder = Folder::new(programs()?)?;
    let mut tally = Tally::new();
    let start = Instant::now();
    println!("seed {seed}");
    if let Some(words) = hold(&folder, seed, &mut tally)? {
        println!("{words}");
        return Ok(ExitCode::FAILURE);
    }
    println!(
        "{:<10}{:<10}{:>10}{:>12}{:>10}",
        "program", "answer", "inputs", "with calls", "bytes"
    );
    for ((program, answer), inputs) in &tally {
        let Inputs {
            count,
            with_calls,
            bytes,
        } = inputs;
        println!(
            "{program:<10}{:<10}{count:>10}{with_calls:>12}{bytes:>10}",
            answer.to_string()
        );
    }
    let seconds = start.elapsed().as_secs_f64();
    let inputs: u64 = tally.values().map(|inputs| inputs.count).sum();
    println!("{inputs} outputs agree, {seconds:.1} seconds");
    for (program, answer) in due() {
        if !tally.contains_key(&(program, answer)) {
            println!("never answered: {program} {answer}");
            return Ok(ExitCode::FAILURE);
        }
    }
    for program in ["planner", "runner"] {
        let done = &tally[&(program, Answer::Done)];
        if 3 * done.with_calls < done.count {
            println!("too few calls: {program}");
            return Ok(ExitCode::FAILURE);
        }
    }
    match unwritten::hold(&folder)? {
        Ok(words) => println!("{words}"),
        Err(words) => {
            println!("{words}");
            return Ok(ExitCode::FAILURE);
        }
    }
    Ok(ExitCode::SUCCESS)
}

fn main() -> ExitCode {
    let Some(seed) = seed() else {
        eprintln!("programs [--seed S]");
        return ExitCode::from(2);
    };
    run(seed).unwrap_or_else(|error| {
        eprintln!("{error}");
        ExitCode::FAILURE
    })
}
