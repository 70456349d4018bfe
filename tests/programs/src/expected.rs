//! What the programs are to print: on standard output what document 01 says ("Routine P and
//! others"), or the bytes of a converted routine; on standard error a line for everything else than
//! a whole plan, report or routine.

use harness::library::{Input, ORACLE};
use oracle::listing;
use oracle::routine::Routine;
use oracle::run::{LONGEST_REPORT, vertices};
use std::fmt;

/// A longer path is not run.
pub const LONGEST_PATH: usize = 512;

/// What an output says.
#[derive(Clone, Copy, Debug, PartialEq, Eq, PartialOrd, Ord)]
pub enum Answer {
    /// The whole plan, report or routine.
    Done,
    /// A refusal by its number.
    Refused(u64),
    /// A path that is not run.
    Long,
}

impl fmt::Display for Answer {
    fn fmt(&self, f: &mut fmt::Formatter) -> fmt::Result {
        match self {
            Answer::Done => f.write_str("done"),
            Answer::Refused(number) => write!(f, "{number}"),
            Answer::Long => f.write_str("long"),
        }
    }
}

/// What a program met in a file or in its standard input.
#[derive(Clone, Copy, PartialEq, Eq)]
pub enum Met {
    End,
    Unopened,
    /// A read that failed; the bytes before it count.
    Unread,
}

/// What a program is to print.
#[derive(Clone, PartialEq, Eq)]
pub struct Printed {
    pub output: Vec<u8>,
    pub errors: String,
}

/// The program that an input is for.
pub fn program(input: &Input) -> &'static str {
    match input {
        Input::Plan { .. } => "planner",
        Input::Run { .. } => "runner",
        Input::Convert { .. } => "converter",
        Input::ConvertAndRun { .. } => unreachable!("no program makes both calls"),
        Input::Rounds { .. } => unreachable!("no program makes this call"),
    }
}

/// The output for an input, and what it says.
pub fn output(input: &Input) -> (Answer, Vec<u8>) {
    let path = input.path();
    if path.is_some_and(|path| vertices(path).len() > LONGEST_PATH) {
        return (Answer::Long, b"long\n".to_vec());
    }
    // Room for any plan, report or routine: the programs never print refusals 1 and 2.
    let mut out = vec![0; LONGEST_REPORT];
    let outcome = input.call(&ORACLE, &mut out);
    if outcome.number != 0 {
        let line = listing::refusal(outcome);
        return (Answer::Refused(outcome.number), line.into_bytes());
    }
    out.truncate(outcome.first as usize);
    let output = match (input, Routine::parse(input.file())) {
        (Input::Plan { .. }, _) => listing::plan(&out).into_bytes(),
        (_, Ok(routine)) => {
            let (arrays, edges) = (routine.array_count(), routine.expanded_edge_count());
            listing::report(&out, arrays, edges).into_bytes()
        }
        _ => out,
    };
    (Answer::Done, output)
}

/// The line for a file or stream that is not read to its end.
fn unread(program: &str, name: &str, met: Met) -> String {
    match met {
        Met::End => String::new(),
        Met::Unopened => format!("{program}: cannot open {name}\n"),
        Met::Unread => format!("{program}: cannot read {name}\n"),
    }
}

/// The line for output that cannot be written.
pub fn unwritten(input: &Input) -> String {
    format!("{}: cannot write standard output\n", program(input))
}

/// Both streams for an input, by what its program met in its files. Only the runner has a path, and
/// it opens no routine for a path that is not run.
pub fn printed(input: &Input, file: Met, path: Met) -> Printed {
    let program = program(input);
    let (answer, output) = output(input);
    let mut errors = String::new();
    match input.path() {
        None => errors += &unread(program, "standard input", file),
        Some(_) => errors += &unread(program, "path", path),
    }
    if input.path().is_some() && answer != Answer::Long {
        errors += &unread(program, "routine", file);
    }
    match answer {
        Answer::Done => (),
        Answer::Refused(_) => {
            let line = String::from_utf8_lossy(&output);
            errors += &format!("{program}: refused {line}");
        }
        Answer::Long => errors += &format!("{program}: path too long\n"),
    }
    Printed { output, errors }
}
