//! The calls that are held against the oracle's, and their inputs.

use oracle::directives::{self, convert, states};
use oracle::outcome::Outcome;
use oracle::rounds;
use oracle::routine::{LONGEST_FILE, Routine};

/// Plans a routine into a buffer.
pub type Plan = fn(&[u8], &mut [u8]) -> Outcome;

/// Runs a routine along a path into a buffer.
pub type Run = fn(&[u8], &[u8], &mut [u8]) -> Outcome;

/// Converts a directive file to a routine in a buffer.
pub type Convert = fn(&[u8], &mut [u8]) -> Outcome;

/// Writes the rounds of a planner's passes for a routine into a buffer.
pub type Rounds = fn(&[u8], &mut [u8]) -> Outcome;

/// A library's calls.
#[derive(Clone, Copy)]
pub struct Library {
    pub plan: Plan,
    pub run: Run,
    pub convert: Convert,
    pub rounds: Rounds,
}

/// The oracle's own calls, with the labels by data flow and conversions by sets.
pub const ORACLE: Library = Library {
    plan: oracle::plan::plan,
    run: oracle::run::run,
    convert: convert::convert,
    rounds: rounds::rounds,
};

/// The oracle's own calls, with the labels by listing paths and conversions by whole states.
const LITERAL: Library = Library {
    plan: oracle::plan::plan_by_paths,
    run: oracle::run::run_by_paths,
    convert: |directives, out| {
        convert::convert_by_states(directives, MOST_STATES, out).expect("the states are few")
    },
    rounds: rounds::rounds_by_paths,
};

/// Whole states say what is expected of a directive file that has no more.
const MOST_STATES: usize = 150;

/// What a call reads.
#[derive(Clone, Debug, PartialEq, Eq)]
pub enum Input {
    Plan {
        routine: Vec<u8>,
    },
    Run {
        routine: Vec<u8>,
        path: Vec<u8>,
    },
    Convert {
        directives: Vec<u8>,
    },
    /// Two calls: what the first makes of the directives is run by the second.
    ConvertAndRun {
        directives: Vec<u8>,
        path: Vec<u8>,
    },
    Rounds {
        routine: Vec<u8>,
    },
}

impl Input {
    pub fn plan(routine: Vec<u8>) -> Input {
        Input::Plan { routine }
    }

    pub fn run(routine: Vec<u8>, path: Vec<u8>) -> Input {
        Input::Run { routine, path }
    }

    pub fn convert(directives: Vec<u8>) -> Input {
        Input::Convert { directives }
    }

    pub fn convert_and_run(directives: Vec<u8>, path: Vec<u8>) -> Input {
        Input::ConvertAndRun { directives, path }
    }

    pub fn rounds(routine: Vec<u8>) -> Input {
        Input::Rounds { routine }
    }

    /// The routine file or the directive file.
    pub fn file(&self) -> &[u8] {
        match self {
            Input::Plan { routine } | Input::Run { routine, .. } | Input::Rounds { routine } => {
                routine
            }
            Input::Convert { directives } | Input::ConvertAndRun { directives, .. } => directives,
        }
    }

    pub fn path(&self) -> Option<&[u8]> {
        match self {
            Input::Plan { .. } | Input::Convert { .. } | Input::Rounds { .. } => None,
            Input::Run { path, .. } | Input::ConvertAndRun { path, .. } => Some(path),
        }
    }

    /// The same with another file.
    pub fn with_file(&self, file: Vec<u8>) -> Input {
        match self.clone() {
            Input::Plan { .. } => Input::plan(file),
            Input::Run { path, .. } => Input::run(file, path),
            Input::Convert { .. } => Input::convert(file),
            Input::ConvertAndRun { path, .. } => Input::convert_and_run(file, path),
            Input::Rounds { .. } => Input::rounds(file),
        }
    }

    /// Calls a library on this input.
    pub fn call(&self, library: &Library, out: &mut [u8]) -> Outcome {
        match self {
            Input::Plan { routine } => (library.plan)(routine, out),
            Input::Run { routine, path } => (library.run)(routine, path, out),
            Input::Convert { directives } => (library.convert)(directives, out),
            Input::ConvertAndRun { directives, path } => match converted(library, directives) {
                Ok(routine) => (library.run)(&routine, path, out),
                Err(refusal) => refusal,
            },
            Input::Rounds { routine } => (library.rounds)(routine, out),
        }
    }
}

/// What a library converts a directive file to, or its refusal.
pub fn converted(library: &Library, directives: &[u8]) -> Result<Vec<u8>, Outcome> {
    let mut routine = vec![0; LONGEST_FILE];
    let answer = (library.convert)(directives, &mut routine);
    routine.truncate(answer.first as usize);
    if answer.number == 0 {
        Ok(routine)
    } else {
        Err(answer)
    }
}

/// Which form of the rules says what is expected.
#[derive(Clone, Copy, Debug, PartialEq, Eq)]
pub enum Form {
    /// The file is refused by 10 to 19, 22 or 40, before the rules are asked.
    NotAsked,
    /// By listing paths, or by whole states along them: the words of the rules, and slow.
    Literal,
    /// By data flow, or by sets.
    Fixpoint,
}

impl Form {
    /// Literal for small files: there are few paths to list, or few states.
    pub fn of(input: &Input) -> Form {
        match input {
            Input::Plan { routine } | Input::Run { routine, .. } | Input::Rounds { routine } => {
                Form::of_routine(routine)
            }
            Input::Convert { directives } => Form::of_directives(directives),
            Input::ConvertAndRun { directives, .. } => {
                match (
                    Form::of_directives(directives),
                    converted(&ORACLE, directives),
                ) {
                    (Form::Literal, Ok(routine)) => Form::of_routine(&routine),
                    (form, _) => form,
                }
            }
        }
    }

    fn of_routine(file: &[u8]) -> Form {
        match Routine::parse(file) {
            Err(_) => Form::NotAsked,
            Ok(routine) if routine.vertex_count() <= 8 && routine.edge_count() <= 12 => {
                Form::Literal
            }
            Ok(_) => Form::Fixpoint,
        }
    }

    fn of_directives(file: &[u8]) -> Form {
        match directives::file::parse(file) {
            Err(_) => Form::NotAsked,
            Ok(program) if states::brought(&program, MOST_STATES).is_some() => Form::Literal,
            Ok(_) => Form::Fixpoint,
        }
    }

    /// The oracle's calls with this form.
    pub fn oracle(self) -> Library {
        match self {
            Form::Literal => LITERAL,
            Form::NotAsked | Form::Fixpoint => ORACLE,
        }
    }
}
