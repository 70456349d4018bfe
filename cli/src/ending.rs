//! How a command ends: what it writes, and its exit status.

use crate::Standard;
use hpf_remap::{Refusal, refusal};
use std::io::{self, Write};
use std::process::ExitCode;

const DONE: u8 = 0;
const REFUSED: u8 = 1;
const TROUBLE: u8 = 2;

/// What a command writes to standard output.
#[derive(Debug)]
pub struct Ending {
    pub output: Vec<u8>,
    /// Whether the library refused the file that this tells of.
    pub refused: bool,
}

impl Ending {
    pub fn done(output: impl Into<Vec<u8>>) -> Ending {
        Ending {
            output: output.into(),
            refused: false,
        }
    }
}

/// Why a command cannot do what it was asked for.
#[derive(Debug)]
pub enum Stop {
    /// The library's own answer.
    Refused(Refusal),
    /// A file, an argument or the output, in words.
    Trouble(String),
}

impl Stop {
    /// Bytes of the library are not of the formats that this program knows.
    pub fn unread(what: &str) -> Stop {
        let version = env!("CARGO_PKG_VERSION");
        Stop::Trouble(format!(
            "the library's {what} is not of the format of hpf {version}"
        ))
    }
}

impl From<Refusal> for Stop {
    fn from(refusal: Refusal) -> Stop {
        Stop::Refused(refusal)
    }
}

fn complain(text: &str) {
    // Where standard error cannot be written either, the status has to do.
    let _ = writeln!(io::stderr(), "hpf: {text}");
}

/// Writes what is to be written, and gives the exit status.
pub fn end(answer: Result<Ending, Stop>, standard: Standard) -> ExitCode {
    let (output, status) = match answer {
        Ok(Ending { output, refused }) => (output, if refused { REFUSED } else { DONE }),
        Err(Stop::Refused(refusal)) => {
            let text = refusal::text(refusal.number).unwrap_or("for a reason that is not known");
            complain(&format!("refused: {text} (hpf explain tells more)"));
            (format!("{refusal}\n").into_bytes(), REFUSED)
        }
        Err(Stop::Trouble(text)) => {
            complain(&text);
            return ExitCode::from(TROUBLE);
        }
    };
    match write(&output, standard) {
        Ok(()) => ExitCode::from(status),
        Err(error) => {
            complain(&format!("cannot write standard output: {error}"));
            ExitCode::from(TROUBLE)
        }
    }
}

fn write(output: &[u8], standard: Standard) -> io::Result<()> {
    if !standard.output_is_open {
        return Err(io::Error::other("it is closed"));
    }
    let mut stdout = io::stdout().lock();
    stdout.write_all(output)?;
    stdout.flush()
}
