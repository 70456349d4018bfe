//! Files in words: docs/NOTATION.md lays the notation down.

mod line;
mod path;
mod program;
mod routine;
mod shared;

use crate::directives::Program;
use crate::files::{File, Form};
use crate::routine::Routine;
use line::Line;
pub use line::{Fault, MOST_LETTERS};

/// The first word of every text.
const MARK: &str = "hpf";

/// The names that a text gave. Bytes have none.
#[derive(Clone, Debug, Default, PartialEq, Eq)]
pub struct Names {
    pub arrays: Vec<String>,
    pub templates: Vec<String>,
}

impl Names {
    /// An array's name, or its number.
    pub fn array(&self, array: usize) -> String {
        name(&self.arrays, array)
    }

    /// A template's name, or its number.
    pub fn template(&self, template: usize) -> String {
        name(&self.templates, template)
    }

    /// The names that a text needs: `a` and so on for arrays, `t0` and so on for templates.
    fn or_made(&self, arrays: usize, templates: usize) -> Names {
        let letters = ('a'..='z').map(String::from);
        let letters = letters.chain((0..).map(|number| format!("a{number}")));
        let numbers = (0..).map(|number| format!("t{number}"));
        Names {
            arrays: or_made(&self.arrays, letters.take(arrays)),
            templates: or_made(&self.templates, numbers.take(templates)),
        }
    }
}

/// The names that are given, or else made.
fn or_made(given: &[String], made: impl Iterator<Item = String>) -> Vec<String> {
    let names = made.enumerate();
    names
        .map(|(at, made)| given.get(at).cloned().unwrap_or(made))
        .collect()
}

fn name(names: &[String], at: usize) -> String {
    names.get(at).cloned().unwrap_or_else(|| at.to_string())
}

/// The lines on which a text has its templates, arrays and vertices.
#[derive(Clone, Debug, Default, PartialEq, Eq)]
pub struct Places {
    pub templates: Vec<usize>,
    pub arrays: Vec<usize>,
    pub vertices: Vec<usize>,
}

/// Whether a file is a text, by its mark.
pub fn is_text(contents: &[u8]) -> bool {
    let rest = contents.strip_prefix(MARK.as_bytes());
    rest.is_some_and(|rest| rest.first().is_none_or(u8::is_ascii_whitespace))
}

/// The file that a text with its mark says.
pub fn read(text: &str) -> Result<File, Fault> {
    let mut lines = Line::all(text);
    let mut first = lines.next().unwrap_or(Line::empty());
    first.word(MARK)?;
    let at = first.here();
    let (form, bytes, names, places) = match first.next() {
        Some("routine") => {
            first.end()?;
            let (routine, names, places) = routine::read(lines)?;
            (Form::Routine, routine.bytes(), names, places)
        }
        Some("directives") => {
            first.end()?;
            let (program, names, places) = program::read(lines)?;
            (Form::Directives, program.bytes(), names, places)
        }
        Some("path") => {
            let bytes = path::read(std::iter::once(first).chain(lines))?;
            let (names, places) = (Names::default(), Places::default());
            (Form::Path, Some(bytes), names, places)
        }
        _ => return Err(at.fault("`routine`, `directives` or `path` is expected")),
    };
    let Some(bytes) = bytes else {
        return Err(at.fault("there are more arrays or vertices than bytes have room for"));
    };
    Ok(File {
        form,
        bytes,
        names,
        places: Some(places),
    })
}

/// A file in words; `None` if it is malformed.
pub fn text(file: &File) -> Option<String> {
    let body = match file.form {
        Form::Routine => {
            let routine = Routine::from_bytes(&file.bytes)?;
            routine::text(&routine, &file.names.or_made(routine.arrays.len(), 0))
        }
        Form::Directives => {
            let program = Program::from_bytes(&file.bytes)?;
            let (arrays, templates) = (program.arrays.len(), program.templates.len());
            program::text(&program, &file.names.or_made(arrays, templates))
        }
        Form::Path => path::text(&file.bytes),
    };
    Some(format!("{MARK} {body}"))
}
