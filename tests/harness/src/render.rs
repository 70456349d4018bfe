//! An input and a mismatch in words.

use crate::check::{Called, Difference};
use crate::drive::Mismatch;
use crate::library::Input;
use oracle::builder::Draft;
use oracle::calls::{Call, Intent};
use oracle::directives::file;
use oracle::outcome::Outcome;
use oracle::routine::Action;
use oracle::run::{MAX_PATH, vertices};
use std::fmt::{self, Write};

/// Longer buffers are not printed.
const SHOWN: usize = 400;

/// So many bytes of a file or path are printed: no accepted one has more.
const MOST: usize = file::LONGEST_FILE;

fn hexadecimal(bytes: &[u8]) -> String {
    let mut text = String::new();
    for line in bytes.chunks(32) {
        text += "   ";
        for byte in line {
            text += &format!(" {byte:02x}");
        }
        text += "\n";
    }
    text
}

/// A name, the length, and the front of what is longer than any accepted input.
fn named(name: &str, bytes: &[u8]) -> String {
    let front = &bytes[..bytes.len().min(MOST)];
    let mut text = format!("{name}, {} bytes:\n", bytes.len());
    text += &hexadecimal(front);
    if front.len() < bytes.len() {
        text += "    and so on\n";
    }
    text
}

fn action(byte: u8) -> String {
    match Action::from_byte(byte) {
        Some(Action::Nothing) => String::from("-"),
        Some(Action::Reference(reference)) => format!("{reference:?}").to_lowercase(),
        Some(Action::Remap(version)) => format!("remap {version}"),
        Some(Action::Call(Call { version, intent })) => match intent {
            Intent::In => format!("call in {version}"),
            Intent::Out => format!("call out {version}"),
            Intent::Inout => format!("call inout {version}"),
        },
        None => format!("unknown {byte:02x}"),
    }
}

/// A routine's arrays, rows and edges.
fn routine(draft: &Draft) -> String {
    let mut text = String::new();
    for (array, [kind, versions, initial, zero]) in draft.arrays.iter().enumerate() {
        let kind = match kind {
            0 => "local",
            1 => "in",
            2 => "out",
            3 => "inout",
            _ => "unknown kind",
        };
        text += &format!("  array {array}: {kind}, {versions} versions, initial {initial}");
        if *zero != 0 {
            text += &format!(", fourth byte {zero:02x}");
        }
        text += "\n";
    }
    for (vertex, row) in draft.rows.iter().enumerate() {
        let actions: Vec<String> = row.iter().map(|&byte| action(byte)).collect();
        text += &format!("  vertex {vertex}: {}\n", actions.join(", "));
    }
    let edges: Vec<String> = draft
        .edges
        .iter()
        .map(|(from, to)| format!("{from}-{to}"))
        .collect();
    text + &format!("  edges: {}\n", edges.join(" "))
}

fn side(name: &str, called: &Called) -> String {
    let Outcome {
        number,
        first,
        second,
    } = called.outcome;
    let mut text = format!("{name}: {number} {first} {second}\n");
    if called.buffer.len() <= SHOWN {
        text += &hexadecimal(&called.buffer);
    }
    text
}

/// A directive file's lines; of one that is refused by 40 there are none.
fn directives(file: &[u8]) -> String {
    let program = file::parse(file).map_or_else(|_| String::new(), |program| program.to_string());
    program.lines().map(|line| format!("  {line}\n")).collect()
}

impl fmt::Display for Input {
    fn fmt(&self, f: &mut fmt::Formatter) -> fmt::Result {
        let file = self.file();
        match self {
            Input::Plan { .. } | Input::Run { .. } | Input::Rounds { .. } => {
                f.write_str(&named("routine", file))?;
                let draft = Draft::from_bytes(file);
                f.write_str(&draft.as_ref().map_or_else(String::new, routine))?;
            }
            Input::Convert { .. } | Input::ConvertAndRun { .. } => {
                f.write_str(&named("directives", file))?;
                f.write_str(&directives(file))?;
            }
        }
        if let Some(path) = self.path() {
            f.write_str(&named("path", path))?;
            let vertices = vertices(path).take(MAX_PATH);
            let vertices: Vec<String> = vertices.map(|vertex| vertex.to_string()).collect();
            writeln!(f, "  vertices: {}", vertices.join(" "))?;
        }
        Ok(())
    }
}

impl fmt::Display for Mismatch {
    fn fmt(&self, f: &mut fmt::Formatter) -> fmt::Result {
        let mut text = String::new();
        let Mismatch {
            seed, kind, index, ..
        } = self;
        writeln!(text, "mismatch: seed {seed}, {kind}, input {index}")?;
        let fault = &self.fault;
        let difference = match &fault.difference {
            Difference::Outcome => String::from("number, places or length differ"),
            Difference::Written(place) => format!("byte {place} differs"),
            Difference::Beyond(place) => format!("byte {place} beyond the length is touched"),
            Difference::Refused(place) => format!("byte {place} is touched by a refusal"),
            Difference::Outside => String::from("a byte outside the buffer is touched"),
            Difference::Demand3(reason) => format!("demand 3: {reason}"),
            Difference::Passes(reason) => format!("passes: {reason}"),
            Difference::Mappings(reason) => format!("mappings: {reason}"),
            Difference::Rounds(reason) => format!("rounds: {reason}"),
        };
        let length = fault.found.buffer.len();
        writeln!(text, "{difference}, buffer of {length} bytes")?;
        text += &side("oracle", &fault.expected);
        text += &side("library", &fault.found);
        write!(text, "{}", self.input)?;
        f.write_str(&text)
    }
}
