//! Directive files in words, a line for each template, array and vertex:
//!
//! ```text
//! ! a remark
//! template T (block,cyclic(2))
//! array A inout with T
//! array B local with T exchanged
//! 0 -> 1
//! 1 define B read A -> 2 3
//! 2 realign A with T exchanged -> 3
//! 3 redistribute T (cyclic,*) -> 4
//! 4
//! ```
//!
//! `*` is not spread, and `cyclic` is `cyclic(1)`. Vertices are numbered in order; successors
//! follow the arrow, rising.

use super::{Alignment, Array, Dimension, Mapping, Program, Statement};
use crate::builder::{DEFINE, IN, INOUT, KILL, LOCAL, MODIFY, OUT, READ};
use std::fmt;

const KINDS: [(&str, u8); 4] = [("local", LOCAL), ("in", IN), ("out", OUT), ("inout", INOUT)];

const REFERENCES: [(&str, u8); 4] = [
    ("read", READ),
    ("define", DEFINE),
    ("modify", MODIFY),
    ("kill", KILL),
];

fn named<T: Copy>(names: &[(&str, T)], word: &str) -> Option<T> {
    let found = names.iter().find(|(name, _)| *name == word);
    found.map(|&(_, value)| value)
}

fn name_of(names: &[(&'static str, u8)], byte: u8) -> &'static str {
    let found = names.iter().find(|&&(_, value)| value == byte);
    found.map_or("unknown", |&(name, _)| name)
}

impl Dimension {
    fn from_text(text: &str) -> Option<Dimension> {
        match text {
            "*" => Some(Dimension::NotSpread),
            "block" => Some(Dimension::Block),
            "cyclic" => Some(Dimension::Cyclic(1)),
            _ => {
                let size = text.strip_prefix("cyclic(")?.strip_suffix(')')?;
                size.parse().ok().map(Dimension::Cyclic)
            }
        }
    }
}

impl Mapping {
    fn from_text(text: &str) -> Option<Mapping> {
        let (first, second) = text.strip_prefix('(')?.strip_suffix(')')?.split_once(',')?;
        Some(Mapping(
            Dimension::from_text(first)?,
            Dimension::from_text(second)?,
        ))
    }
}

/// The names that a text has given so far.
#[derive(Default)]
struct Names<'a> {
    templates: Vec<&'a str>,
    arrays: Vec<&'a str>,
}

fn place(names: &[&str], name: &str) -> Option<usize> {
    names.iter().position(|known| *known == name)
}

impl<'a> Names<'a> {
    /// `with T`, and perhaps `exchanged`.
    fn alignment(&self, words: &[&str]) -> Option<Alignment> {
        match words {
            ["with", name] => place(&self.templates, name).map(Alignment::straight),
            ["with", name, "exchanged"] => place(&self.templates, name).map(Alignment::exchanged),
            _ => None,
        }
    }

    fn references(&self, words: &[&str]) -> Option<Statement> {
        let mut row = vec![0; self.arrays.len()];
        let pairs = words.chunks_exact(2);
        if !pairs.remainder().is_empty() {
            return None;
        }
        for pair in pairs {
            row[place(&self.arrays, pair[1])?] = named(&REFERENCES, pair[0])?;
        }
        Some(Statement::References(row))
    }

    fn statement(&self, words: &[&str]) -> Option<Statement> {
        match words {
            ["realign", array, rest @ ..] => Some(Statement::Realign(
                place(&self.arrays, array)?,
                self.alignment(rest)?,
            )),
            ["redistribute", template, mapping] => Some(Statement::Redistribute(
                place(&self.templates, template)?,
                Mapping::from_text(mapping)?,
            )),
            _ => self.references(words),
        }
    }

    /// Takes up a line.
    fn line(&mut self, program: &mut Program, words: &[&'a str]) -> Option<()> {
        match words {
            ["template", name, mapping] => {
                self.templates.push(name);
                program.templates.push(Mapping::from_text(mapping)?);
            }
            ["array", name, kind, rest @ ..] => {
                self.arrays.push(name);
                program.arrays.push(Array {
                    kind: named(&KINDS, kind)?,
                    alignment: self.alignment(rest)?,
                });
            }
            [number, rest @ ..] => {
                let vertex: u16 = number.parse().ok()?;
                if usize::from(vertex) != program.vertices.len() {
                    return None;
                }
                let arrow = rest.iter().position(|word| *word == "->");
                let (statement, next) = rest.split_at(arrow.unwrap_or(rest.len()));
                program.vertices.push(self.statement(statement)?);
                for word in next.iter().skip(1) {
                    program.edges.push((vertex, word.parse().ok()?));
                }
            }
            [] => {}
        }
        Some(())
    }
}

impl Program {
    /// The program in a text, or the first line that is not understood.
    pub fn from_text(text: &str) -> Result<Program, String> {
        let mut program = Program {
            templates: Vec::new(),
            arrays: Vec::new(),
            vertices: Vec::new(),
            edges: Vec::new(),
        };
        let mut names = Names::default();
        for line in text.lines().filter(|line| !line.starts_with('!')) {
            let words: Vec<&str> = line.split_whitespace().collect();
            if names.line(&mut program, &words).is_none() {
                return Err(String::from(line));
            }
        }
        Ok(program)
    }
}

impl fmt::Display for Dimension {
    fn fmt(&self, text: &mut fmt::Formatter) -> fmt::Result {
        match self {
            Dimension::NotSpread => text.write_str("*"),
            Dimension::Block => text.write_str("block"),
            Dimension::Cyclic(size) => write!(text, "cyclic({size})"),
        }
    }
}

impl fmt::Display for Mapping {
    fn fmt(&self, text: &mut fmt::Formatter) -> fmt::Result {
        write!(text, "({},{})", self.0, self.1)
    }
}

impl fmt::Display for Alignment {
    fn fmt(&self, text: &mut fmt::Formatter) -> fmt::Result {
        let exchanged = if self.exchanged { " exchanged" } else { "" };
        write!(text, "with T{}{exchanged}", self.template)
    }
}

impl fmt::Display for Statement {
    fn fmt(&self, text: &mut fmt::Formatter) -> fmt::Result {
        match self {
            Statement::References(row) => {
                let references = row.iter().enumerate().filter(|(_, byte)| **byte != 0);
                for (array, &byte) in references {
                    write!(text, " {} A{array}", name_of(&REFERENCES, byte))?;
                }
                Ok(())
            }
            Statement::Realign(array, alignment) => write!(text, " realign A{array} {alignment}"),
            Statement::Redistribute(template, mapping) => {
                write!(text, " redistribute T{template} {mapping}")
            }
        }
    }
}

/// Templates are named T0, T1 and so on, arrays A0, A1 and so on.
impl fmt::Display for Program {
    fn fmt(&self, text: &mut fmt::Formatter) -> fmt::Result {
        for (template, mapping) in self.templates.iter().enumerate() {
            writeln!(text, "template T{template} {mapping}")?;
        }
        for (array, Array { kind, alignment }) in self.arrays.iter().enumerate() {
            let kind = name_of(&KINDS, *kind);
            writeln!(text, "array A{array} {kind} {alignment}")?;
        }
        for (vertex, (statement, next)) in self.vertices.iter().zip(self.successors()).enumerate() {
            write!(text, "{vertex}{statement}")?;
            if !next.is_empty() {
                write!(text, " ->")?;
            }
            for to in next {
                write!(text, " {to}")?;
            }
            writeln!(text)?;
        }
        Ok(())
    }
}
