//! The bytes of a directive file, and refusal 40.
//!
//! A file is read once, from front to back, field by field: bytes and 16-bit numbers. The first
//! field that is wrong gives its first byte; where the file ends before a field does, the place is
//! the file's length; a byte behind the last edge is itself the bad one. Where a vertex has no
//! spread, the fields of one are there all the same and 0.

use super::{Alignment, Array, Dimension, Mapping, Program, Statement};
use crate::builder::REFERENCES;
use crate::outcome::Refusal;
use crate::routine::{MAX_ARRAYS, MAX_EDGES, MAX_VERTICES};
use std::ops::RangeInclusive;

pub const MAX_TEMPLATES: usize = 8;

/// Mark, edition and table of contents: the bodies follow from here.
pub const HEAD: usize = 22;

/// The bytes of a template, of an array, of an edge, and of a vertex without its references.
pub const TEMPLATE: usize = 8;
pub const ARRAY: usize = 4;
pub const VERTEX: usize = 12;
pub const EDGE: usize = 4;

/// The length of the longest file that is accepted.
pub const LONGEST_FILE: usize = HEAD
    + TEMPLATE * MAX_TEMPLATES
    + ARRAY * MAX_ARRAYS
    + (VERTEX + MAX_ARRAYS) * MAX_VERTICES
    + EDGE * MAX_EDGES;

const REALIGN: usize = 1;
const REDISTRIBUTE: usize = 2;
const CYCLIC: usize = 2;

fn malformed(place: usize) -> Refusal {
    Refusal::at(40, place)
}

struct Reader<'a> {
    file: &'a [u8],
    at: usize,
}

impl Reader<'_> {
    /// The next field of so many bytes, low byte first.
    fn field(&mut self, width: usize, is_right: impl Fn(usize) -> bool) -> Result<usize, Refusal> {
        let Some(bytes) = self.file.get(self.at..self.at + width) else {
            return Err(malformed(self.file.len()));
        };
        let low_first = bytes.iter().rev();
        let value = low_first.fold(0, |value, &byte| value << 8 | usize::from(byte));
        if !is_right(value) {
            return Err(malformed(self.at));
        }
        self.at += width;
        Ok(value)
    }

    fn byte(&mut self, is_right: impl Fn(usize) -> bool) -> Result<usize, Refusal> {
        self.field(1, is_right)
    }

    fn byte_below(&mut self, limit: usize) -> Result<usize, Refusal> {
        self.byte(|byte| byte < limit)
    }

    fn word(&mut self, is_right: impl Fn(usize) -> bool) -> Result<usize, Refusal> {
        self.field(2, is_right)
    }

    /// An entry of the table of contents; gives the count.
    fn entry(&mut self, offset: usize, limits: RangeInclusive<usize>) -> Result<usize, Refusal> {
        self.word(|word| word == offset)?;
        self.word(|count| limits.contains(&count))
    }

    /// A dimension; not spread where it must be all 00.
    fn dimension(&mut self, may_spread: bool) -> Result<Dimension, Refusal> {
        let kind = self.byte_below(if may_spread { 3 } else { 1 })?;
        self.byte_below(1)?;
        let size = self.word(|size| (size != 0) == (kind == CYCLIC))?;
        Ok(match kind {
            0 => Dimension::NotSpread,
            1 => Dimension::Block,
            _ => Dimension::Cyclic(size as u16),
        })
    }

    fn mapping(&mut self, may_spread: bool) -> Result<Mapping, Refusal> {
        Ok(Mapping(
            self.dimension(may_spread)?,
            self.dimension(may_spread)?,
        ))
    }

    fn array(&mut self, templates: usize) -> Result<Array, Refusal> {
        let kind = self.byte_below(4)? as u8;
        let template = self.byte_below(templates)?;
        let exchanged = self.byte_below(2)? == 1;
        self.byte_below(1)?;
        let alignment = Alignment {
            template,
            exchanged,
        };
        Ok(Array { kind, alignment })
    }

    /// A vertex; entry and exit, which are terminal, are all 00.
    fn vertex(
        &mut self,
        templates: usize,
        arrays: usize,
        terminal: bool,
    ) -> Result<Statement, Refusal> {
        let directive = self.byte_below(if terminal { 1 } else { 3 })?;
        let realigns = directive == REALIGN;
        let redistributes = directive == REDISTRIBUTE;
        let subject = self.byte_below(match directive {
            REALIGN => arrays,
            REDISTRIBUTE => templates,
            _ => 1,
        })?;
        let template = self.byte_below(if realigns { templates } else { 1 })?;
        let exchanged = self.byte_below(if realigns { 2 } else { 1 })? == 1;
        let mapping = self.mapping(redistributes)?;
        let mut row = Vec::new();
        for _ in 0..arrays {
            let refers = |byte: usize| REFERENCES.contains(&(byte as u8));
            let may_refer = directive == 0 && !terminal;
            row.push(self.byte(|byte| byte == 0 || may_refer && refers(byte))? as u8);
        }
        let alignment = Alignment {
            template,
            exchanged,
        };
        Ok(match directive {
            REALIGN => Statement::Realign(subject, alignment),
            REDISTRIBUTE => Statement::Redistribute(subject, mapping),
            _ => Statement::References(row),
        })
    }

    /// An edge after another one.
    fn edge(&mut self, vertices: usize, before: Option<(u16, u16)>) -> Result<(u16, u16), Refusal> {
        let first = self.at;
        let exit = vertices - 1;
        let from = self.word(|from| from < exit)? as u16;
        let to = self.word(|to| 0 < to && to <= exit)? as u16;
        if before.is_some_and(|edge| (from, to) <= edge) {
            return Err(malformed(first));
        }
        Ok((from, to))
    }

    fn program(&mut self) -> Result<Program, Refusal> {
        for letter in *b"HPFD" {
            self.byte(|byte| byte == usize::from(letter))?;
        }
        self.word(|edition| edition == 1)?;
        let templates = self.entry(HEAD, 1..=MAX_TEMPLATES)?;
        let first_array = HEAD + TEMPLATE * templates;
        let arrays = self.entry(first_array, 1..=MAX_ARRAYS)?;
        let first_vertex = first_array + ARRAY * arrays;
        let vertices = self.entry(first_vertex, 2..=MAX_VERTICES)?;
        let first_edge = first_vertex + (VERTEX + arrays) * vertices;
        let edges = self.entry(first_edge, 0..=MAX_EDGES)?;

        let mut program = Program {
            templates: Vec::new(),
            arrays: Vec::new(),
            vertices: Vec::new(),
            edges: Vec::new(),
        };
        for _ in 0..templates {
            program.templates.push(self.mapping(true)?);
        }
        for _ in 0..arrays {
            program.arrays.push(self.array(templates)?);
        }
        for vertex in 0..vertices {
            let terminal = vertex == 0 || vertex + 1 == vertices;
            let statement = self.vertex(templates, arrays, terminal)?;
            program.vertices.push(statement);
        }
        for _ in 0..edges {
            let edge = self.edge(vertices, program.edges.last().copied())?;
            program.edges.push(edge);
        }
        if self.at < self.file.len() {
            return Err(malformed(self.at));
        }
        Ok(program)
    }
}

/// The contents of a directive file, or refusal 40.
pub fn parse(file: &[u8]) -> Result<Program, Refusal> {
    Reader { file, at: 0 }.program()
}

fn dimension_bytes(dimension: Dimension) -> [u8; 4] {
    match dimension {
        Dimension::NotSpread => [0; 4],
        Dimension::Block => [1, 0, 0, 0],
        Dimension::Cyclic(size) => {
            let [low, high] = size.to_le_bytes();
            [2, 0, low, high]
        }
    }
}

fn mapping_bytes(mapping: Mapping) -> Vec<u8> {
    [mapping.0, mapping.1].map(dimension_bytes).concat()
}

fn vertex_bytes(statement: &Statement, arrays: usize) -> Vec<u8> {
    let mut bytes = vec![0; VERTEX + arrays];
    match statement {
        Statement::References(row) => bytes[VERTEX..].copy_from_slice(row),
        Statement::Realign(array, alignment) => {
            let template = alignment.template as u8;
            let exchanged = alignment.exchanged.into();
            bytes[..4].copy_from_slice(&[1, *array as u8, template, exchanged]);
        }
        Statement::Redistribute(template, mapping) => {
            bytes[..2].copy_from_slice(&[2, *template as u8]);
            bytes[4..VERTEX].copy_from_slice(&mapping_bytes(*mapping));
        }
    }
    bytes
}

impl Program {
    /// The directive file; its counts may be beyond the limits.
    pub fn bytes(&self) -> Vec<u8> {
        let first_array = HEAD + TEMPLATE * self.templates.len();
        let first_vertex = first_array + ARRAY * self.arrays.len();
        let first_edge = first_vertex + (VERTEX + self.arrays.len()) * self.vertices.len();
        let mut file = b"HPFD".to_vec();
        for word in [
            1,
            HEAD,
            self.templates.len(),
            first_array,
            self.arrays.len(),
            first_vertex,
            self.vertices.len(),
            first_edge,
            self.edges.len(),
        ] {
            file.extend((word as u16).to_le_bytes());
        }
        for &mapping in &self.templates {
            file.extend(mapping_bytes(mapping));
        }
        for &Array { kind, alignment } in &self.arrays {
            let template = alignment.template as u8;
            file.extend([kind, template, alignment.exchanged.into(), 0]);
        }
        for statement in &self.vertices {
            file.extend(vertex_bytes(statement, self.arrays.len()));
        }
        for (from, to) in &self.edges {
            file.extend(from.to_le_bytes());
            file.extend(to.to_le_bytes());
        }
        file
    }
}
