//! A directive file, as the library's converter accepts it.

use crate::routine::{Edge, edge_bytes, edges_from, head};
use hpf_remap::formats::{
    ARRAY, Action, BLOCK, CYCLIC, DIRECTIVE, DIRECTIVES_HEAD, DIRECTIVES_MARK, EDGE, Kind,
    NOT_SPREAD, REALIGN, REDISTRIBUTE, SPREAD, word_at,
};
use std::fmt;

/// How a dimension is spread.
#[derive(Clone, Copy, Debug, PartialEq, Eq, Hash)]
pub enum Dimension {
    NotSpread,
    Block,
    Cyclic(u16),
}

/// How a template is spread.
#[derive(Clone, Copy, Debug, PartialEq, Eq, Hash)]
pub struct Spread(pub Dimension, pub Dimension);

/// With which template an array is aligned, and whether its dimensions are exchanged.
#[derive(Clone, Copy, Debug, PartialEq, Eq, Hash)]
pub struct Alignment {
    pub template: u8,
    pub exchanged: bool,
}

#[derive(Clone, Debug, PartialEq, Eq)]
pub struct Array {
    pub kind: Kind,
    pub alignment: Alignment,
}

/// What stands at a vertex.
#[derive(Clone, Debug, PartialEq, Eq)]
pub enum Statement {
    /// For each array a reference, or nothing.
    References(Vec<Action>),
    Realign(u8, Alignment),
    Redistribute(u8, Spread),
}

#[derive(Clone, Debug, Default, PartialEq, Eq)]
pub struct Program {
    pub templates: Vec<Spread>,
    pub arrays: Vec<Array>,
    pub vertices: Vec<Statement>,
    pub edges: Vec<Edge>,
}

impl Dimension {
    fn from_bytes(bytes: &[u8]) -> Option<Dimension> {
        match *bytes.first()? {
            NOT_SPREAD => Some(Dimension::NotSpread),
            BLOCK => Some(Dimension::Block),
            CYCLIC => word_at(bytes, 2).map(Dimension::Cyclic),
            _ => None,
        }
    }

    fn bytes(self) -> [u8; SPREAD / 2] {
        let (kind, size) = match self {
            Dimension::NotSpread => (NOT_SPREAD, 0),
            Dimension::Block => (BLOCK, 0),
            Dimension::Cyclic(size) => (CYCLIC, size),
        };
        let [low, high] = size.to_le_bytes();
        [kind, 0, low, high]
    }
}

impl Spread {
    fn from_bytes(bytes: &[u8]) -> Option<Spread> {
        let (first, second) = bytes.split_at_checked(SPREAD / 2)?;
        Some(Spread(
            Dimension::from_bytes(first)?,
            Dimension::from_bytes(second)?,
        ))
    }

    fn bytes(self) -> [u8; SPREAD] {
        let mut bytes = [0; SPREAD];
        bytes[..SPREAD / 2].copy_from_slice(&self.0.bytes());
        bytes[SPREAD / 2..].copy_from_slice(&self.1.bytes());
        bytes
    }
}

impl Statement {
    fn from_bytes(bytes: &[u8]) -> Option<Statement> {
        let (directive, row) = bytes.split_at_checked(DIRECTIVE)?;
        match directive[0] {
            REALIGN => Some(Statement::Realign(
                directive[1],
                Alignment {
                    template: directive[2],
                    exchanged: directive[3] != 0,
                },
            )),
            REDISTRIBUTE => Some(Statement::Redistribute(
                directive[1],
                Spread::from_bytes(&directive[4..])?,
            )),
            _ => {
                let actions = row.iter().map(|&byte| Action::from_byte(byte));
                actions.collect::<Option<_>>().map(Statement::References)
            }
        }
    }

    fn bytes(&self, arrays: usize) -> Vec<u8> {
        let mut bytes = vec![0; DIRECTIVE + arrays];
        match self {
            Statement::References(row) => {
                for (byte, action) in bytes[DIRECTIVE..].iter_mut().zip(row) {
                    *byte = action.byte();
                }
            }
            Statement::Realign(array, alignment) => {
                let exchanged = u8::from(alignment.exchanged);
                bytes[..4].copy_from_slice(&[REALIGN, *array, alignment.template, exchanged]);
            }
            Statement::Redistribute(template, spread) => {
                bytes[..2].copy_from_slice(&[REDISTRIBUTE, *template]);
                bytes[4..DIRECTIVE].copy_from_slice(&spread.bytes());
            }
        }
        bytes
    }
}

impl Program {
    /// The parts of a file that is not refused with 40.
    pub fn from_bytes(file: &[u8]) -> Option<Program> {
        let count = |at| word_at(file, at).map(usize::from);
        let (templates, arrays, vertices) = (count(8)?, count(12)?, count(16)?);
        let row = DIRECTIVE + arrays;
        let arrays_at = DIRECTIVES_HEAD + SPREAD * templates;
        let rows_at = arrays_at + ARRAY * arrays;
        let edges_at = rows_at + row * vertices;
        let array = |bytes: &[u8]| {
            Some(Array {
                kind: Kind::from_byte(bytes[0])?,
                alignment: Alignment {
                    template: bytes[1],
                    exchanged: bytes[2] != 0,
                },
            })
        };
        Some(Program {
            templates: file
                .get(DIRECTIVES_HEAD..arrays_at)?
                .chunks_exact(SPREAD)
                .map(Spread::from_bytes)
                .collect::<Option<_>>()?,
            arrays: file
                .get(arrays_at..rows_at)?
                .chunks_exact(ARRAY)
                .map(array)
                .collect::<Option<_>>()?,
            vertices: file
                .get(rows_at..edges_at)?
                .chunks_exact(row)
                .map(Statement::from_bytes)
                .collect::<Option<_>>()?,
            edges: edges_from(file.get(edges_at..)?),
        })
    }

    /// The file; `None` where a number of its head has no room.
    pub fn bytes(&self) -> Option<Vec<u8>> {
        let arrays = self.arrays.len();
        let bodies = [
            (self.templates.len(), SPREAD * self.templates.len()),
            (arrays, ARRAY * arrays),
            (
                self.vertices.len(),
                (DIRECTIVE + arrays) * self.vertices.len(),
            ),
            (self.edges.len(), EDGE * self.edges.len()),
        ];
        let mut file = head(DIRECTIVES_MARK, DIRECTIVES_HEAD, &bodies)?;
        file.extend(self.templates.iter().flat_map(|spread| spread.bytes()));
        for Array { kind, alignment } in &self.arrays {
            let exchanged = u8::from(alignment.exchanged);
            file.extend([kind.byte(), alignment.template, exchanged, 0]);
        }
        let rows = self.vertices.iter();
        file.extend(rows.flat_map(|statement| statement.bytes(arrays)));
        file.extend(edge_bytes(&self.edges));
        Some(file)
    }
}

impl fmt::Display for Dimension {
    fn fmt(&self, text: &mut fmt::Formatter) -> fmt::Result {
        match self {
            Dimension::NotSpread => text.write_str("*"),
            Dimension::Block => text.write_str("block"),
            Dimension::Cyclic(1) => text.write_str("cyclic"),
            Dimension::Cyclic(size) => write!(text, "cyclic({size})"),
        }
    }
}

impl fmt::Display for Spread {
    fn fmt(&self, text: &mut fmt::Formatter) -> fmt::Result {
        write!(text, "({}, {})", self.0, self.1)
    }
}
