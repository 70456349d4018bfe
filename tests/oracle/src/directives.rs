//! Directive files (request 4): `align`, `distribute`, `realign` and `redistribute` instead of
//! version numbers, and their conversion to routine files.
//!
//! `convert::convert` is the call. What the directives mean stands twice: `states` follows whole
//! states along all paths, `sets` computes what suffices of them, for files of any size. `demand4`
//! holds a report against them.

pub mod convert;
pub mod demand4;
pub mod figures;
pub mod file;
pub mod meaning;
pub mod sets;
pub mod states;
pub mod text;

/// How one dimension is spread, as written.
#[derive(Clone, Copy, Debug, PartialEq, Eq, PartialOrd, Ord, Hash)]
pub enum Dimension {
    NotSpread,
    Block,
    Cyclic(u16),
}

/// How the two dimensions of a template are spread, or those of an array after any exchange.
#[derive(Clone, Copy, Debug, PartialEq, Eq, PartialOrd, Ord, Hash)]
pub struct Mapping(pub Dimension, pub Dimension);

impl Mapping {
    /// The mapping with its dimensions exchanged.
    pub fn exchanged(self) -> Mapping {
        Mapping(self.1, self.0)
    }

    /// Whether an exchange leaves it as it is.
    pub fn is_symmetric(self) -> bool {
        self == self.exchanged()
    }
}

/// The template that an array is aligned with, straight or with its dimensions exchanged.
#[derive(Clone, Copy, Debug, PartialEq, Eq, PartialOrd, Ord, Hash)]
pub struct Alignment {
    pub template: usize,
    pub exchanged: bool,
}

impl Alignment {
    pub fn straight(template: usize) -> Alignment {
        Alignment {
            template,
            exchanged: false,
        }
    }

    pub fn exchanged(template: usize) -> Alignment {
        Alignment {
            template,
            exchanged: true,
        }
    }

    /// The mapping of an array that is aligned so, where its template is spread so.
    pub fn mapping(self, spread: Mapping) -> Mapping {
        if self.exchanged {
            spread.exchanged()
        } else {
            spread
        }
    }
}

/// An array: its kind as in a routine file, and how it is aligned at first.
#[derive(Clone, Copy, Debug, PartialEq, Eq)]
pub struct Array {
    pub kind: u8,
    pub alignment: Alignment,
}

/// What a vertex does.
#[derive(Clone, Debug, PartialEq, Eq)]
pub enum Statement {
    /// For each array 00 or a reference.
    References(Vec<u8>),
    /// An array is aligned anew.
    Realign(usize, Alignment),
    /// A template is spread anew.
    Redistribute(usize, Mapping),
}

impl Statement {
    pub fn is_directive(&self) -> bool {
        !matches!(self, Statement::References(_))
    }
}

/// The contents of a directive file.
#[derive(Clone, Debug, PartialEq, Eq)]
pub struct Program {
    /// How each template is spread at first.
    pub templates: Vec<Mapping>,
    pub arrays: Vec<Array>,
    pub vertices: Vec<Statement>,
    pub edges: Vec<(u16, u16)>,
}

impl Program {
    /// A row without references.
    pub fn nothing(&self) -> Statement {
        Statement::References(vec![0; self.arrays.len()])
    }

    /// The mapping of an array at the entry: its version 0.
    pub fn initial(&self, array: usize) -> Mapping {
        let alignment = self.arrays[array].alignment;
        alignment.mapping(self.templates[alignment.template])
    }

    /// The successors of each vertex.
    pub fn successors(&self) -> Vec<Vec<usize>> {
        let mut successors = vec![Vec::new(); self.vertices.len()];
        for &(from, to) in &self.edges {
            successors[usize::from(from)].push(usize::from(to));
        }
        successors
    }
}
