//! The numbers of the formats, each in one place. docs/FORMATS.md and docs/DIRECTIVES.md say what
//! they are numbers of.

use std::fmt;

/// The first four bytes of a routine, of a directive file and of a plan.
pub const ROUTINE_MARK: [u8; 4] = *b"HPFR";
pub const DIRECTIVES_MARK: [u8; 4] = *b"HPFD";
pub const PLAN_MARK: [u8; 4] = *b"HPF2";

/// The edition of routines and directive files.
pub const EDITION: u16 = 1;

/// The most of each; of arrays, versions and templates there is at least 1, of vertices 2.
pub const MOST_ARRAYS: usize = 8;
pub const MOST_VERSIONS: usize = 32;
pub const MOST_VERTICES: usize = 256;
pub const MOST_EDGES: usize = 1024;
pub const MOST_TEMPLATES: usize = 8;

/// Bytes of a routine: mark, edition and contents; an array; an edge.
pub const ROUTINE_HEAD: usize = 18;
pub const ARRAY: usize = 4;
pub const EDGE: usize = 4;

/// Bytes of a directive file: mark, edition and contents; a template's spread; a directive. Arrays
/// and edges have as many as those of a routine.
pub const DIRECTIVES_HEAD: usize = 22;
pub const SPREAD: usize = 8;
pub const DIRECTIVE: usize = 12;

/// Bytes of a path: a vertex.
pub const STEP: usize = 2;

/// Bytes of a plan: mark and counts; a vertex in the contents; a label, and each of its two sets.
pub const PLAN_HEAD: usize = 8;
pub const CONTENT: usize = 4;
pub const LABEL: usize = 12;
pub const SET: usize = 4;

/// Bytes of a report: an array's entry; a reference's record; the count of an edge.
pub const ENTRY: usize = 8;
pub const RECORD: usize = 10;
pub const COUNT: usize = 2;

/// No version: of a dropped label, or of an array that has no current copy.
pub const NONE: u8 = 255;

/// The stamp of what the caller gave, and of what was never given.
pub const CALLERS_STAMP: u16 = 65_535;
pub const NEVER_GIVEN: u16 = 0;

/// Kinds of arrays.
pub const LOCAL: u8 = 0;
pub const IN: u8 = 1;
pub const OUT: u8 = 2;
pub const INOUT: u8 = 3;

/// Actions. To those of the second line the version is added.
pub const NOTHING: u8 = 0x00;
pub const READ: u8 = 0x10;
pub const DEFINE: u8 = 0x20;
pub const MODIFY: u8 = 0x30;
pub const KILL: u8 = 0x80;
pub const REMAP: u8 = 0x40;
pub const CALL_IN: u8 = 0x60;
pub const CALL_OUT: u8 = 0xa0;
pub const CALL_INOUT: u8 = 0xc0;

/// So many bytes from each of [`CALL_IN`], [`CALL_OUT`] and [`CALL_INOUT`] on are calls.
pub const CALL_VERSIONS: u8 = 32;

/// Spreads of a dimension.
pub const NOT_SPREAD: u8 = 0;
pub const BLOCK: u8 = 1;
pub const CYCLIC: u8 = 2;

/// Directives at a vertex.
pub const REALIGN: u8 = 1;
pub const REDISTRIBUTE: u8 = 2;

/// The 16-bit number whose first byte this is, if the bytes go so far.
pub fn word_at(bytes: &[u8], at: usize) -> Option<u16> {
    let low = *bytes.get(at)?;
    let high = *bytes.get(at.checked_add(1)?)?;
    Some(u16::from_le_bytes([low, high]))
}

/// What an array is to the routine.
#[derive(Clone, Copy, Debug, PartialEq, Eq)]
pub enum Kind {
    Local,
    In,
    Out,
    Inout,
}

impl Kind {
    pub const ALL: [Kind; 4] = [Kind::Local, Kind::In, Kind::Out, Kind::Inout];

    pub fn from_byte(byte: u8) -> Option<Kind> {
        Kind::ALL.into_iter().find(|kind| kind.byte() == byte)
    }

    pub fn byte(self) -> u8 {
        match self {
            Kind::Local => LOCAL,
            Kind::In => IN,
            Kind::Out => OUT,
            Kind::Inout => INOUT,
        }
    }

    /// Whether it starts with a value of the caller.
    pub fn brings_value(self) -> bool {
        matches!(self, Kind::In | Kind::Inout)
    }

    /// Whether it has a label at the exit.
    pub fn is_labelled_at_exit(self) -> bool {
        matches!(self, Kind::Out | Kind::Inout)
    }
}

impl fmt::Display for Kind {
    fn fmt(&self, text: &mut fmt::Formatter) -> fmt::Result {
        text.pad(match self {
            Kind::Local => "local",
            Kind::In => "in",
            Kind::Out => "out",
            Kind::Inout => "inout",
        })
    }
}

/// What a vertex does with an array that it refers to.
#[derive(Clone, Copy, Debug, PartialEq, Eq)]
pub enum Reference {
    Read,
    Define,
    Modify,
    Kill,
}

impl Reference {
    pub const ALL: [Reference; 4] = [
        Reference::Read,
        Reference::Define,
        Reference::Modify,
        Reference::Kill,
    ];

    /// The reference of a record's kind.
    pub fn from_kind(kind: u8) -> Option<Reference> {
        Reference::ALL
            .into_iter()
            .find(|reference| reference.kind() == kind)
    }

    /// Its kind in a record.
    pub fn kind(self) -> u8 {
        match self {
            Reference::Read => 1,
            Reference::Define => 2,
            Reference::Modify => 3,
            Reference::Kill => 4,
        }
    }

    /// Its action byte.
    pub fn byte(self) -> u8 {
        match self {
            Reference::Read => READ,
            Reference::Define => DEFINE,
            Reference::Modify => MODIFY,
            Reference::Kill => KILL,
        }
    }

    /// Whether the value that the array had is needed.
    pub fn sees(self) -> bool {
        matches!(self, Reference::Read | Reference::Modify)
    }

    /// Whether the array has another value afterwards.
    pub fn writes(self) -> bool {
        self != Reference::Read
    }
}

impl fmt::Display for Reference {
    fn fmt(&self, text: &mut fmt::Formatter) -> fmt::Result {
        text.pad(match self {
            Reference::Read => "read",
            Reference::Define => "define",
            Reference::Modify => "modify",
            Reference::Kill => "kill",
        })
    }
}

/// What a call does with an array that it is passed.
#[derive(Clone, Copy, Debug, PartialEq, Eq)]
pub enum Intent {
    In,
    Out,
    Inout,
}

impl Intent {
    pub const ALL: [Intent; 3] = [Intent::In, Intent::Out, Intent::Inout];

    /// The byte that passes an array in version 0.
    pub fn byte(self) -> u8 {
        match self {
            Intent::In => CALL_IN,
            Intent::Out => CALL_OUT,
            Intent::Inout => CALL_INOUT,
        }
    }

    /// The reference that the call is.
    pub fn reference(self) -> Reference {
        match self {
            Intent::In => Reference::Read,
            Intent::Out => Reference::Define,
            Intent::Inout => Reference::Modify,
        }
    }
}

impl fmt::Display for Intent {
    fn fmt(&self, text: &mut fmt::Formatter) -> fmt::Result {
        text.pad(match self {
            Intent::In => "in",
            Intent::Out => "out",
            Intent::Inout => "inout",
        })
    }
}

/// An action byte, read.
#[derive(Clone, Copy, Debug, PartialEq, Eq)]
pub enum Action {
    Nothing,
    Reference(Reference),
    /// To a version.
    Remap(u8),
    /// In a version.
    Call(Intent, u8),
}

impl Action {
    /// `None` if the byte is unknown.
    pub fn from_byte(byte: u8) -> Option<Action> {
        if byte == NOTHING {
            return Some(Action::Nothing);
        }
        if let Some(reference) = Reference::ALL.into_iter().find(|r| r.byte() == byte) {
            return Some(Action::Reference(reference));
        }
        let from = |first: u8, count: usize| {
            let version = byte.checked_sub(first)?;
            (usize::from(version) < count).then_some(version)
        };
        if let Some(version) = from(REMAP, MOST_VERSIONS) {
            return Some(Action::Remap(version));
        }
        Intent::ALL.into_iter().find_map(|intent| {
            let version = from(intent.byte(), usize::from(CALL_VERSIONS))?;
            Some(Action::Call(intent, version))
        })
    }

    /// The byte; versions are those that [`Action::from_byte`] gives.
    pub fn byte(self) -> u8 {
        match self {
            Action::Nothing => NOTHING,
            Action::Reference(reference) => reference.byte(),
            Action::Remap(version) => REMAP + version,
            Action::Call(intent, version) => intent.byte() + version,
        }
    }
}

/// A label's use.
#[derive(Clone, Copy, Debug, PartialEq, Eq)]
pub enum Letter {
    /// Not used before the next label: the label is dropped.
    N,
    /// The old value is not needed.
    D,
    /// Only read.
    R,
    /// All else.
    W,
}

impl Letter {
    pub const ALL: [Letter; 4] = [Letter::N, Letter::D, Letter::R, Letter::W];

    pub fn from_byte(byte: u8) -> Option<Letter> {
        Letter::ALL.into_iter().find(|letter| letter.byte() == byte)
    }

    pub fn byte(self) -> u8 {
        match self {
            Letter::N => b'N',
            Letter::D => b'D',
            Letter::R => b'R',
            Letter::W => b'W',
        }
    }
}

impl fmt::Display for Letter {
    fn fmt(&self, text: &mut fmt::Formatter) -> fmt::Result {
        text.pad(match self {
            Letter::N => "N",
            Letter::D => "D",
            Letter::R => "R",
            Letter::W => "W",
        })
    }
}

#[cfg(test)]
mod tests {
    use super::*;

    #[test]
    fn every_known_byte_is_its_actions() {
        let known: Vec<u8> = (0..=255)
            .filter(|&byte| {
                let action = Action::from_byte(byte);
                assert!(action.is_none_or(|action| action.byte() == byte));
                action.is_some()
            })
            .collect();
        let remaps = MOST_VERSIONS;
        assert_eq!(known.len(), 5 + remaps + 3 * usize::from(CALL_VERSIONS));
    }

    #[test]
    fn words_end_with_the_bytes() {
        assert_eq!(word_at(&[1, 2, 3], 1), Some(0x0302));
        assert_eq!(word_at(&[1, 2, 3], 2), None);
        assert_eq!(word_at(&[], usize::MAX), None);
    }
}
