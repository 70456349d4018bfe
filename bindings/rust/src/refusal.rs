//! Refusals: their numbers and what each says.

use std::error::Error;
use std::fmt;

/// A refusal: its number and two places.
///
/// Checks run in this order, 15 and 17 to 19 together, byte by byte: of the faults that meet in the
/// first faulty byte the lowest number is given. Elsewhere the lowest byte or index wins. 20 and 21
/// name a vertex of the routine's file, or of the directive file; plan and path have those of the
/// expanded routine, in which each call is three vertices.
///
/// | number | why | first place |
/// |---|---|---|
/// | 40 | a directive file is malformed | first byte of the first wrong field, or the length |
/// | 41 | the directives give an array more than 32 mappings | array |
/// | 42 | a directive can leave an array that it remaps in two mappings | vertex; array |
/// | 10 | the routine has under 18 bytes, or a wrong mark | the length, or 0 |
/// | 11 | its edition is not 1 | 4 |
/// | 12 | a count is outside its limits | its byte |
/// | 13 | an offset is wrong, or the length | its byte, or 18 |
/// | 14 | an array's byte | it |
/// | 15 | an unknown action | its byte |
/// | 17 | a version is not below its array's count | its byte |
/// | 18 | the row of entry or exit has a byte that is not zero | it |
/// | 19 | a row has two of references, remappings and calls | the first byte that differs from an earlier one |
/// | 16 | an edge | its first byte |
/// | 22 | the expanded routine has more than 256 vertices | how many |
/// | 20 | an in argument is defined, modified, killed, or passed as out or inout | vertex; array |
/// | 21 | a reference or a call is ambiguous | vertex; array |
/// | 1 | the buffer of plan, routine or rounds is too short | the length that is needed |
/// | 30 | a path of no vertex, or of more than 4,096 | how many |
/// | 31 | a path does not start at the entry | 0 |
/// | 32 | a step of a path is no edge | index of the vertex arrived at |
/// | 2 | the report's buffer is too short | the length that is needed |
///
/// [`convert`](crate::convert) refuses with 40, 41, 42, 20, 21 and 1. 40, 41 and 42 are answered by it
/// alone, 30, 31, 32 and 2 by [`run`](crate::run) alone, 1 by [`plan`](crate::plan),
/// [`rounds`](crate::rounds) and [`convert`](crate::convert).
#[derive(Clone, Copy, Debug, PartialEq, Eq)]
pub struct Refusal {
    /// One of those in [`TEXTS`].
    pub number: u64,
    pub first: u64,
    /// The array for 20, 21 and 42, else 0.
    pub second: u64,
}

/// The library's caller.
pub const SHORT_BUFFER: u64 = 1;
pub const SHORT_REPORT: u64 = 2;

/// The writer of the routine file.
pub const WRONG_MARK: u64 = 10;
pub const WRONG_EDITION: u64 = 11;
pub const WRONG_COUNT: u64 = 12;
pub const WRONG_OFFSET: u64 = 13;
pub const WRONG_ARRAY: u64 = 14;
pub const UNKNOWN_ACTION: u64 = 15;
pub const WRONG_EDGE: u64 = 16;
pub const VERSION_TOO_LARGE: u64 = 17;
pub const ACTION_AT_END: u64 = 18;
pub const MIXED_ACTIONS: u64 = 19;
pub const TOO_MANY_VERTICES: u64 = 22;

/// The routine's programmer.
pub const WRITES_IN_ARGUMENT: u64 = 20;
pub const AMBIGUOUS: u64 = 21;
pub const TOO_MANY_MAPPINGS: u64 = 41;
pub const TWO_MAPPINGS: u64 = 42;

/// The writer of the path.
pub const WRONG_PATH_LENGTH: u64 = 30;
pub const WRONG_START: u64 = 31;
pub const NO_SUCH_EDGE: u64 = 32;

/// The writer of the directive file.
pub const MALFORMED_DIRECTIVES: u64 = 40;

/// Every number, and what it says. The header's `HPF_REFUSALS` and the Fortran module have the same.
pub const TEXTS: [(u64, &str); 21] = [
    (SHORT_BUFFER, "the buffer is too short"),
    (SHORT_REPORT, "the buffer of the report is too short"),
    (WRONG_MARK, "the routine is too short, or its mark is wrong"),
    (WRONG_EDITION, "the edition is not known"),
    (WRONG_COUNT, "a count is outside its limits"),
    (WRONG_OFFSET, "an offset or the length is wrong"),
    (WRONG_ARRAY, "a byte of an array is wrong"),
    (UNKNOWN_ACTION, "an action is unknown"),
    (WRONG_EDGE, "an edge is wrong"),
    (
        VERSION_TOO_LARGE,
        "a version is not below the number of its array's versions",
    ),
    (ACTION_AT_END, "entry or exit has an action"),
    (
        MIXED_ACTIONS,
        "a vertex has two of references, remappings and calls",
    ),
    (
        WRITES_IN_ARGUMENT,
        "an in argument is written or killed, or passed to be written",
    ),
    (AMBIGUOUS, "a reference or a call is ambiguous"),
    (
        TOO_MANY_VERTICES,
        "there are too many vertices once calls are expanded",
    ),
    (
        WRONG_PATH_LENGTH,
        "the path has no vertex, or too many of them",
    ),
    (WRONG_START, "the path does not start at the entry"),
    (NO_SUCH_EDGE, "a step of the path is no edge"),
    (MALFORMED_DIRECTIVES, "the directive file is malformed"),
    (TOO_MANY_MAPPINGS, "an array has too many mappings"),
    (
        TWO_MAPPINGS,
        "a directive can leave an array in two mappings",
    ),
];

/// What a number says, if it is that of a refusal.
pub fn text(number: u64) -> Option<&'static str> {
    let found = TEXTS.iter().find(|(known, _)| *known == number);
    found.map(|&(_, text)| text)
}

/// The three numbers, as the programs print them.
impl fmt::Display for Refusal {
    fn fmt(&self, out: &mut fmt::Formatter) -> fmt::Result {
        write!(out, "{} {} {}", self.number, self.first, self.second)
    }
}

impl Error for Refusal {}
