//! Refusals of a routine file.

use super::{Subject, row};
use crate::arrivals::Arrivals;
use crate::layout::counted;
use crate::routine::{Routine, edges_from, in_words};
use hpf_remap::formats::{
    ARRAY, Action, CALL_VERSIONS, EDGE, EDITION, Intent, Kind, MOST_ARRAYS, MOST_EDGES,
    MOST_VERSIONS, MOST_VERTICES, ROUTINE_HEAD, Reference,
};
use hpf_remap::{Refusal, refusal};

/// The three bodies of a file, with the byte of each one's count; the offset is before it.
const BODIES: [(&str, usize, usize, usize); 3] = [
    ("arrays", 8, 1, MOST_ARRAYS),
    ("vertices", 12, 2, MOST_VERTICES),
    ("edges", 16, 0, MOST_EDGES),
];

pub fn sentence(refused: Refusal, subject: &Subject) -> String {
    let (first, second) = (refused.first as usize, refused.second as usize);
    match refused.number {
        refusal::WRONG_MARK => mark(subject),
        refusal::WRONG_EDITION => format!(
            "Byte {first}: the edition is {}; only {EDITION} is known.",
            subject.word(first)
        ),
        refusal::WRONG_COUNT => count(first, subject),
        refusal::WRONG_OFFSET => offset(first, subject),
        refusal::WRONG_ARRAY => array(first, subject),
        refusal::UNKNOWN_ACTION
        | refusal::VERSION_TOO_LARGE
        | refusal::ACTION_AT_END
        | refusal::MIXED_ACTIONS => Place::of(first, subject).sentence(refused.number, subject),
        refusal::WRONG_EDGE => edge(first, subject),
        refusal::TOO_MANY_VERTICES => vertices(first, subject),
        refusal::WRITES_IN_ARGUMENT => match Routine::from_bytes(subject.bytes) {
            Some(routine) => written(&routine.rows[first][second], first, second, subject),
            None => String::new(),
        },
        refusal::AMBIGUOUS => match Routine::from_bytes(subject.bytes) {
            Some(routine) => ambiguous(&routine, first, second, subject),
            None => String::new(),
        },
        number => refusal::text(number).map_or(String::new(), String::from),
    }
}

fn mark(subject: &Subject) -> String {
    let length = subject.bytes.len();
    if length < ROUTINE_HEAD {
        return format!(
            "The file has {}; a routine has at least {ROUTINE_HEAD}.",
            counted(length, "byte", "bytes")
        );
    }
    let mark: String = subject.bytes[..4].escape_ascii().to_string();
    format!(
        "Byte 0: the file starts with `{mark}`; a routine starts with `HPFR`, a directive file \
         with `HPFD`, and a text with `hpf routine` or `hpf directives`."
    )
}

fn count(byte: usize, subject: &Subject) -> String {
    let found = subject.word(byte);
    let body = BODIES.iter().find(|(_, at, ..)| *at == byte);
    let (noun, _, least, most) = body.copied().unwrap_or(("items", byte, 0, 0));
    format!("Byte {byte}: the number of {noun} is {found}; {least} to {most} are allowed.")
}

/// Where the bodies lie, by their counts: those of arrays, vertices and edges, and the end.
fn offsets(subject: &Subject) -> [usize; 4] {
    let (arrays, vertices, edges) = (subject.word(8), subject.word(12), subject.word(16));
    let rows_at = ROUTINE_HEAD + ARRAY * arrays;
    let edges_at = rows_at + arrays * vertices;
    [ROUTINE_HEAD, rows_at, edges_at, edges_at + EDGE * edges]
}

fn offset(byte: usize, subject: &Subject) -> String {
    let offsets = offsets(subject);
    let body = BODIES
        .iter()
        .zip(offsets)
        .find(|((_, at, ..), _)| *at == byte + 2);
    let counts = format!(
        "{}, {} and {}",
        counted(subject.word(8), "array", "arrays"),
        counted(subject.word(12), "vertex", "vertices"),
        counted(subject.word(16), "edge", "edges")
    );
    match body {
        Some(((noun, ..), due)) => format!(
            "Byte {byte}: the offset of the {noun} is {}; in a file of {counts} it is {due}.",
            subject.word(byte)
        ),
        None => format!(
            "The file has {} bytes; with {counts} it has {}.",
            subject.bytes.len(),
            offsets[3]
        ),
    }
}

fn array(byte: usize, subject: &Subject) -> String {
    let at = byte.saturating_sub(ROUTINE_HEAD);
    let (array, found) = (subject.array(at / ARRAY), subject.byte(byte));
    let kinds: Vec<String> = Kind::ALL
        .iter()
        .map(|kind| format!("{} ({kind})", kind.byte()))
        .collect();
    match at % ARRAY {
        0 => format!(
            "Byte {byte}: the kind of {array} is {found}; {} are allowed.",
            super::list(&kinds)
        ),
        1 => format!(
            "Byte {byte}: the number of versions of {array} is {found}; 1 to {MOST_VERSIONS} are \
             allowed."
        ),
        2 => format!(
            "Byte {byte}: the initial version of {array} is {found}; with {} it is {}.",
            counted(usize::from(subject.byte(byte - 1)), "version", "versions"),
            below(subject.byte(byte - 1))
        ),
        _ => format!("Byte {byte}: the last byte of {array} is {found}; it has to be 0."),
    }
}

/// The numbers below a count.
fn below(count: u8) -> String {
    match count {
        0 | 1 => String::from("0"),
        2 => String::from("0 or 1"),
        _ => format!("0 to {}", count - 1),
    }
}

/// An action byte.
struct Place {
    byte: usize,
    vertex: usize,
    array: usize,
    arrays: usize,
}

impl Place {
    fn of(byte: usize, subject: &Subject) -> Place {
        let arrays = subject.word(8).max(1);
        let at = byte.saturating_sub(offsets(subject)[1]);
        Place {
            byte,
            vertex: at / arrays,
            array: at % arrays,
            arrays,
        }
    }

    fn sentence(&self, number: u64, subject: &Subject) -> String {
        let Place { byte, array, .. } = *self;
        let found = subject.byte(byte);
        let action = Action::from_byte(found).map_or(String::from("an unknown action"), in_words);
        let (vertex, array_name) = (subject.vertex(self.vertex), subject.array(array));
        let here = format!("Byte {byte}: at {vertex}, {array_name} has");
        match number {
            refusal::UNKNOWN_ACTION => {
                format!(
                    "{here} the action {found:02x}, which is unknown. {}",
                    known()
                )
            }
            refusal::VERSION_TOO_LARGE => {
                let versions = subject.byte(ROUTINE_HEAD + ARRAY * array + 1);
                format!(
                    "{here} {action}; with {} it can be {}.",
                    counted(usize::from(versions), "version", "versions"),
                    below(versions)
                )
            }
            refusal::ACTION_AT_END => {
                let end = if self.vertex == 0 { "entry" } else { "exit" };
                format!("{here} {action}; this is the {end}, whose actions have to be 00.")
            }
            _ => format!("{here} {action}{}", self.beside(subject)),
        }
    }

    /// The action with which this one does not go together.
    fn beside(&self, subject: &Subject) -> String {
        let first = self.byte - self.array;
        let earlier = (0..self.array.min(self.arrays)).find_map(|array| {
            let action = Action::from_byte(subject.byte(first + array))?;
            (action != Action::Nothing).then_some((array, action))
        });
        let (array, action) = earlier.unwrap_or((0, Action::Nothing));
        format!(
            ", and {} has {}. A vertex has references, remappings or calls, never two of these.",
            subject.array(array),
            in_words(action)
        )
    }
}

/// The actions that there are.
fn known() -> String {
    let references: Vec<String> = Reference::ALL
        .iter()
        .map(|reference| format!("{:02x} {reference}", reference.byte()))
        .collect();
    let calls: Vec<String> = Intent::ALL
        .iter()
        .map(|intent| format!("{:02x}+k ({intent})", intent.byte()))
        .collect();
    let remap = Action::Remap(0).byte();
    format!(
        "Known are 00 nothing, {}, {remap:02x}+k remap to version k (k below {MOST_VERSIONS}), and \
         calls in version k, {} (k below {CALL_VERSIONS}).",
        references.join(", "),
        calls.join(", ")
    )
}

fn edge(byte: usize, subject: &Subject) -> String {
    let at = offsets(subject)[2];
    let index = byte.saturating_sub(at) / EDGE;
    let edges = edges_from(subject.bytes.get(at..).unwrap_or(&[]));
    let vertices = subject.word(12);
    let Some(&(from, to)) = edges.get(index) else {
        return String::new();
    };
    let why = if usize::from(from.max(to)) >= vertices {
        format!("there are {vertices} vertices, 0 to {}", vertices - 1)
    } else if to == 0 {
        String::from("no edge leads into the entry")
    } else if usize::from(from) + 1 == vertices {
        format!("no edge leaves the exit, vertex {from}")
    } else {
        let (from, to) = edges[index.saturating_sub(1)];
        format!("it has to come after edge {from}-{to}: edges strictly rise by from, then to")
    };
    let line = subject.line_of_edge(from);
    format!("Byte {byte}: edge {from}-{to}, number {index}{line}, is wrong; {why}.")
}

fn vertices(found: usize, subject: &Subject) -> String {
    let routine = Routine::from_bytes(subject.bytes).unwrap_or_default();
    let count = routine.rows.len();
    let calls = (0..count).filter(|&vertex| routine.is_call(vertex)).count();
    format!(
        "The file has {count} vertices, and {calls} of them are calls, which become three each: \
         that makes {found}; at most {MOST_VERTICES} are allowed."
    )
}

/// 20: what is done with an in argument, by a routine or by directives.
pub fn written(action: &Action, vertex: usize, array: usize, subject: &Subject) -> String {
    format!(
        "At {}, {} is {}. It is an in argument, which can only be read, or passed with intent in. \
         An array that is written is local, out or inout.",
        subject.vertex(vertex),
        subject.array(array),
        referred(action)
    )
}

/// What a reference or a call does, as a sentence about the array has it.
pub fn referred(action: &Action) -> String {
    match action {
        Action::Call(intent, _) => format!("passed to a call with intent {intent}"),
        Action::Reference(Reference::Read) => String::from("read"),
        Action::Reference(Reference::Define) => String::from("defined"),
        Action::Reference(Reference::Modify) => String::from("modified"),
        Action::Reference(Reference::Kill) => String::from("killed"),
        Action::Nothing | Action::Remap(_) => String::from("used"),
    }
}

/// 21: two paths, and the versions that they bring.
fn ambiguous(routine: &Routine, vertex: usize, array: usize, subject: &Subject) -> String {
    let arrivals = Arrivals::new(routine, array);
    let paths: String = arrivals
        .versions(vertex)
        .iter()
        .take(2)
        .map(|&version| {
            let path = row(&arrivals.path(vertex, version));
            format!("\npath {path}: version {version}")
        })
        .collect();
    format!(
        "At {}, {} is {}, and paths from the entry bring it there in different versions.{paths}\n\
         A remapping of the array where these paths have met makes it one version.",
        subject.vertex(vertex),
        subject.array(array),
        referred(&routine.rows[vertex][array])
    )
}
