//! Refusals of a directive file.

use super::routine::{referred, written};
use super::{Subject, list, row};
use crate::directives::{Program, Spread, Statement};
use crate::mappings::Search;
use crate::routine::{edges_from, in_words};
use hpf_remap::formats::{
    ARRAY, Action, DIRECTIVE, DIRECTIVES_HEAD, EDGE, EDITION, Kind, MOST_ARRAYS, MOST_EDGES,
    MOST_TEMPLATES, MOST_VERSIONS, MOST_VERTICES, Reference, SPREAD,
};
use hpf_remap::{Refusal, refusal};

pub fn sentence(refused: Refusal, subject: &Subject) -> String {
    let (first, second) = (refused.first as usize, refused.second as usize);
    if refused.number == refusal::MALFORMED_DIRECTIVES {
        return malformed(first, subject);
    }
    let Some(program) = Program::from_bytes(subject.bytes) else {
        return String::new();
    };
    match refused.number {
        refusal::TOO_MANY_MAPPINGS => too_many(&program, first, subject),
        refusal::TWO_MAPPINGS => two(&program, first, second, subject),
        refusal::WRITES_IN_ARGUMENT => {
            written(&action(&program, first, second), first, second, subject)
        }
        refusal::AMBIGUOUS => ambiguous(&program, first, second, subject),
        number => refusal::text(number).map_or(String::new(), String::from),
    }
}

/// What a vertex does with an array.
fn action(program: &Program, vertex: usize, array: usize) -> Action {
    match program.vertices.get(vertex) {
        Some(Statement::References(row)) => row.get(array).copied().unwrap_or(Action::Nothing),
        _ => Action::Nothing,
    }
}

/// The first two of these paths, with the mappings that they bring or leave.
fn paths(found: &[(Spread, Vec<usize>)]) -> String {
    let line = |(mapping, path): &(Spread, Vec<usize>)| {
        let path = row(path);
        format!("\npath {path}: {mapping}")
    };
    found.iter().take(2).map(line).collect()
}

fn too_many(program: &Program, array: usize, subject: &Subject) -> String {
    let search = Search::new(program, array);
    let count = match search.is_complete {
        true => search.count().to_string(),
        false => format!("more than {MOST_VERSIONS}"),
    };
    format!(
        "{} can have {count} mappings: that with which it starts, and all that directives give it \
         on some path from the entry. At most {MOST_VERSIONS} are allowed.",
        capital(&subject.array(array))
    )
}

fn two(program: &Program, vertex: usize, array: usize, subject: &Subject) -> String {
    let found = Search::new(program, array).leaving(vertex);
    let directive = match program.vertices.get(vertex) {
        Some(Statement::Realign(..)) => String::from("the realign"),
        Some(Statement::Redistribute(template, _)) => {
            let template = subject.template(usize::from(*template));
            format!("the redistribute of {template}")
        }
        _ => String::from("the directive"),
    };
    format!(
        "At {}, {directive} can leave {} in different mappings, by the path that was taken.{}\n\
         A directive that remaps an array leaves it in one mapping on all paths.",
        subject.vertex(vertex),
        subject.array(array),
        paths(&found)
    )
}

fn ambiguous(program: &Program, vertex: usize, array: usize, subject: &Subject) -> String {
    let found = Search::new(program, array).coming(vertex);
    format!(
        "At {}, {} is {}, and paths from the entry bring it there in different mappings.{}\n\
         A directive that remaps the array where these paths have met makes it one mapping.",
        subject.vertex(vertex),
        subject.array(array),
        referred(&action(program, vertex, array)),
        paths(&found)
    )
}

fn capital(text: &str) -> String {
    let mut letters = text.chars();
    let first = letters.next().map(|letter| letter.to_ascii_uppercase());
    first.into_iter().chain(letters).collect()
}

/// A field of the file: what it is, how many bytes it has, and what is allowed.
struct Field {
    name: String,
    bytes: usize,
    allowed: String,
}

fn field(name: impl Into<String>, bytes: usize, allowed: impl Into<String>) -> Field {
    Field {
        name: name.into(),
        bytes,
        allowed: allowed.into(),
    }
}

fn malformed(byte: usize, subject: &Subject) -> String {
    let length = subject.bytes.len();
    let layout = Layout::of(subject);
    if byte == length {
        let place = match layout.field(byte, subject) {
            Some(field) => format!("before {} does", field.name),
            None => String::from("before its last field does"),
        };
        return format!("The file ends with {length} bytes, {place}.");
    }
    let Some(field) = layout.field(byte, subject) else {
        return format!(
            "Byte {byte}: the file has {length} bytes; with its last edge it ends after {}.",
            layout.end
        );
    };
    let found = match field.bytes {
        1 => usize::from(subject.byte(byte)),
        2 => subject.word(byte),
        _ => return format!("Byte {byte}: {}; {}.", field.name, field.allowed),
    };
    format!("Byte {byte}: {} is {found}; {}.", field.name, field.allowed)
}

/// Where the bodies lie, by their counts.
struct Layout {
    templates: usize,
    arrays: usize,
    vertices: usize,
    arrays_at: usize,
    rows_at: usize,
    edges_at: usize,
    end: usize,
}

/// The four bodies, each with its limits.
const BODIES: [(&str, usize, usize); 4] = [
    ("templates", 1, MOST_TEMPLATES),
    ("arrays", 1, MOST_ARRAYS),
    ("vertices", 2, MOST_VERTICES),
    ("edges", 0, MOST_EDGES),
];

impl Layout {
    fn of(subject: &Subject) -> Layout {
        let [templates, arrays, vertices, edges] = [8, 12, 16, 20].map(|at| subject.word(at));
        let arrays_at = DIRECTIVES_HEAD + SPREAD * templates;
        let rows_at = arrays_at + ARRAY * arrays;
        let edges_at = rows_at + (DIRECTIVE + arrays) * vertices;
        Layout {
            templates,
            arrays,
            vertices,
            arrays_at,
            rows_at,
            edges_at,
            end: edges_at + EDGE * edges,
        }
    }

    /// The field whose first byte this is; `None` behind the last edge.
    fn field(&self, byte: usize, subject: &Subject) -> Option<Field> {
        if byte < DIRECTIVES_HEAD {
            return Some(self.head(byte));
        }
        if byte < self.arrays_at {
            let at = byte - DIRECTIVES_HEAD;
            return Some(spread(
                at % SPREAD,
                &subject.template(at / SPREAD),
                subject.byte(byte - at % 4),
            ));
        }
        if byte < self.rows_at {
            let at = byte - self.arrays_at;
            return Some(self.array(at % ARRAY, &subject.array(at / ARRAY)));
        }
        if byte < self.edges_at {
            let row = DIRECTIVE + self.arrays;
            let at = byte - self.rows_at;
            return Some(self.vertex(byte, at / row, at % row, subject));
        }
        (byte < self.end).then(|| self.edge(byte, subject))
    }

    fn head(&self, byte: usize) -> Field {
        let offsets = [DIRECTIVES_HEAD, self.arrays_at, self.rows_at, self.edges_at];
        let body = byte.saturating_sub(6) / 4;
        let (noun, least, most) = BODIES[body.min(3)];
        match byte {
            0..4 => field("the mark", 1, "a directive file starts with `HPFD`"),
            4 | 5 => field("the edition", 2, format!("only {EDITION} is known")),
            _ if byte % 4 == 2 => field(
                format!("the offset of the {noun}"),
                2,
                format!("by the counts it is {}", offsets[body.min(3)]),
            ),
            _ => field(
                format!("the number of {noun}"),
                2,
                format!("{least} to {most} are allowed"),
            ),
        }
    }

    fn array(&self, at: usize, array: &str) -> Field {
        match at {
            0 => {
                let kinds = Kind::ALL.map(|kind| format!("{} ({kind})", kind.byte()));
                let allowed = format!("{} are allowed", list(&kinds));
                field(format!("the kind of {array}"), 1, allowed)
            }
            1 => field(format!("the template of {array}"), 1, self.any_template()),
            2 => exchanged(array),
            _ => field(format!("the last byte of {array}"), 1, ZERO),
        }
    }

    fn any_template(&self) -> String {
        format!("there are {} templates", self.templates)
    }

    fn vertex(&self, byte: usize, number: usize, at: usize, subject: &Subject) -> Field {
        let vertex = subject.vertex(number);
        let row = byte - at;
        if number == 0 || number + 1 == self.vertices {
            let end = if number == 0 { "entry" } else { "exit" };
            return field(
                format!("byte {at} of {vertex}, the {end},"),
                1,
                "entry and exit are all 0",
            );
        }
        let directive = subject.byte(row);
        match (directive, at) {
            (_, 0) => field(
                format!("the directive at {vertex}"),
                1,
                "0 (none), 1 (realign) and 2 (redistribute) are allowed",
            ),
            (0, DIRECTIVE..) => {
                reference(&vertex, &subject.array(at - DIRECTIVE), subject.byte(byte))
            }
            (_, DIRECTIVE..) => {
                let name = format!(
                    "the action of {} at {vertex}",
                    subject.array(at - DIRECTIVE)
                );
                field(name, 1, "beside a directive it has to be 0")
            }
            (1, 1) => field(
                format!("the array of the realign at {vertex}"),
                1,
                format!("there are {} arrays", self.arrays),
            ),
            (1, 2) => field(
                format!("the template of the realign at {vertex}"),
                1,
                self.any_template(),
            ),
            (1, 3) => exchanged(&format!("the realign at {vertex}")),
            (2, 1) => field(
                format!("the template of the redistribute at {vertex}"),
                1,
                self.any_template(),
            ),
            (2, 4..) => {
                let kind = subject.byte(row + at - at % 4);
                spread(at - 4, &format!("the redistribute at {vertex}"), kind)
            }
            _ => field(format!("byte {at} of the directive at {vertex}"), 1, ZERO),
        }
    }

    fn edge(&self, byte: usize, subject: &Subject) -> Field {
        let at = byte - self.edges_at;
        let number = at / EDGE;
        let edges = edges_from(subject.bytes.get(self.edges_at..).unwrap_or(&[]));
        let below = format!(
            "it has to be below {}, the number of vertices",
            self.vertices
        );
        let Some(&(from, _)) = edges.get(number) else {
            return field(format!("edge {number}"), 2, below);
        };
        let line = subject.line_of_edge(from);
        if at % EDGE == 2 {
            let allowed = format!("{below}, and not the entry");
            return field(format!("the end of edge {number}{line}"), 2, allowed);
        }
        if usize::from(from) + 1 >= self.vertices {
            let allowed = format!("{below}, and not the exit");
            return field(format!("the start of edge {number}{line}"), 2, allowed);
        }
        let (from, to) = edges[number];
        let (before, behind) = edges[number.saturating_sub(1)];
        field(
            format!("edge {from}-{to}, number {number}, does not come after {before}-{behind}"),
            EDGE,
            "edges strictly rise by from, then to",
        )
    }
}

const ZERO: &str = "it has to be 0";

fn exchanged(of: &str) -> Field {
    let name = format!("whether {of} is exchanged");
    field(name, 1, "0 (straight) and 1 (exchanged) are allowed")
}

/// A field of a spread; `kind` is the byte that says how its dimension is spread.
fn spread(at: usize, of: &str, kind: u8) -> Field {
    let dimension = format!("dimension {} of {of}", at / (SPREAD / 2));
    match at % (SPREAD / 2) {
        0 => field(
            format!("the kind of {dimension}"),
            1,
            "0 (not spread), 1 (block) and 2 (cyclic) are allowed",
        ),
        1 => field(format!("the second byte of {dimension}"), 1, ZERO),
        _ if kind == 2 => field(
            format!("the block size of {dimension}, which is cyclic,"),
            2,
            "1 to 65535 are allowed",
        ),
        _ => field(
            format!("the block size of {dimension}, which is not cyclic,"),
            2,
            ZERO,
        ),
    }
}

fn reference(vertex: &str, array: &str, found: u8) -> Field {
    let known = Reference::ALL.map(|reference| format!("{} ({reference})", reference.byte()));
    let meant = match Action::from_byte(found) {
        Some(action) => format!(" ({})", in_words(action)),
        None => String::new(),
    };
    field(
        format!("the action of {array} at {vertex}{meant}"),
        1,
        format!("0 and {} are allowed", list(&known)),
    )
}
