//! The routine file ("Routine file") and refusals 10 to 19 and 22.

use crate::calls::{Call, Intent};
use crate::outcome::Refusal;

pub const MAX_ARRAYS: usize = 8;
pub const MAX_VERSIONS: usize = 32;
pub const MAX_VERTICES: usize = 256;
pub const MAX_EDGES: usize = 1024;

/// The most calls: each becomes three of the vertices between entry and exit.
pub const MAX_CALLS: usize = (MAX_VERTICES - 2) / 3;

/// The most edges of a routine whose calls are expanded, two more for each.
pub const MAX_EXPANDED_EDGES: usize = MAX_EDGES + 2 * MAX_CALLS;

/// Mark, edition and table of contents: the bodies follow from here.
pub const HEAD: usize = 18;

/// The length of the longest file that is accepted.
pub const LONGEST_FILE: usize = HEAD + 4 * MAX_ARRAYS + MAX_ARRAYS * MAX_VERTICES + 4 * MAX_EDGES;

/// A version set, bit k for version k.
pub type Set = u32;

/// Kind of an array; the last three are arguments.
#[derive(Clone, Copy, Debug, PartialEq, Eq)]
pub enum Kind {
    Local,
    In,
    Out,
    Inout,
}

impl Kind {
    pub fn is_argument(self) -> bool {
        self != Kind::Local
    }

    /// Out and inout arguments take a value out of the routine: the exit labels them, and no
    /// other array (request 1).
    pub fn is_out_or_inout(self) -> bool {
        self == Kind::Out || self == Kind::Inout
    }

    /// In and inout arguments bring a value into the routine.
    pub fn brings_value(self) -> bool {
        self == Kind::In || self == Kind::Inout
    }
}

/// An array's record, without its zero byte.
#[derive(Clone, Copy, Debug, PartialEq, Eq)]
pub struct Array {
    pub kind: Kind,
    pub versions: u8,
    pub initial: u8,
}

/// References, each with its kind in a report.
#[derive(Clone, Copy, Debug, PartialEq, Eq)]
pub enum Reference {
    Read = 1,
    Define = 2,
    Modify = 3,
    /// A define whose new stamp is 0 (request 6).
    Kill = 4,
}

impl Reference {
    /// The reference that a byte stands for, if it does.
    #[inline(always)]
    pub const fn from_byte(byte: u8) -> Option<Reference> {
        match byte {
            0x10 => Some(Reference::Read),
            0x20 => Some(Reference::Define),
            0x30 => Some(Reference::Modify),
            0x80 => Some(Reference::Kill),
            _ => None,
        }
    }

    /// A kill is a define in every rule but that of the new stamp.
    pub fn is_define(self) -> bool {
        matches!(self, Reference::Define | Reference::Kill)
    }

    /// All but a read change the array.
    pub fn changes(self) -> bool {
        self != Reference::Read
    }

    /// Its kind in a report.
    pub fn kind(self) -> u8 {
        self as u8
    }
}

#[derive(Clone, Copy, Debug, PartialEq, Eq)]
pub enum Action {
    Nothing,
    Reference(Reference),
    Remap(u8),
    Call(Call),
}

impl Action {
    /// The action that a byte stands for, or none for an unknown byte.
    pub const fn from_byte(byte: u8) -> Option<Action> {
        if let Some(reference) = Reference::from_byte(byte) {
            return Some(Action::Reference(reference));
        }
        match byte {
            0x00 => Some(Action::Nothing),
            0x40..=0x5f => Some(Action::Remap(byte - 0x40)),
            0x60..=0x7f => Some(Action::Call(Call::new(byte - 0x60, Intent::In))),
            0xa0..=0xbf => Some(Action::Call(Call::new(byte - 0xa0, Intent::Out))),
            0xc0..=0xdf => Some(Action::Call(Call::new(byte - 0xc0, Intent::Inout))),
            _ => None,
        }
    }

    /// Whether a byte remaps its array.
    pub const fn is_remap(byte: u8) -> bool {
        matches!(Action::from_byte(byte), Some(Action::Remap(_)))
    }

    /// Whether a byte refers to its array.
    pub const fn is_reference(byte: u8) -> bool {
        Reference::from_byte(byte).is_some()
    }
}

const REFERENCE: u8 = 1;
const REMAP: u8 = 2;
const CALL: u8 = 4;
const UNKNOWN: u8 = 8;

/// A bit for each union of families that a row may have: none, or one that is known.
const ALLOWED: u16 = 1 << 0 | 1 << REFERENCE | 1 << REMAP | 1 << CALL;

/// For each byte the family of its action, 0 for nothing, and the version that it names, 0 if it
/// names none.
const ACTIONS: [(u8, u8); 256] = {
    let mut actions = [(UNKNOWN, 0); 256];
    let mut byte = 0;
    while byte < 256 {
        match Action::from_byte(byte as u8) {
            Some(Action::Nothing) => actions[byte] = (0, 0),
            Some(Action::Reference(_)) => actions[byte] = (REFERENCE, 0),
            Some(Action::Remap(version)) => actions[byte] = (REMAP, version),
            Some(Action::Call(call)) => actions[byte] = (CALL, call.version),
            None => {}
        }
        byte += 1;
    }
    actions
};

/// What a vertex does with one array: entry and exit labels are counted as labels.
#[derive(Clone, Copy, Debug, PartialEq, Eq)]
pub enum Event {
    Nothing,
    Reference(Reference),
    /// A label with its version.
    Label(u8),
    /// The array is passed to a call. A routine whose calls are expanded has none.
    Call(Call),
}

/// An accepted routine file, read in place, or one whose calls are expanded.
#[derive(Clone, Copy)]
pub struct Routine<'a> {
    arrays: &'a [[u8; 4]],
    actions: &'a [u8],
    vertices: usize,
    edges: &'a [[u8; 4]],
    /// How many rows are calls.
    calls: usize,
}

/// The number of an action byte that has a fault, the lowest of those that meet in it: 15 unknown,
/// 17 a version not below the array's count, 18 not zero in the row of entry or exit, 19 mixed.
fn action_fault(byte: u8, versions: u8, zero_row: bool) -> u64 {
    match Action::from_byte(byte) {
        None => 15,
        Some(Action::Remap(version) | Action::Call(Call { version, .. }))
            if version >= versions =>
        {
            17
        }
        Some(_) if zero_row => 18,
        Some(_) => 19,
    }
}

fn word(bytes: &[u8], at: usize) -> usize {
    usize::from(u16::from_le_bytes([bytes[at], bytes[at + 1]]))
}

impl<'a> Routine<'a> {
    /// The routine in a file, or the first refusal of 10 to 19 and 22: 17 to 19 are checked with
    /// 15, and 22 is last.
    pub fn parse(file: &'a [u8]) -> Result<Routine<'a>, Refusal> {
        if file.len() < HEAD {
            return Err(Refusal::at(10, file.len()));
        }
        if file[..4] != *b"HPFR" {
            return Err(Refusal::at(10, 0));
        }
        if word(file, 4) != 1 {
            return Err(Refusal::at(11, 4));
        }
        for (place, limits) in [
            (8, 1..=MAX_ARRAYS),
            (12, 2..=MAX_VERTICES),
            (16, 0..=MAX_EDGES),
        ] {
            if !limits.contains(&word(file, place)) {
                return Err(Refusal::at(12, place));
            }
        }
        let vertices = word(file, 12);
        let first_row = HEAD + 4 * word(file, 8);
        let first_edge = first_row + vertices * word(file, 8);
        let end = first_edge + 4 * word(file, 16);
        for (place, offset) in [(6, HEAD), (10, first_row), (14, first_edge)] {
            if word(file, place) != offset {
                return Err(Refusal::at(13, place));
            }
        }
        if file.len() != end {
            return Err(Refusal::at(13, 18));
        }
        let mut routine = Routine {
            arrays: file[HEAD..first_row].as_chunks().0,
            actions: &file[first_row..first_edge],
            vertices,
            edges: file[first_edge..].as_chunks().0,
            calls: 0,
        };
        if let Some(byte) = routine.bad_array_byte() {
            return Err(Refusal::at(14, HEAD + byte));
        }
        match routine.count_calls() {
            Ok(calls) => routine.calls = calls,
            Err((number, byte)) => return Err(Refusal::at(number, first_row + byte)),
        }
        if let Some(edge) = routine.bad_edge() {
            return Err(Refusal::at(16, first_edge + 4 * edge));
        }
        let expanded = vertices + 2 * routine.calls;
        if expanded > MAX_VERTICES {
            return Err(Refusal::at(22, expanded));
        }
        Ok(routine)
    }

    /// The same arrays with other rows, none of which is a call, and other edges.
    pub(crate) fn with(&self, actions: &'a [u8], edges: &'a [[u8; 4]]) -> Routine<'a> {
        Routine {
            arrays: self.arrays,
            actions,
            vertices: actions.len() / self.arrays.len(),
            edges,
            calls: 0,
        }
    }

    fn bad_array_byte(&self) -> Option<usize> {
        for (index, &[kind, versions, initial, zero]) in self.arrays.iter().enumerate() {
            let faults = [
                kind > 3,
                versions < 1 || usize::from(versions) > MAX_VERSIONS,
                initial >= versions,
                zero != 0,
            ];
            if let Some(byte) = faults.iter().position(|&fault| fault) {
                return Some(4 * index + byte);
            }
        }
        None
    }

    /// How many rows are calls, or the first action byte with a fault, after the fault's number.
    fn count_calls(&self) -> Result<usize, (u64, usize)> {
        let arrays = self.arrays.len();
        let mut calls = 0;
        for (vertex, row) in self.actions.chunks_exact(arrays).enumerate() {
            let zero_row = vertex == 0 || vertex == self.exit();
            let mut families = 0;
            for (array, (&byte, record)) in row.iter().zip(self.arrays).enumerate() {
                let (family, version) = ACTIONS[usize::from(byte)];
                families |= family;
                let unknown_or_mixed = ALLOWED >> families & 1 == 0;
                let version_too_large = version >= record[1];
                if unknown_or_mixed | version_too_large | (zero_row & (byte != 0)) {
                    let number = action_fault(byte, record[1], zero_row);
                    return Err((number, vertex * arrays + array));
                }
            }
            calls += usize::from(families == CALL);
        }
        Ok(calls)
    }

    fn bad_edge(&self) -> Option<usize> {
        let mut before = None;
        for index in 0..self.edge_count() {
            let (from, to) = self.edge(index);
            let fault = from >= self.vertices
                || to >= self.vertices
                || to == 0
                || from == self.exit()
                || before.is_some_and(|edge| (from, to) <= edge);
            if fault {
                return Some(index);
            }
            before = Some((from, to));
        }
        None
    }

    pub fn array_count(&self) -> usize {
        self.arrays.len()
    }

    pub fn array(&self, index: usize) -> Array {
        let [kind, versions, initial, _] = self.arrays[index];
        let kind = match kind {
            0 => Kind::Local,
            1 => Kind::In,
            2 => Kind::Out,
            _ => Kind::Inout,
        };
        Array {
            kind,
            versions,
            initial,
        }
    }

    pub fn arrays(&self) -> impl Iterator<Item = Array> {
        (0..self.array_count()).map(|index| self.array(index))
    }

    /// Whether some array has more than 16 versions.
    pub fn is_wide(&self) -> bool {
        self.arrays().any(|array| array.versions > 16)
    }

    pub fn vertex_count(&self) -> usize {
        self.vertices
    }

    /// The last vertex.
    pub fn exit(&self) -> usize {
        self.vertices - 1
    }

    /// How many rows are calls.
    pub fn call_count(&self) -> usize {
        self.calls
    }

    /// All action bytes, by vertex, then array.
    pub fn action_bytes(&self) -> &'a [u8] {
        self.actions
    }

    /// The action bytes of one vertex.
    pub fn row(&self, vertex: usize) -> &'a [u8] {
        let arrays = self.arrays.len();
        &self.actions[vertex * arrays..][..arrays]
    }

    /// Entry and exit labels ("Labels"), elsewhere the action byte.
    pub fn event(&self, vertex: usize, array: usize) -> Event {
        let record = self.array(array);
        if vertex == 0 || vertex == self.exit() && record.kind.is_out_or_inout() {
            return Event::Label(record.initial);
        }
        match Action::from_byte(self.row(vertex)[array]) {
            Some(Action::Reference(reference)) => Event::Reference(reference),
            Some(Action::Remap(version)) => Event::Label(version),
            Some(Action::Call(call)) => Event::Call(call),
            Some(Action::Nothing) | None => Event::Nothing,
        }
    }

    pub fn edge_count(&self) -> usize {
        self.edges.len()
    }

    /// The edges once the calls are expanded.
    pub fn expanded_edge_count(&self) -> usize {
        self.edge_count() + 2 * self.calls
    }

    /// From and to of one edge.
    pub fn edge(&self, index: usize) -> (usize, usize) {
        let bytes = &self.edges[index];
        (word(bytes, 0), word(bytes, 2))
    }

    /// The bytes of all edges.
    pub fn edge_bytes(&self) -> &'a [[u8; 4]] {
        self.edges
    }

    pub fn edges(&self) -> impl Iterator<Item = (usize, usize)> {
        (0..self.edge_count()).map(|index| self.edge(index))
    }
}
