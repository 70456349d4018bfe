//! Calls with interfaces (request 3 of document 02): each call row becomes three vertices, shared by
//! the arrays that it passes.

use crate::routine::{Action, MAX_VERTICES, Reference, Routine, Set};

/// What a call does with an array that it passes. None kills it.
#[derive(Clone, Copy, Debug, PartialEq, Eq)]
pub enum Intent {
    In,
    Out,
    Inout,
}

impl Intent {
    /// In reads, out defines, inout modifies.
    pub const fn reference(self) -> Reference {
        match self {
            Intent::In => Reference::Read,
            Intent::Out => Reference::Define,
            Intent::Inout => Reference::Modify,
        }
    }
}

/// An array passed to a call.
#[derive(Clone, Copy, Debug, PartialEq, Eq)]
pub struct Call {
    /// The version in which it is passed.
    pub version: u8,
    pub intent: Intent,
}

impl Call {
    pub const fn new(version: u8, intent: Intent) -> Call {
        Call { version, intent }
    }
}

/// Whether a row passes an array to a call.
pub fn is_call(row: &[u8]) -> bool {
    row.iter()
        .any(|&byte| matches!(Action::from_byte(byte), Some(Action::Call(_))))
}

/// What a vertex of an expanded routine is of the file's vertex that it comes from.
#[derive(Clone, Copy, Debug, PartialEq, Eq)]
pub enum Part {
    /// No call.
    Whole,
    /// The remappings to the versions in which a call passes its arrays.
    Before,
    /// The references of a call.
    Inside,
    /// The remappings back.
    After,
}

/// A vertex of an expanded routine: the file's vertex that it comes from, and which part of it.
#[derive(Clone, Copy, Debug, PartialEq, Eq)]
pub struct Place {
    pub vertex: usize,
    pub part: Part,
}

/// The vertices of the expanded routine, in file order, of a file with these rows.
pub fn places<'r>(rows: impl Iterator<Item = &'r [u8]>) -> Vec<Place> {
    let mut places = Vec::new();
    for (vertex, row) in rows.enumerate() {
        let parts: &[Part] = match is_call(row) {
            true => &[Part::Before, Part::Inside, Part::After],
            false => &[Part::Whole],
        };
        places.extend(parts.iter().map(|&part| Place { vertex, part }));
    }
    places
}

/// The bytes of an expanded routine.
pub struct Room {
    actions: Vec<u8>,
    edges: Vec<[u8; 4]>,
}

impl Room {
    pub const EMPTY: Room = Room {
        actions: Vec::new(),
        edges: Vec::new(),
    };

    fn clear_for(&mut self, file: &Routine) {
        let vertices = file.vertex_count() + 2 * file.call_count();
        self.actions.clear();
        self.actions.reserve(vertices * file.array_count());
        self.edges.clear();
        self.edges
            .reserve(file.edge_count() + 2 * file.call_count());
    }

    /// One of the three rows of a call.
    fn row(&mut self, row: &[u8], action: impl Fn(usize, Call) -> u8) {
        let bytes = row.iter().enumerate();
        self.actions
            .extend(bytes.map(|(array, &byte)| match Action::from_byte(byte) {
                Some(Action::Call(call)) => action(array, call),
                _ => 0,
            }));
    }

    fn edge(&mut self, from: u16, to: u16) {
        let ([from, from_high], [to, to_high]) = (from.to_le_bytes(), to.to_le_bytes());
        self.edges.push([from, from_high, to, to_high]);
    }
}

/// A file's routine with its calls expanded; without calls the routine itself. `arriving` gives the
/// versions that the source can name before a call, by vertex and array: no more than one, since
/// 21 is given otherwise, and none if no path gets there.
pub fn expanded<'a>(
    file: &Routine<'a>,
    arriving: impl Fn(usize, usize) -> Set,
    room: &'a mut Room,
) -> Routine<'a> {
    if file.call_count() == 0 {
        return *file;
    }
    let back = |vertex, array| match arriving(vertex, array) {
        0 => file.array(array).initial,
        versions => versions.trailing_zeros() as u8,
    };
    room.clear_for(file);
    // The first of the vertices that each of the file's becomes.
    let mut firsts = [0; MAX_VERTICES];
    let mut next = 0;
    for (vertex, first) in firsts[..file.vertex_count()].iter_mut().enumerate() {
        let row = file.row(vertex);
        *first = next;
        if is_call(row) {
            room.row(row, |_, call| 0x40 + call.version);
            room.row(row, |_, call| match call.intent {
                Intent::In => 0x10,
                Intent::Out => 0x20,
                Intent::Inout => 0x30,
            });
            room.row(row, |array, _| 0x40 + back(vertex, array));
            next += 3;
        } else {
            room.actions.extend(row);
            next += 1;
        }
    }
    // The file's edges rise, and so do these: the inner ones come before those that leave a call.
    let mut edges = file.edges().peekable();
    for (vertex, &first) in firsts[..file.vertex_count()].iter().enumerate() {
        let mut last = first;
        if is_call(file.row(vertex)) {
            last = first + 2;
            room.edge(first, first + 1);
            room.edge(first + 1, last);
        }
        while let Some((_, to)) = edges.next_if(|&(from, _)| from == vertex) {
            room.edge(last, firsts[to]);
        }
    }
    file.with(&room.actions, &room.edges)
}
