//! Routine files made from their parts, and the routines that have names.

use crate::calls::{self, Place, Room};
use crate::labels::fixpoint;
use crate::routine::{HEAD, Routine};

pub const READ: u8 = 0x10;
pub const DEFINE: u8 = 0x20;
pub const MODIFY: u8 = 0x30;
pub const KILL: u8 = 0x80;

/// Every reference.
pub const REFERENCES: [u8; 4] = [READ, DEFINE, MODIFY, KILL];

pub const LOCAL: u8 = 0;
pub const IN: u8 = 1;
pub const OUT: u8 = 2;
pub const INOUT: u8 = 3;

/// The byte of a remap to a version.
pub const fn remap(version: u8) -> u8 {
    0x40 + version
}

/// The bytes that pass an array in a version, with intent in, out and inout.
pub const fn call_in(version: u8) -> u8 {
    0x60 + version
}

pub const fn call_out(version: u8) -> u8 {
    0xa0 + version
}

pub const fn call_inout(version: u8) -> u8 {
    0xc0 + version
}

/// The parts of a routine file, right or wrong.
#[derive(Clone, Debug, Default, PartialEq, Eq)]
pub struct Draft {
    /// Kind, versions, initial version, zero.
    pub arrays: Vec<[u8; 4]>,
    /// One row of action bytes for each vertex.
    pub rows: Vec<Vec<u8>>,
    pub edges: Vec<(u16, u16)>,
}

impl Draft {
    /// A routine of one array; `actions` are those of the vertices between entry and exit.
    pub fn one_array(
        kind: u8,
        versions: u8,
        initial: u8,
        actions: &[u8],
        edges: &[(u16, u16)],
    ) -> Draft {
        let mut rows = vec![vec![0]];
        rows.extend(actions.iter().map(|&action| vec![action]));
        rows.push(vec![0]);
        Draft {
            arrays: vec![[kind, versions, initial, 0]],
            rows,
            edges: edges.to_vec(),
        }
    }

    /// A routine of one array whose vertices form a chain.
    pub fn chain(kind: u8, versions: u8, initial: u8, actions: &[u8]) -> Draft {
        let edges: Vec<(u16, u16)> = (0..=actions.len() as u16).map(|v| (v, v + 1)).collect();
        Draft::one_array(kind, versions, initial, actions, &edges)
    }

    /// The routine file.
    pub fn bytes(&self) -> Vec<u8> {
        let first_row = HEAD + 4 * self.arrays.len();
        let first_edge = first_row + self.rows.iter().map(Vec::len).sum::<usize>();
        let mut file = b"HPFR".to_vec();
        for word in [
            1,
            HEAD,
            self.arrays.len(),
            first_row,
            self.rows.len(),
            first_edge,
            self.edges.len(),
        ] {
            file.extend((word as u16).to_le_bytes());
        }
        file.extend(self.arrays.iter().flatten());
        file.extend(self.rows.iter().flatten());
        for (from, to) in &self.edges {
            file.extend(from.to_le_bytes());
            file.extend(to.to_le_bytes());
        }
        file
    }

    /// The parts of a file whose contents and length fit together.
    pub fn from_bytes(file: &[u8]) -> Option<Draft> {
        let word = |at: usize| usize::from(u16::from_le_bytes([file[at], file[at + 1]]));
        if file.len() < HEAD {
            return None;
        }
        let (arrays, vertices, edges) = (word(8), word(12), word(16));
        let first_row = HEAD + 4 * arrays;
        let first_edge = first_row + arrays * vertices;
        if arrays == 0 || file.len() != first_edge + 4 * edges {
            return None;
        }
        let edge = |&[from, from_high, to, to_high]: &[u8; 4]| {
            (
                u16::from_le_bytes([from, from_high]),
                u16::from_le_bytes([to, to_high]),
            )
        };
        let draft = Draft {
            arrays: file[HEAD..first_row].as_chunks().0.to_vec(),
            rows: file[first_row..first_edge]
                .chunks_exact(arrays)
                .map(<[u8]>::to_vec)
                .collect(),
            edges: file[first_edge..].as_chunks().0.iter().map(edge).collect(),
        };
        (draft.bytes() == file).then_some(draft)
    }

    /// The vertices once the calls are expanded, for paths.
    pub fn places(&self) -> Vec<Place> {
        calls::places(self.rows.iter().map(Vec::as_slice))
    }

    /// A well-formed routine with its calls expanded; what 20 and 21 ask of it is not looked at.
    pub fn expanded(&self) -> Draft {
        let file = self.bytes();
        let routine = Routine::parse(&file).expect("the routine is well formed");
        let mut room = Room::EMPTY;
        let routine = fixpoint::expanded(&routine, &mut room);
        Draft {
            arrays: self.arrays.clone(),
            rows: (0..routine.vertex_count())
                .map(|vertex| routine.row(vertex).to_vec())
                .collect(),
            edges: routine
                .edges()
                .map(|(from, to)| (from as u16, to as u16))
                .collect(),
        }
    }

    /// The successors of each vertex.
    pub fn successors(&self) -> Vec<Vec<u16>> {
        let mut successors = vec![Vec::new(); self.rows.len()];
        for &(from, to) in &self.edges {
            successors[usize::from(from)].push(to);
        }
        successors
    }
}

/// A path's bytes.
pub fn path_bytes(vertices: &[u16]) -> Vec<u8> {
    vertices.iter().flat_map(|v| v.to_le_bytes()).collect()
}

/// Routine P of document 01.
pub fn p() -> Draft {
    Draft::one_array(
        LOCAL,
        3,
        0,
        &[DEFINE, remap(1), READ, remap(2), remap(0), READ],
        &[
            (0, 1),
            (1, 2),
            (2, 3),
            (3, 4),
            (4, 5),
            (5, 6),
            (6, 2),
            (6, 7),
        ],
    )
}

/// Routine Q of document 01: one branch defines and the other does not.
pub fn q() -> Draft {
    Draft::one_array(
        INOUT,
        2,
        0,
        &[remap(1), DEFINE, remap(0), READ],
        &[(0, 1), (1, 2), (1, 3), (2, 3), (3, 4), (4, 5)],
    )
}

/// Routine S of document 01: a dropped label between two kept ones.
pub fn s() -> Draft {
    Draft::chain(LOCAL, 3, 0, &[DEFINE, remap(1), remap(2), READ])
}

/// Routine T of document 01: an ambiguous read.
pub fn t() -> Draft {
    Draft::one_array(
        LOCAL,
        2,
        0,
        &[remap(1), READ],
        &[(0, 1), (0, 2), (1, 2), (2, 3)],
    )
}

/// T with nothing at vertex 2.
pub fn t_without_read() -> Draft {
    let mut draft = t();
    draft.rows[2] = vec![0];
    draft
}

/// The smallest case of request 1: an in argument that is remapped and read, and not remapped
/// home.
pub fn read_only() -> Draft {
    Draft::chain(IN, 2, 0, &[remap(1), READ])
}

/// Routine U: a define, then a read, under one label.
pub fn u() -> Draft {
    Draft::chain(
        LOCAL,
        2,
        0,
        &[DEFINE, remap(1), DEFINE, READ, remap(0), READ],
    )
}

/// Routine Z of request 6: a kill, then a read, under one label.
pub fn z() -> Draft {
    Draft::chain(LOCAL, 2, 0, &[DEFINE, remap(1), KILL, READ])
}

/// Routine K: a call in a loop that passes one array as inout and another as in.
pub fn k() -> Draft {
    Draft {
        arrays: vec![[INOUT, 2, 0, 0], [IN, 2, 0, 0]],
        rows: vec![
            vec![0, 0],
            vec![call_inout(1), call_in(1)],
            vec![READ, READ],
            vec![0, 0],
        ],
        edges: vec![(0, 1), (1, 2), (2, 1), (2, 3)],
    }
}

/// A call between two references of an array in another version.
pub fn call() -> Draft {
    Draft::chain(INOUT, 3, 1, &[DEFINE, remap(2), call_inout(0), READ])
}

/// Two calls in a row, and another on a branch that comes back before them: a loop of calls.
pub fn calls_in_a_loop() -> Draft {
    Draft::one_array(
        LOCAL,
        3,
        0,
        &[call_out(1), remap(2), call_in(1), call_inout(2), READ],
        &[
            (0, 1),
            (1, 2),
            (2, 3),
            (3, 4),
            (4, 3),
            (4, 5),
            (5, 2),
            (5, 6),
        ],
    )
}

/// T with a call that passes a second array too, to which one version comes.
pub fn ambiguous_call() -> Draft {
    Draft {
        arrays: vec![[INOUT, 2, 1, 0], [LOCAL, 2, 0, 0]],
        rows: vec![
            vec![0, 0],
            vec![0, remap(1)],
            vec![call_in(0), call_out(1)],
            vec![0, 0],
        ],
        edges: vec![(0, 1), (0, 2), (1, 2), (2, 3)],
    }
}

/// The same with a call that does not pass the second array: it is accepted.
pub fn call_beside_two_versions() -> Draft {
    let mut draft = ambiguous_call();
    draft.rows[2][1] = 0;
    draft
}

/// A call hands on both versions that come to it: it is ambiguous, and so is the read behind it.
/// One is vertex 2 and the other 3.
pub fn ambiguous_behind_a_call(read: usize) -> Draft {
    let call = 5 - read;
    let mut actions = [0; 4];
    actions[0] = remap(1);
    actions[read - 1] = READ;
    actions[call - 1] = call_in(1);
    let (read, call) = (read as u16, call as u16);
    let mut edges = vec![(0, 1), (0, 4), (1, 4), (4, call), (call, read), (read, 5)];
    edges.sort_unstable();
    Draft::one_array(LOCAL, 2, 0, &actions, &edges)
}

/// A call that no path gets to, beside one of an in argument; `intent` passes the argument there.
pub fn unreached_call(intent: fn(u8) -> u8) -> Draft {
    Draft::one_array(
        IN,
        3,
        2,
        &[remap(1), call_in(0), intent(1), READ],
        &[(0, 1), (1, 2), (2, 5), (3, 4), (4, 5)],
    )
}
