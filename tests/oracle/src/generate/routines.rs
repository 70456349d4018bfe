//! Random routines: like programs, or any graph; as drawn, or made acceptable.

use super::rng::Rng;
use crate::builder::{
    DEFINE, Draft, IN, INOUT, KILL, LOCAL, MODIFY, READ, call_in, call_inout, call_out, remap,
};
use crate::calls::is_call;
use crate::labels::fixpoint;
use crate::routine::{Action, MAX_ARRAYS, MAX_EDGES, MAX_VERSIONS, MAX_VERTICES, Routine};

/// How large a routine may become.
#[derive(Clone, Copy, Debug)]
pub struct Size {
    /// Once its calls are expanded.
    pub vertices: usize,
    pub arrays: usize,
    pub versions: usize,
    /// How many of a hundred rows are calls.
    pub calls: usize,
}

impl Size {
    pub const LARGEST: Size = Size {
        vertices: MAX_VERTICES,
        arrays: MAX_ARRAYS,
        versions: MAX_VERSIONS,
        calls: 0,
    };

    /// Mostly small, sometimes up to the limits; mostly with calls; one of four with arrays of more
    /// than 16 versions.
    pub fn any(rng: &mut Rng) -> Size {
        let (vertices, arrays, versions) = match rng.below(20) {
            0..=9 => (rng.between(3, 16), rng.between(1, 3), rng.between(1, 4)),
            10..=15 => (rng.between(8, 60), rng.between(1, 4), rng.between(2, 6)),
            16..=18 => (rng.between(30, 200), rng.between(1, 8), rng.between(2, 16)),
            _ => (MAX_VERTICES, MAX_ARRAYS, MAX_VERSIONS),
        };
        Size {
            vertices,
            arrays,
            versions: match rng.chance(25) {
                true => rng.between(17, MAX_VERSIONS),
                false => versions,
            },
            calls: any_calls(rng),
        }
    }
}

/// How many of a hundred rows are calls: none in one routine of five.
pub fn any_calls(rng: &mut Rng) -> usize {
    match rng.below(10) {
        0 | 1 => 0,
        2..=7 => rng.between(15, 40),
        _ => rng.between(40, 90),
    }
}

/// Array records with as many versions as allowed or fewer.
pub fn arrays(rng: &mut Rng, size: Size) -> Vec<[u8; 4]> {
    (0..size.arrays)
        .map(|_| {
            let versions = rng.between(1.max(size.versions / 2), size.versions) as u8;
            let kind = rng.between(0, usize::from(INOUT)) as u8;
            [kind, versions, any_version(rng, versions), 0]
        })
        .collect()
}

/// A version of an array that has so many. Of more than 16 it is mostly one of a few, so that the
/// same one is met again.
pub fn any_version(rng: &mut Rng, versions: u8) -> u8 {
    if versions > 16 && rng.chance(70) {
        return rng.pick(&[0, 15, 16, versions - 1]);
    }
    rng.below(usize::from(versions)) as u8
}

/// A reference: reads and defines twice as often as modifies and kills.
pub fn any_reference(rng: &mut Rng) -> u8 {
    rng.pick(&[READ, READ, DEFINE, DEFINE, MODIFY, KILL])
}

/// The bytes that pass an array with each intent.
pub const INTENTS: [fn(u8) -> u8; 3] = [call_in, call_out, call_inout];

/// A row that passes some arrays to a call.
pub fn call_row(rng: &mut Rng, arrays: &[[u8; 4]]) -> Vec<u8> {
    let mut row = vec![0; arrays.len()];
    let always = rng.below(arrays.len());
    for (array, &[kind, versions, ..]) in arrays.iter().enumerate() {
        if array == always || rng.chance(40) {
            let version = any_version(rng, versions);
            let intent = if kind == IN && !rng.chance(1) {
                call_in
            } else {
                rng.pick(&INTENTS)
            };
            row[array] = intent(version);
        }
    }
    row
}

/// A row of nothing, of references, of remappings or, in so many of a hundred, of calls.
pub fn row(rng: &mut Rng, arrays: &[[u8; 4]], calls: usize) -> Vec<u8> {
    if calls > 0 && rng.chance(calls) {
        return call_row(rng, arrays);
    }
    let mut row = vec![0; arrays.len()];
    let remaps = match rng.below(20) {
        0..=2 => return row,
        3..=10 => true,
        _ => false,
    };
    let always = rng.below(arrays.len());
    for (array, &[kind, versions, ..]) in arrays.iter().enumerate() {
        if array == always || rng.chance(40) {
            row[array] = if remaps {
                remap(any_version(rng, versions))
            } else if kind == IN && !rng.chance(1) {
                READ
            } else {
                any_reference(rng)
            };
        }
    }
    row
}

/// How many vertices a row becomes.
fn width(row: &[u8]) -> usize {
    if is_call(row) { 3 } else { 1 }
}

/// A row after so many expanded vertices: no call where there is no room for it and the exit.
fn fitting_row(rng: &mut Rng, arrays: &[[u8; 4]], size: Size, expanded: usize) -> Vec<u8> {
    let has_room = expanded + 4 <= size.vertices;
    row(rng, arrays, if has_room { size.calls } else { 0 })
}

/// A program under way: its rows and edges, and who returns to the exit.
struct Program<'a> {
    rng: &'a mut Rng,
    draft: Draft,
    size: Size,
    /// The vertices so far, once the calls are expanded.
    expanded: usize,
    returns: Vec<u16>,
}

impl Program<'_> {
    fn is_full(&self) -> bool {
        self.expanded + 1 >= self.size.vertices
    }

    /// A new vertex with edges from the open ends.
    fn vertex(&mut self, open: &[u16]) -> u16 {
        let vertex = self.draft.rows.len() as u16;
        let row = fitting_row(self.rng, &self.draft.arrays, self.size, self.expanded);
        self.expanded += width(&row);
        self.draft.rows.push(row);
        self.edges(open, vertex);
        vertex
    }

    fn edges(&mut self, open: &[u16], to: u16) {
        self.draft.edges.extend(open.iter().map(|&from| (from, to)));
    }

    /// Statements in a row; takes the open ends before them, gives those after them.
    fn sequence(&mut self, mut open: Vec<u16>, depth: usize) -> Vec<u16> {
        for _ in 0..self.rng.between(1, 5) {
            if !self.is_full() {
                open = self.statement(open, depth);
            }
        }
        open
    }

    fn statement(&mut self, open: Vec<u16>, depth: usize) -> Vec<u16> {
        let choice = if depth == 0 { 0 } else { self.rng.below(12) };
        match choice {
            0..=5 => vec![self.vertex(&open)],
            6..=8 => self.branch(&open, depth - 1),
            9 => {
                let head = self.vertex(&open);
                let ends = self.sequence(vec![head], depth - 1);
                self.edges(&ends, head);
                // An endless loop now and then: what follows is unreachable.
                if self.rng.chance(5) {
                    vec![]
                } else {
                    vec![head]
                }
            }
            10 => {
                let first = self.draft.rows.len() as u16;
                let ends = self.sequence(open, depth - 1);
                self.edges(&ends, first);
                ends
            }
            _ if self.rng.chance(30) => {
                // A return or a dead end: what follows is unreachable.
                let last = self.vertex(&open);
                if self.rng.chance(70) {
                    self.returns.push(last);
                }
                vec![]
            }
            _ => vec![self.vertex(&open)],
        }
    }

    fn branch(&mut self, open: &[u16], depth: usize) -> Vec<u16> {
        let head = self.vertex(open);
        let mut ends = Vec::new();
        for _ in 0..self.rng.between(1, 3) {
            if !self.is_full() {
                ends.extend(self.sequence(vec![head], depth));
            }
        }
        if ends.is_empty() || self.rng.chance(40) {
            ends.push(head);
        }
        ends
    }
}

/// A routine like a program: sequences, branches, nested loops, returns, dead ends.
pub fn program(rng: &mut Rng, size: Size) -> Draft {
    let arrays = arrays(rng, size);
    let mut program = Program {
        draft: Draft {
            rows: vec![vec![0; arrays.len()]],
            arrays,
            edges: Vec::new(),
        },
        rng,
        size,
        expanded: 1,
        returns: Vec::new(),
    };
    let mut open = vec![0];
    while !program.is_full() {
        open = program.sequence(open, 4);
        if program.rng.chance(30) {
            break;
        }
    }
    let exit = program.draft.rows.len() as u16;
    let returns = std::mem::take(&mut program.returns);
    program.edges(&open, exit);
    program.edges(&returns, exit);
    let mut draft = program.draft;
    draft.rows.push(vec![0; draft.arrays.len()]);
    put_in_order(rng, &mut draft.edges);
    draft
}

/// Sorts edges and takes out the surplus: those that stand twice, and any beyond the limit.
fn put_in_order(rng: &mut Rng, edges: &mut Vec<(u16, u16)>) {
    edges.sort_unstable();
    edges.dedup();
    while edges.len() > MAX_EDGES {
        edges.remove(rng.below(edges.len()));
    }
}

/// Any edge that a routine of so many vertices may have.
fn edge(rng: &mut Rng, vertices: usize) -> (u16, u16) {
    let from = rng.below(vertices - 1);
    let to = rng.between(1, vertices - 1);
    (from as u16, to as u16)
}

/// Any graph with about so many edges; `spine` joins all vertices in order first. Once its calls are
/// expanded, it has as many vertices as it may.
pub fn graph(rng: &mut Rng, size: Size, edges: usize, spine: bool) -> Draft {
    let arrays = arrays(rng, size);
    let mut rows = vec![row(rng, &arrays, 0)];
    let mut expanded = 1;
    while expanded < size.vertices {
        let row = fitting_row(rng, &arrays, size, expanded);
        expanded += width(&row);
        rows.push(row);
    }
    let vertices = rows.len();
    rows[0].fill(0);
    rows[vertices - 1].fill(0);
    let mut list: Vec<(u16, u16)> = Vec::new();
    if spine {
        list.extend((0..vertices as u16 - 1).map(|vertex| (vertex, vertex + 1)));
    }
    for _ in list.len()..edges {
        list.push(edge(rng, vertices));
    }
    put_in_order(rng, &mut list);
    Draft {
        arrays,
        rows,
        edges: list,
    }
}

/// A graph with exactly so many edges, all vertices joined in order among them.
pub fn graph_of(rng: &mut Rng, size: Size, edges: usize) -> Draft {
    let mut draft = graph(rng, size, edges, true);
    while draft.edges.len() < edges {
        let edge = edge(rng, draft.rows.len());
        if let Err(place) = draft.edges.binary_search(&edge) {
            draft.edges.insert(place, edge);
        }
    }
    draft
}

/// Any graph of any size and density.
pub fn any_graph(rng: &mut Rng, size: Size) -> Draft {
    let edges = rng.between(0, (4 * size.vertices).min(MAX_EDGES));
    let spine = rng.chance(60);
    graph(rng, size, edges, spine)
}

/// Takes what 20 and 21 refuse out of a routine, one reference or call after the other.
pub fn make_acceptable(rng: &mut Rng, draft: &mut Draft) {
    loop {
        let file = draft.bytes();
        let routine = Routine::parse(&file).expect("generated files are well formed");
        let Some(refusal) = fixpoint::refusal(&routine) else {
            return;
        };
        let (vertex, array) = (refusal.first as usize, refusal.second as usize);
        let row = &mut draft.rows[vertex];
        if refusal.number == 20 {
            row[array] = match Action::from_byte(row[array]) {
                Some(Action::Call(call)) => call_in(call.version),
                _ => READ,
            };
        } else if rng.chance(50) {
            row[array] = 0;
        } else {
            // Remapping here makes later references name one version.
            row.fill(0);
            row[array] = remap(any_version(rng, draft.arrays[array][1]));
        }
    }
}

/// A routine of any shape that is accepted.
pub fn accepted(rng: &mut Rng, size: Size) -> Draft {
    let mut draft = if rng.chance(70) {
        program(rng, size)
    } else {
        any_graph(rng, size)
    };
    make_acceptable(rng, &mut draft);
    draft
}

/// A program that is accepted, with two arrays of each kind and up to so many vertices.
pub fn every_kind(rng: &mut Rng, vertices: usize) -> Draft {
    let size = Size {
        vertices: rng.between(3, vertices),
        arrays: MAX_ARRAYS,
        versions: rng.between(1, MAX_VERSIONS),
        calls: any_calls(rng),
    };
    let mut draft = program(rng, size);
    for (array, record) in draft.arrays.iter_mut().enumerate() {
        record[0] = array as u8 % 4;
    }
    make_acceptable(rng, &mut draft);
    draft
}

/// A program that is accepted, with an edge into its exit and at least one in argument.
pub fn read_only(rng: &mut Rng, size: Size) -> Draft {
    loop {
        let mut draft = program(rng, size);
        let exit = draft.rows.len() as u16 - 1;
        if draft.edges.iter().any(|&(_, to)| to == exit) {
            let always = rng.below(draft.arrays.len());
            for (array, record) in draft.arrays.iter_mut().enumerate() {
                if array == always || rng.chance(30) {
                    record[0] = IN;
                }
            }
            make_acceptable(rng, &mut draft);
            return draft;
        }
    }
}

/// Every routine of one array with two versions, initial 0, and four vertices. With calls, which
/// pass the array in version 1, it is local or inout.
pub fn all_of_four_vertices() -> impl Iterator<Item = Draft> {
    const ACTIONS: [u8; 10] = [
        0,
        READ,
        DEFINE,
        MODIFY,
        KILL,
        remap(0),
        remap(1),
        call_in(1),
        call_out(1),
        call_inout(1),
    ];
    let all_edges: Vec<(u16, u16)> = (0..3)
        .flat_map(|from| (1..4).map(move |to| (from, to)))
        .collect();
    let edge_sets = 1 << all_edges.len();
    (0..4 * 10 * 10 * edge_sets).filter_map(move |index: usize| {
        let (chosen, rest) = (index % edge_sets, index / edge_sets);
        let actions = [ACTIONS[rest % 10], ACTIONS[rest / 10 % 10]];
        let kind = (rest / 100) as u8;
        if is_call(&actions) && kind != LOCAL && kind != INOUT {
            return None;
        }
        let edges: Vec<(u16, u16)> = (0..all_edges.len())
            .filter(|edge| chosen >> edge & 1 == 1)
            .map(|edge| all_edges[edge])
            .collect();
        Some(Draft::one_array(kind, 2, 0, &actions, &edges))
    })
}
