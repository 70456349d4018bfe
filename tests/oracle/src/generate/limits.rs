//! Routines at each limit, and one beyond.

use super::rng::Rng;
use super::routines::{self, Size};
use crate::builder::{
    DEFINE, Draft, IN, INOUT, KILL, LOCAL, MODIFY, READ, REFERENCES, call_in, remap,
};
use crate::routine::{
    MAX_ARRAYS, MAX_CALLS, MAX_EDGES, MAX_EXPANDED_EDGES, MAX_VERSIONS, MAX_VERTICES,
};
use crate::run::MAX_PATH;

/// Eight inout arrays, 256 vertices and 1,024 edges: each vertex has edges to the next
/// three and to vertex 1, some to themselves.
fn full(actions: impl Fn(usize, usize) -> u8) -> Draft {
    let exit = MAX_VERTICES - 1;
    let mut rows = vec![vec![0; MAX_ARRAYS]; MAX_VERTICES];
    for (vertex, row) in rows.iter_mut().enumerate().take(exit).skip(1) {
        for (array, action) in row.iter_mut().enumerate() {
            *action = actions(vertex, array);
        }
    }
    let mut edges: Vec<(u16, u16)> = (1..exit as u16).map(|from| (from, 1)).collect();
    for from in 0..exit as u16 {
        edges.extend((from + 1..=from + 3).map(|to| (from, to)));
    }
    edges.retain(|&(_, to)| usize::from(to) <= exit);
    let missing = MAX_EDGES - edges.len();
    edges.extend((2..).map(|vertex| (vertex, vertex)).take(missing));
    edges.sort_unstable();
    Draft {
        arrays: vec![[INOUT, MAX_VERSIONS as u8, 0, 0]; MAX_ARRAYS],
        rows,
        edges,
    }
}

/// Every inner vertex remaps all arrays: the largest plan.
pub fn largest_plan() -> Draft {
    full(|vertex, array| remap(((vertex + array) % MAX_VERSIONS) as u8))
}

/// Every inner vertex references all arrays: with the longest path the largest report.
pub fn largest_report() -> Draft {
    full(|vertex, array| [READ, DEFINE, MODIFY][(vertex + array) % 3])
}

/// The same with kills, which other references follow and come before.
pub fn largest_with_kills() -> Draft {
    full(|vertex, array| REFERENCES[(vertex + array) % REFERENCES.len()])
}

/// The longest path through `largest_report`.
pub fn longest_path() -> Vec<u16> {
    let mut path = vec![0];
    path.extend((0..4095).map(|index| 1 + index % 254));
    path
}

/// Random rows on a chain that takes the vertices in this order, arrays of up to so many versions.
fn chain(rng: &mut Rng, versions: usize, order: &[u16]) -> Draft {
    let size = Size {
        versions,
        ..Size::LARGEST
    };
    let mut draft = routines::graph(rng, size, 0, false);
    draft.edges = order.windows(2).map(|pair| (pair[0], pair[1])).collect();
    draft.edges.sort_unstable();
    draft
}

/// A chain numbered against its direction: facts travel one vertex a sweep.
pub fn backward_chain(rng: &mut Rng, versions: usize) -> Draft {
    let exit = MAX_VERTICES as u16 - 1;
    let mut order = vec![0];
    order.extend((1..exit).rev());
    order.push(exit);
    chain(rng, versions, &order)
}

/// A chain 0, 128, 1, 129 and so on: facts travel two vertices a sweep, whichever way the
/// sweeps go.
pub fn zigzag_chain(rng: &mut Rng, versions: usize) -> Draft {
    let half = MAX_VERTICES as u16 / 2;
    let order: Vec<u16> = (0..half).flat_map(|low| [low, half + low]).collect();
    chain(rng, versions, &order)
}

/// 256 vertices, 1,024 edges, eight arrays of up to so many versions.
pub fn dense(rng: &mut Rng, versions: usize) -> Draft {
    let size = Size {
        versions,
        ..Size::LARGEST
    };
    routines::graph_of(rng, size, MAX_EDGES)
}

/// Eight arrays that the last vertex but one and vertex 1 remap; nothing else is done.
fn two_rows_of_labels(mut edges: Vec<(u16, u16)>) -> Draft {
    let remaps = |first: u8| (0..MAX_ARRAYS as u8).map(move |array| remap(first + array % 3));
    let mut rows = vec![vec![0; MAX_ARRAYS]; MAX_VERTICES];
    rows[MAX_VERTICES - 2] = remaps(1).collect();
    rows[1] = remaps(4).collect();
    edges.sort_unstable();
    Draft {
        arrays: vec![[INOUT, MAX_VERSIONS as u8, 0, 0]; MAX_ARRAYS],
        rows,
        edges,
    }
}

/// The entry has an edge to each vertex but the exit, and a chain runs against the numbers: in
/// sweeps by number facts travel one vertex a sweep.
pub fn chain_from_entry() -> Draft {
    let exit = MAX_VERTICES as u16 - 1;
    let mut edges = vec![(1, exit)];
    edges.extend((1..exit).map(|vertex| (0, vertex)));
    edges.extend((2..exit).map(|vertex| (vertex, vertex - 1)));
    two_rows_of_labels(edges)
}

/// `chain_from_entry` with edges to the next vertex and loops at each: a depth-first search settles
/// the vertices by number too, and facts travel one vertex a sweep in either order.
pub fn chain_both_ways() -> Draft {
    let exit = MAX_VERTICES as u16 - 1;
    let mut edges = chain_from_entry().edges;
    edges.extend((2..exit).map(|vertex| (vertex, vertex)));
    edges.extend((2..exit - 1).map(|vertex| (vertex, vertex + 1)));
    two_rows_of_labels(edges)
}

/// A loop that reads an inout argument in each of 32 versions: every set is full.
pub fn most_versions() -> Draft {
    let versions = MAX_VERSIONS as u8;
    let actions: Vec<u8> = (0..versions).flat_map(|v| [remap(v), READ]).collect();
    let mut draft = Draft::chain(INOUT, versions, versions - 1, &actions);
    draft.edges.push((actions.len() as u16, 1));
    draft.edges.sort_unstable();
    draft
}

/// The vertices of a ring that has room for another vertex beside each.
const RING: u16 = MAX_VERTICES as u16 / 2 - 1;

/// Each vertex of the ring remaps all arrays, and the one beside it modifies them: no label is
/// dropped.
pub fn ring_of_labels() -> Draft {
    let version = |vertex, array| ((vertex + array) % MAX_VERSIONS) as u8;
    let labels = |vertex| (0..MAX_ARRAYS).map(move |array| remap(version(vertex, array)));
    let mut rows = vec![vec![0; MAX_ARRAYS]];
    rows.extend((1..=usize::from(RING)).map(|vertex| labels(vertex).collect()));
    rows.resize(MAX_VERTICES - 1, vec![MODIFY; MAX_ARRAYS]);
    rows.push(vec![0; MAX_ARRAYS]);
    let mut edges = vec![(0, 1), (RING, 1)];
    edges.extend((1..RING).map(|vertex| (vertex, vertex + 1)));
    edges.extend((1..=RING).map(|vertex| (vertex, vertex + RING)));
    edges.sort_unstable();
    Draft {
        arrays: vec![[INOUT, MAX_VERSIONS as u8, 0, 0]; MAX_ARRAYS],
        rows,
        edges,
    }
}

/// The longest path round the ring: each step but the first copies every array.
pub fn round_the_ring() -> Vec<u16> {
    let mut path = vec![0];
    path.extend((0..4095).map(|index| 1 + index % RING));
    path
}

/// Accepted graphs with counts about powers of two, where a smaller table may end.
fn about_powers_of_two(rng: &mut Rng) -> Vec<Draft> {
    let mut drafts = Vec::new();
    for (vertices, edges) in [([32, 33], [127, 128, 129]), ([128, 129], [511, 512, 513])] {
        for vertices in vertices {
            let size = Size {
                vertices,
                arrays: MAX_ARRAYS,
                versions: 4,
                calls: 0,
            };
            drafts.extend(edges.map(|edges| {
                let mut draft = routines::graph_of(rng, size, edges);
                routines::make_acceptable(rng, &mut draft);
                draft
            }));
        }
    }
    drafts
}

/// Rows of eight arrays that become so many vertices once so many calls are expanded. Vertex 1
/// remaps every array, calls and references follow in any order, and no other row is a label.
fn rows_of_calls(rng: &mut Rng, vertices: usize, calls: usize) -> Draft {
    let arrays = routines::arrays(rng, Size::LARGEST);
    let exit = vertices - 2 * calls - 1;
    let mut rows = vec![vec![0; MAX_ARRAYS]; exit + 1];
    let remaps = |&[_, versions, ..]: &[u8; 4]| remap(routines::any_version(rng, versions));
    rows[1] = arrays.iter().map(remaps).collect();
    let mut calls_left = calls;
    for (vertex, row) in rows.iter_mut().enumerate().take(exit).skip(2) {
        if rng.below(exit - vertex) < calls_left {
            calls_left -= 1;
            *row = routines::call_row(rng, &arrays);
        } else {
            let references = arrays.iter().map(|&[kind, ..]| match kind {
                IN => READ,
                _ => rng.pick(&[0, READ, DEFINE, MODIFY, KILL]),
            });
            *row = references.collect();
        }
    }
    Draft {
        arrays,
        rows,
        edges: Vec::new(),
    }
}

/// A routine that becomes so many vertices and edges once so many calls are expanded. The entry
/// leads to vertex 1 alone, which remaps every array: it is accepted.
fn graph_of_calls(rng: &mut Rng, vertices: usize, calls: usize, edges: usize) -> Draft {
    let mut draft = rows_of_calls(rng, vertices, calls);
    let exit = draft.rows.len() - 1;
    let mut list: Vec<(u16, u16)> = (0..exit as u16)
        .map(|vertex| (vertex, vertex + 1))
        .collect();
    while list.len() < edges - 2 * calls {
        let edge = (rng.between(1, exit - 1) as u16, rng.between(1, exit) as u16);
        if let Err(place) = list.binary_search(&edge) {
            list.insert(place, edge);
        }
    }
    draft.edges = list;
    routines::make_acceptable(rng, &mut draft);
    draft
}

/// 88 vertices, of which 84 are calls, and 1,024 edges: 256 and 1,192 once they are expanded.
pub fn most_calls(rng: &mut Rng) -> Draft {
    graph_of_calls(rng, MAX_VERTICES, MAX_CALLS, MAX_EXPANDED_EDGES)
}

/// The same counts, and a row of references with an edge to itself: `longest_stay` has the longest
/// report.
pub fn longest_report() -> Draft {
    let vertices = MAX_VERTICES - 2 * MAX_CALLS;
    let mut rows = vec![vec![0; MAX_ARRAYS]; vertices];
    rows[1].fill(MODIFY);
    for row in &mut rows[2..2 + MAX_CALLS] {
        row.fill(call_in(1));
    }
    let mut edges = vec![(0, 1), (1, 1)];
    let exit = vertices as u16 - 1;
    let more = (2..exit).flat_map(|from| (1..=exit).map(move |to| (from, to)));
    edges.extend(more.take(MAX_EDGES - edges.len()));
    Draft {
        arrays: vec![[INOUT, 2, 0, 0]; MAX_ARRAYS],
        rows,
        edges,
    }
}

/// The longest path of `longest_report`, which passes one edge all the time.
pub fn longest_stay() -> Vec<u16> {
    let mut path = vec![1; MAX_PATH];
    path[0] = 0;
    path
}

/// Routines with calls that have a count at its limit, or about one where a smaller table may end,
/// once the calls are expanded; each is well formed.
fn calls_at_limits(rng: &mut Rng) -> Vec<Draft> {
    let counts = [
        (MAX_VERTICES, MAX_CALLS, MAX_EXPANDED_EDGES),
        (MAX_VERTICES, MAX_CALLS, MAX_EXPANDED_EDGES - 1),
        (MAX_VERTICES, MAX_CALLS, 300),
        (MAX_VERTICES - 1, MAX_CALLS, MAX_EXPANDED_EDGES),
        (MAX_VERTICES, 1, MAX_EDGES + 2),
        (MAX_VERTICES, 40, MAX_EDGES - 1),
        (MAX_VERTICES, 40, MAX_EDGES),
        (MAX_VERTICES, 40, MAX_EDGES + 1),
        (32, 8, 127),
        (32, 8, 128),
        (32, 8, 129),
        (33, 8, 127),
        (33, 8, 128),
        (33, 8, 129),
        (34, 10, 128),
    ];
    let graphs = counts.map(|(vertices, calls, edges)| graph_of_calls(rng, vertices, calls, edges));
    let mut drafts = graphs.to_vec();
    // No path gets to any of the calls.
    let mut unreached = drafts[0].clone();
    unreached.edges.remove(0);
    drafts.push(unreached);
    // Calls in a row, numbered along the path and against it.
    let mut chain = rows_of_calls(rng, MAX_VERTICES, MAX_CALLS);
    let exit = chain.rows.len() as u16 - 1;
    chain.edges = (0..exit).map(|vertex| (vertex, vertex + 1)).collect();
    routines::make_acceptable(rng, &mut chain);
    drafts.push(chain.clone());
    chain.edges = (2..exit).map(|vertex| (vertex, vertex - 1)).collect();
    chain.edges.extend([(0, exit - 1), (1, exit)]);
    chain.edges.sort_unstable();
    drafts.push(chain);
    // As drawn, nearly all rows are calls.
    let size = Size {
        calls: 98,
        ..Size::LARGEST
    };
    let mut draft = routines::graph_of(rng, size, MAX_EDGES);
    drafts.push(draft.clone());
    routines::make_acceptable(rng, &mut draft);
    drafts.push(draft);
    drafts
}

/// Routines with more than 256 vertices once their calls are expanded: 257, with the most calls and
/// with one; 258; and the most.
fn too_many_calls() -> [Draft; 4] {
    [(87, 85), (255, 1), (256, 1), (256, 254)].map(|(vertices, calls)| {
        let mut actions = vec![READ; vertices - 2];
        actions[..calls].fill(call_in(1));
        Draft::chain(LOCAL, 2, 0, &actions)
    })
}

/// Routines with a count at its limit; each is well formed.
pub fn at_limits(rng: &mut Rng) -> Vec<Draft> {
    let mut drafts = vec![
        Draft::one_array(LOCAL, 1, 0, &[], &[]),
        Draft::one_array(INOUT, 16, 15, &[], &[(0, 1)]),
        Draft::one_array(INOUT, 17, 16, &[], &[(0, 1)]),
        Draft::one_array(INOUT, 32, 31, &[], &[(0, 1)]),
        most_versions(),
        largest_plan(),
        largest_report(),
        largest_with_kills(),
        chain_from_entry(),
        chain_both_ways(),
        ring_of_labels(),
        longest_report(),
    ];
    drafts.extend(about_powers_of_two(rng));
    for versions in [16, MAX_VERSIONS] {
        let mut draft = backward_chain(rng, versions);
        drafts.push(draft.clone());
        routines::make_acceptable(rng, &mut draft);
        drafts.push(draft);
        let mut draft = zigzag_chain(rng, versions);
        routines::make_acceptable(rng, &mut draft);
        drafts.push(draft);
        let mut draft = dense(rng, versions);
        drafts.push(draft.clone());
        routines::make_acceptable(rng, &mut draft);
        drafts.push(draft);
        for calls in [0, 40] {
            let size = Size {
                versions,
                calls,
                ..Size::LARGEST
            };
            let mut draft = routines::program(rng, size);
            routines::make_acceptable(rng, &mut draft);
            drafts.push(draft);
        }
    }
    drafts.extend(calls_at_limits(rng));
    drafts
}

/// Routines with one count beyond its limit, or one too few.
pub fn beyond_limits() -> Vec<Draft> {
    let plain = Draft::chain(LOCAL, 2, 0, &[READ, remap(1), READ]);
    let with = |change: &dyn Fn(&mut Draft)| {
        let mut draft = plain.clone();
        change(&mut draft);
        draft
    };
    let mut drafts = vec![
        with(&|draft| {
            draft.arrays.clear();
            draft.rows.iter_mut().for_each(Vec::clear);
        }),
        with(&|draft| {
            draft.arrays = vec![[LOCAL, 1, 0, 0]; MAX_ARRAYS + 1];
            draft.rows = vec![vec![0; MAX_ARRAYS + 1]; 5];
        }),
        with(&|draft| {
            draft.rows.clear();
            draft.edges.clear();
        }),
        with(&|draft| {
            draft.rows.truncate(1);
            draft.edges.clear();
        }),
        with(&|draft| draft.rows.resize(MAX_VERTICES + 1, vec![0])),
        with(&|draft| {
            draft.rows = vec![vec![0]; MAX_VERTICES];
            let all = (0..255).flat_map(|from| (1..=255).map(move |to| (from, to)));
            draft.edges = all.take(MAX_EDGES + 1).collect();
        }),
        with(&|draft| draft.arrays[0][1] = MAX_VERSIONS as u8 + 1),
    ];
    drafts.extend(too_many_calls());
    drafts
}
