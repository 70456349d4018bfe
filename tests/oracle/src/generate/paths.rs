//! Random paths along the edges of a routine whose calls are expanded, and damaged ones.

use super::rng::Rng;
use crate::builder::{Draft, path_bytes};
use crate::calls::Part;
use crate::run::MAX_PATH;

/// How long a path may become: mostly short, sometimes up to the limit.
fn any_length(rng: &mut Rng) -> usize {
    match rng.below(20) {
        0 | 1 => rng.between(1, 8),
        2..=9 => rng.between(8, 40),
        10..=17 => rng.between(40, 200),
        18 => rng.between(200, 1000),
        _ => rng.between(1000, MAX_PATH),
    }
}

/// A path from the entry of any length.
pub fn any(rng: &mut Rng, draft: &Draft) -> Vec<u16> {
    let wanted = any_length(rng);
    walk(rng, draft, wanted)
}

/// A path from the entry to the exit, if there is one: it may end elsewhere all the same, but
/// seldom does.
pub fn to_exit(rng: &mut Rng, draft: &Draft) -> Vec<u16> {
    let wanted = any_length(rng);
    follow(rng, draft, wanted, true)
}

/// A path that ends inside a call, if it meets one: after its first vertex or after its second.
pub fn into_call(rng: &mut Rng, draft: &Draft) -> Vec<u16> {
    let mut path = any(rng, draft);
    let places = draft.places();
    let is_before = |&index: &usize| places[usize::from(path[index])].part == Part::Before;
    let calls: Vec<usize> = (0..path.len()).filter(is_before).collect();
    if !calls.is_empty() {
        let inside = usize::from(rng.chance(50));
        path.truncate(rng.pick(&calls) + 1 + inside);
    }
    path
}

/// A path from the entry. It keeps away from dead ends until it has the wanted length, if
/// it can; then it stops, or takes a shortest way to the exit.
pub fn walk(rng: &mut Rng, draft: &Draft, wanted: usize) -> Vec<u16> {
    let homewards = rng.chance(60);
    follow(rng, draft, wanted, homewards)
}

/// The same; `homewards` says that it is to go on to the exit.
fn follow(rng: &mut Rng, draft: &Draft, wanted: usize, homewards: bool) -> Vec<u16> {
    let draft = &draft.expanded();
    let successors = draft.successors();
    let distances = distances_to_exit(draft);
    let mut path = vec![0];
    while path.len() < MAX_PATH {
        let here = usize::from(path[path.len() - 1]);
        let long_enough = path.len() >= wanted;
        let goes_on = |&&next: &&u16| {
            let next = usize::from(next);
            if long_enough {
                homewards && distances[next] < distances[here]
            } else {
                !successors[next].is_empty() && (!homewards || distances[next] != usize::MAX)
            }
        };
        let mut ways: Vec<u16> = successors[here].iter().filter(goes_on).copied().collect();
        if !long_enough && (ways.is_empty() || rng.chance(1)) {
            ways.clone_from(&successors[here]);
        }
        if ways.is_empty() {
            break;
        }
        path.push(rng.pick(&ways));
    }
    path
}

/// For each vertex the number of edges on a shortest path to the exit; the largest number
/// where there is none.
fn distances_to_exit(draft: &Draft) -> Vec<usize> {
    let mut distances = vec![usize::MAX; draft.rows.len()];
    distances[draft.rows.len() - 1] = 0;
    for distance in 0..draft.rows.len() {
        for &(from, to) in &draft.edges {
            if distances[usize::from(to)] == distance {
                let here = &mut distances[usize::from(from)];
                *here = (*here).min(distance + 1);
            }
        }
    }
    distances
}

/// A path with a fault, or with an odd last byte, which is none.
pub fn damaged(rng: &mut Rng, draft: &Draft) -> Vec<u8> {
    let wanted = rng.between(1, 20);
    let mut path = walk(rng, draft, wanted);
    let place = rng.below(path.len());
    let vertices = draft.places().len();
    let any_vertex = |rng: &mut Rng| rng.below(vertices + 2) as u16;
    match rng.below(9) {
        0 => path.clear(),
        1 => path.resize(rng.between(MAX_PATH + 1, MAX_PATH + 9), 0),
        2 => path[0] = any_vertex(rng),
        3 => path[place] = any_vertex(rng),
        4 => path[place] ^= 1 << rng.between(8, 15),
        5 => path.push(any_vertex(rng)),
        6 => {
            path.remove(place);
        }
        7 => path.insert(place, any_vertex(rng)),
        _ => {}
    }
    let mut bytes = path_bytes(&path);
    if rng.chance(30) {
        bytes.push(rng.byte());
    }
    bytes
}
