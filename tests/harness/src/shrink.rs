//! Makes an input small while library and oracle still differ on it.

mod directives;
mod routines;

use crate::library::Input;

/// So many bytes of smaller inputs are tried at most.
const BUDGET: usize = 50_000_000;

/// Panics with a small input and the reason if what is asked of an input does not hold; `name`
/// says where the input comes from.
pub fn demand(name: &str, input: Input, holds: &dyn Fn(&Input) -> Result<(), String>) {
    if let Err(reason) = holds(&input) {
        let small = shrink(input, &|input| holds(input).is_err());
        let reason = holds(&small).err().unwrap_or(reason);
        panic!("{name}: {reason}\n{small}");
    }
}

/// A small input that still fails, from one that fails.
pub fn shrink(input: Input, fails: &dyn Fn(&Input) -> bool) -> Input {
    match input {
        Input::Plan { .. } | Input::Run { .. } | Input::Rounds { .. } => {
            routines::shrink(input, fails)
        }
        Input::Convert { .. } | Input::ConvertAndRun { .. } => directives::shrink(input, fails),
    }
}

/// An input in parts. A file whose parts do not fit together stays bytes.
trait Parts: Clone {
    type Step: Clone + PartialEq;

    fn input(&self) -> Input;

    /// The steps of a path; none without one.
    fn path(&mut self) -> Option<&mut Vec<Self::Step>>;

    /// The file that stays bytes.
    fn bytes(&mut self) -> Option<&mut Vec<u8>>;
}

struct Shrinker<'a, P> {
    fails: &'a dyn Fn(&Input) -> bool,
    best: P,
    tried: usize,
    smaller: bool,
}

impl<'a, P: Parts> Shrinker<'a, P> {
    fn new(best: P, fails: &'a dyn Fn(&Input) -> bool) -> Shrinker<'a, P> {
        Shrinker {
            fails,
            best,
            tried: 0,
            smaller: true,
        }
    }

    /// Takes turns until one leaves the input as it is.
    fn repeat(&mut self, turn: impl Fn(&mut Self)) {
        while self.smaller {
            self.smaller = false;
            turn(self);
        }
    }

    /// Takes a changed copy if it differs from the best and still fails.
    fn attempt(&mut self, change: impl FnOnce(&mut P)) -> bool {
        let mut parts = self.best.clone();
        change(&mut parts);
        let input = parts.input();
        if self.tried > BUDGET || input == self.best.input() {
            return false;
        }
        self.tried += input.file().len() + input.path().map_or(0, <[u8]>::len);
        let taken = (self.fails)(&input);
        if taken {
            self.best = parts;
            self.smaller = true;
        }
        taken
    }

    fn path(&mut self) -> Vec<P::Step> {
        self.best.path().cloned().unwrap_or_default()
    }

    /// Shorter and shorter, by halves of the length at first.
    fn cut(&mut self, length: impl Fn(&mut P) -> usize, truncate: impl Fn(&mut P, usize)) {
        let mut cut = length(&mut self.best);
        while cut > 0 {
            let shorter = length(&mut self.best).saturating_sub(cut);
            if !self.attempt(|parts| truncate(parts, shorter)) {
                cut /= 2;
            }
        }
    }

    fn cut_path(&mut self) {
        self.cut(
            |parts| parts.path().map_or(0, |path| path.len()),
            |parts, length| {
                if let Some(path) = parts.path() {
                    path.truncate(length);
                }
            },
        );
    }

    /// Takes out what lies between two visits of a vertex: up to the last, the middle and
    /// the next visit; also single vertices.
    fn drop_loops(&mut self) {
        let mut start = 0;
        while start < self.path().len() && self.tried <= BUDGET {
            let path = self.path();
            let visits: Vec<usize> = (start + 1..path.len())
                .filter(|&later| path[later] == path[start])
                .collect();
            let ends = [
                visits.last(),
                visits.get(visits.len() / 2),
                visits.first(),
                Some(&(start + 1)),
            ];
            for &end in ends.into_iter().flatten() {
                let taken = self.attempt(|parts| {
                    if let Some(path) = parts.path() {
                        path.drain(start..end);
                    }
                });
                if taken {
                    break;
                }
            }
            start += 1;
        }
    }

    /// A file whose parts do not fit together: fewer bytes, and zeros.
    fn cut_bytes(&mut self) {
        let length = |parts: &mut P| parts.bytes().map_or(0, |bytes| bytes.len());
        self.cut(length, |parts, length| {
            if let Some(bytes) = parts.bytes() {
                bytes.truncate(length);
            }
        });
        for place in 0..length(&mut self.best) {
            self.attempt(|parts| {
                if let Some(bytes) = parts.bytes() {
                    bytes[place] = 0;
                }
            });
        }
    }

    /// Takes out edges, many at once at first.
    fn drop_edges(&mut self, edges: impl Fn(&mut P) -> Option<&mut Edges>) {
        let count = |shrinker: &mut Self| edges(&mut shrinker.best).map_or(0, |edges| edges.len());
        let mut size = count(self);
        while size > 0 {
            let mut first = 0;
            while first < count(self) {
                let end = count(self).min(first + size);
                let taken = self.attempt(|parts| {
                    if let Some(edges) = edges(parts) {
                        edges.drain(first..end);
                    }
                });
                if !taken {
                    first += size;
                }
            }
            size /= 2;
        }
    }
}

type Edges = Vec<(u16, u16)>;

/// The number of a vertex after `dropped` is gone.
fn renumbered(vertex: u16, dropped: u16) -> u16 {
    if vertex > dropped { vertex - 1 } else { vertex }
}

/// Takes out the exit; the vertex before it becomes the exit, and does nothing.
fn drop_exit<Row>(rows: &mut Vec<Row>, edges: &mut Edges, nothing: Row) {
    let exit = rows.len().saturating_sub(2);
    rows.truncate(exit + 1);
    if let Some(row) = rows.last_mut() {
        *row = nothing;
    }
    let is_left = |vertex: u16| usize::from(vertex) <= exit;
    edges.retain(|&(from, to)| usize::from(from) != exit && is_left(from) && is_left(to));
}

/// Takes out a vertex; `bypass` joins the vertices before it with those after it.
fn drop_vertex<Row>(rows: &mut Vec<Row>, edges: &mut Edges, vertex: u16, bypass: bool) {
    if bypass {
        let mut past = Vec::new();
        for &(from, to) in edges.iter() {
            if to == vertex && from != vertex {
                let after = edges.iter().filter(|edge| edge.0 == vertex);
                past.extend(after.map(|edge| (from, edge.1)));
            }
        }
        edges.extend(past);
        edges.sort_unstable();
        edges.dedup();
    }
    edges.retain(|&(from, to)| from != vertex && to != vertex);
    for (from, to) in edges {
        *from = renumbered(*from, vertex);
        *to = renumbered(*to, vertex);
    }
    rows.remove(usize::from(vertex));
}
