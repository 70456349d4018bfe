//! The label rules as data flow, for speed: all arrays at once, tables on the stack. A version set
//! has 16 bits where no array has more versions, so that those of eight arrays are one word; else it
//! has 32, and they are two.
//!
//! Three sweeps over the edges: use (against the edges), last versions and reaching (along
//! them, from the entry), kept sets (against them). A sweep takes up a vertex again only
//! when something it depends on has changed. Programs are mostly numbered forwards, so
//! a sweep along the edges takes vertices by rising number, one against them by falling.
//!
//! A routine with calls is swept along the edges once before, for 20, 21 and the versions back;
//! then its calls are expanded.

use super::{Label, Labels, Use};
use crate::calls::{self, Room};
use crate::outcome::Refusal;
use crate::routine::{Array, Kind, MAX_ARRAYS, MAX_EXPANDED_EDGES, MAX_VERTICES, Routine, Set};
use std::ops::{BitAnd, BitOr, BitOrAssign, Not};

/// A version set for each array.
pub trait Sets:
    Copy + PartialEq + BitOr<Output = Self> + BitAnd<Output = Self> + BitOrAssign + Not<Output = Self>
{
    const NONE: Self;

    /// A version of one array alone.
    fn only(array: usize, version: u8) -> Self;

    /// The set of one array.
    fn set_of(self, array: usize) -> Set;

    /// All versions of some arrays.
    fn all_of(arrays: Arrays) -> Self;
}

/// Sets of 16 bits.
pub type Narrow = u128;

impl Sets for Narrow {
    const NONE: Narrow = 0;

    #[inline(always)]
    fn only(array: usize, version: u8) -> Narrow {
        Narrow::from(1u16 << version) << (16 * array)
    }

    #[inline(always)]
    fn set_of(self, array: usize) -> Set {
        Set::from((self >> (16 * array)) as u16)
    }

    #[inline(always)]
    fn all_of(arrays: Arrays) -> Narrow {
        const ALL_OF: [Narrow; 256] = {
            let mut table = [0; 256];
            let mut bits = 0;
            while bits < 8 * 256 {
                let (arrays, array) = (bits / 8, bits % 8);
                if arrays >> array & 1 == 1 {
                    table[arrays] |= 0xffff << (16 * array);
                }
                bits += 1;
            }
            table
        };
        ALL_OF[usize::from(arrays)]
    }
}

/// Sets of 32 bits: the versions below 16, and the others.
#[derive(Clone, Copy, PartialEq, Eq)]
pub struct Wide {
    low: Narrow,
    high: Narrow,
}

impl BitOr for Wide {
    type Output = Wide;

    #[inline(always)]
    fn bitor(self, other: Wide) -> Wide {
        Wide {
            low: self.low | other.low,
            high: self.high | other.high,
        }
    }
}

impl BitAnd for Wide {
    type Output = Wide;

    #[inline(always)]
    fn bitand(self, other: Wide) -> Wide {
        Wide {
            low: self.low & other.low,
            high: self.high & other.high,
        }
    }
}

impl BitOrAssign for Wide {
    #[inline(always)]
    fn bitor_assign(&mut self, other: Wide) {
        *self = *self | other;
    }
}

impl Not for Wide {
    type Output = Wide;

    #[inline(always)]
    fn not(self) -> Wide {
        Wide {
            low: !self.low,
            high: !self.high,
        }
    }
}

impl Sets for Wide {
    const NONE: Wide = Wide { low: 0, high: 0 };

    #[inline(always)]
    fn only(array: usize, version: u8) -> Wide {
        let half = Narrow::only(array, version % 16);
        match version {
            0..16 => Wide { low: half, high: 0 },
            _ => Wide { low: 0, high: half },
        }
    }

    #[inline(always)]
    fn set_of(self, array: usize) -> Set {
        self.low.set_of(array) | self.high.set_of(array) << 16
    }

    #[inline(always)]
    fn all_of(arrays: Arrays) -> Wide {
        let all = Narrow::all_of(arrays);
        Wide {
            low: all,
            high: all,
        }
    }
}

/// One bit for each array.
type Arrays = u8;

#[inline(always)]
fn members(mut arrays: Arrays) -> impl Iterator<Item = usize> {
    std::iter::from_fn(move || {
        let array = (arrays != 0).then(|| arrays.trailing_zeros() as usize)?;
        arrays &= arrays - 1;
        Some(array)
    })
}

/// A set of vertices.
#[derive(Clone, Copy)]
struct Vertices([u64; MAX_VERTICES / 64]);

impl Vertices {
    const EMPTY: Vertices = Vertices([0; MAX_VERTICES / 64]);

    fn below(count: usize) -> Vertices {
        let mut all = Vertices::EMPTY;
        for (index, word) in all.0.iter_mut().enumerate() {
            let here = count.saturating_sub(64 * index).min(64);
            *word = if here == 64 { !0 } else { (1 << here) - 1 };
        }
        all
    }

    #[inline(always)]
    fn insert(&mut self, vertex: usize) {
        self.0[vertex / 64] |= 1 << (vertex % 64);
    }

    #[inline(always)]
    fn contains(&self, vertex: usize) -> bool {
        self.0[vertex / 64] >> (vertex % 64) & 1 == 1
    }

    #[inline(always)]
    fn add_all(&mut self, other: &Vertices) {
        for (word, more) in self.0.iter_mut().zip(other.0) {
            *word |= more;
        }
    }

    fn is_empty(&self) -> bool {
        self.0 == [0; MAX_VERTICES / 64]
    }

    /// Takes out the members by rising number, with those put in meanwhile above.
    #[inline(always)]
    fn take_rising(&mut self, mut take: impl FnMut(&mut Vertices, usize)) {
        for index in 0..self.0.len() {
            let mut left = !0;
            while self.0[index] & left != 0 {
                let bit = (self.0[index] & left).trailing_zeros();
                self.0[index] &= !(1 << bit);
                left = !1u64 << bit;
                take(self, 64 * index + bit as usize);
            }
        }
    }

    /// Takes out the members by falling number, with those put in meanwhile below.
    #[inline(always)]
    fn take_falling(&mut self, mut take: impl FnMut(&mut Vertices, usize)) {
        for index in (0..self.0.len()).rev() {
            let mut left = !0;
            while self.0[index] & left != 0 {
                let bit = 63 - (self.0[index] & left).leading_zeros();
                self.0[index] &= !(1 << bit);
                left = (1 << bit) - 1;
                take(self, 64 * index + bit as usize);
            }
        }
    }
}

/// The edges by start and by end.
struct Graph {
    vertices: usize,
    first: [u16; MAX_VERTICES + 1],
    to: [u8; MAX_EXPANDED_EDGES],
    before: [Vertices; MAX_VERTICES],
}

impl Graph {
    fn new(routine: &Routine) -> Graph {
        let mut graph = Graph {
            vertices: routine.vertex_count(),
            first: [0; MAX_VERTICES + 1],
            to: [0; MAX_EXPANDED_EDGES],
            before: [Vertices::EMPTY; MAX_VERTICES],
        };
        for (index, (from, to)) in routine.edges().enumerate() {
            graph.first[from + 1] = index as u16 + 1;
            graph.to[index] = to as u8;
            graph.before[to].insert(from);
        }
        for vertex in 0..graph.vertices {
            graph.first[vertex + 1] = graph.first[vertex + 1].max(graph.first[vertex]);
        }
        graph
    }

    #[inline(always)]
    fn successors(&self, vertex: usize) -> &[u8] {
        &self.to[usize::from(self.first[vertex])..usize::from(self.first[vertex + 1])]
    }
}

/// What a segment meets, for each array: a reference, a define or modify, and a read,
/// modify or next label without a define before it. Eight bits each.
type Meets = u32;

fn meets(reference: Arrays, change: Arrays, old_value: Arrays) -> Meets {
    Meets::from_le_bytes([reference, change, old_value, 0])
}

/// Up to eight bytes as a word.
#[inline(always)]
fn word(bytes: &[u8]) -> u64 {
    let mut eight = [0; MAX_ARRAYS];
    eight[..bytes.len()].copy_from_slice(bytes);
    u64::from_le_bytes(eight)
}

/// One bit of every byte, brought together by the product into its highest byte.
#[inline(always)]
fn gather(word: u64, bit: u32) -> Arrays {
    let bits = word >> bit & 0x0101_0101_0101_0101;
    (bits.wrapping_mul(0x0102_0408_1020_4080) >> 56) as Arrays
}

/// What one vertex does with the arrays.
#[derive(Clone, Copy)]
struct Row<S> {
    /// The version of each label, as a set of one; empty without a label.
    version: S,
    labels: Arrays,
    /// References, and what is passed to a call.
    references: Arrays,
    /// All references but reads, and what is passed as out or inout.
    changes: Arrays,
    /// Kept labels.
    kept: Arrays,
    /// D and W labels.
    closed: Arrays,
    /// What a segment meets here.
    here: Meets,
    /// What a segment no longer meets after this vertex.
    stops: Meets,
    /// What the segments from here meet.
    ahead: Meets,
}

impl<S: Sets> Row<S> {
    const EMPTY: Row<S> = Row {
        version: S::NONE,
        labels: 0,
        references: 0,
        changes: 0,
        kept: 0,
        closed: 0,
        here: 0,
        stops: 0,
        ahead: 0,
    };

    /// The row of up to eight action bytes, none of which is a call: reads and modifies have bit
    /// 4, defines and modifies bit 5, remappings bit 6, kills, which are defines too, bit 7. The bits
    /// below 5 of a remapping are its version.
    #[inline(always)]
    fn of_actions(bytes: &[u8]) -> Row<S> {
        let word = word(bytes);
        let labels = gather(word, 6);
        let sees = gather(word, 4) & !labels;
        let changes = gather(word | word >> 2, 5);
        let mut version = S::NONE;
        for array in members(labels) {
            version |= S::only(array, bytes[array] & 31);
        }
        Row {
            version,
            labels,
            references: sees | changes,
            changes,
            here: meets(sees | changes, changes, sees | labels),
            stops: meets(labels, labels, labels | changes & !sees),
            ..Row::EMPTY
        }
    }

    /// The row of up to eight action bytes of a file. Calls have two of the bits 5, 6 and 7, those
    /// with intent out and inout bit 7; nothing else has two.
    fn of_file(bytes: &[u8]) -> Row<S> {
        let word = word(bytes);
        let (low, high, change) = (gather(word, 5), gather(word, 6), gather(word, 7));
        if low & high | change & (low | high) == 0 {
            return Row::of_actions(bytes);
        }
        Row {
            references: low | high,
            changes: change,
            ..Row::EMPTY
        }
    }

    /// The row of a vertex that labels some arrays with their initial versions.
    fn of_labels(labels: Arrays, initial: S) -> Row<S> {
        Row {
            version: initial & S::all_of(labels),
            labels,
            here: meets(0, 0, labels),
            stops: meets(labels, labels, labels),
            ..Row::EMPTY
        }
    }

    /// **Use** of an array's label.
    #[inline(always)]
    fn letter(&self, array: usize) -> Use {
        let [reference, change, old_value, _] =
            self.ahead.to_le_bytes().map(|arrays| arrays >> array & 1);
        match (reference, old_value, change) {
            (0, ..) => Use::N,
            (_, 0, _) => Use::D,
            (.., 0) => Use::R,
            _ => Use::W,
        }
    }
}

/// The labels of a routine, in sets that are wide enough. The tables can be used for one routine
/// after the other.
pub struct Solved<S> {
    rows: [Row<S>; MAX_VERTICES],
    /// Versions of the last label on paths from the entry, dropped ones included.
    last: [S; MAX_VERTICES],
    reaching: [S; MAX_VERTICES],
    kept: [S; MAX_VERTICES],
}

impl<S: Sets> Solved<S> {
    /// Tables with nothing in them.
    pub const EMPTY: Solved<S> = Solved {
        rows: [Row::EMPTY; MAX_VERTICES],
        last: [S::NONE; MAX_VERTICES],
        reaching: [S::NONE; MAX_VERTICES],
        kept: [S::NONE; MAX_VERTICES],
    };

    /// Reads the action bytes, the entry's labels and the exit's.
    #[inline(always)]
    fn read_rows(&mut self, routine: &Routine, of_bytes: impl Fn(&[u8]) -> Row<S>) {
        let bytes = routine.action_bytes().chunks_exact(routine.array_count());
        for (row, bytes) in self.rows.iter_mut().zip(bytes) {
            *row = of_bytes(bytes);
        }
        let initial = initial_versions(routine);
        let all = arrays(routine, |_| true);
        let home = arrays(routine, |array| array.kind.is_out_or_inout());
        self.rows[0] = Row::of_labels(all, initial);
        self.rows[routine.exit()] = Row::of_labels(home, initial);
    }

    /// **Use**: what the segments meet, against the edges.
    fn find_letters(&mut self, graph: &Graph) {
        let rows = &mut self.rows[..graph.vertices];
        let mut arriving = [0; MAX_VERTICES];
        for (met, row) in arriving.iter_mut().zip(rows.iter()) {
            *met = row.here;
        }
        let mut open = Vertices::below(graph.vertices);
        while !open.is_empty() {
            open.take_falling(|open, vertex| {
                let mut ahead = 0;
                for &next in graph.successors(vertex) {
                    ahead |= arriving[usize::from(next)];
                }
                let row = &mut rows[vertex];
                row.ahead = ahead;
                let met = row.here | ahead & !row.stops;
                if met != arriving[vertex] {
                    arriving[vertex] = met;
                    open.add_all(&graph.before[vertex]);
                }
            });
        }
        // At the exit W for out and inout, which alone have a label there.
        rows[graph.vertices - 1].ahead = meets(!0, !0, !0);
        for row in rows {
            let [reference, change, old_value, _] = row.ahead.to_le_bytes();
            row.kept = row.labels & reference;
            row.closed = row.kept & (change | !old_value);
        }
    }

    /// Last versions and **reaching**: along the edges, from the entry.
    fn find_arriving(&mut self, routine: &Routine, graph: &Graph) {
        self.last[..graph.vertices].fill(S::NONE);
        self.reaching[..graph.vertices].fill(S::NONE);
        let brought = arrays(routine, |array| array.kind.brings_value());
        self.reaching[0] = self.rows[0].version & S::all_of(brought);
        let mut reached = Vertices::EMPTY;
        let mut open = Vertices::EMPTY;
        open.insert(0);
        while !open.is_empty() {
            open.take_rising(|open, vertex| {
                let row = &self.rows[vertex];
                let kept = S::all_of(row.kept);
                let last = row.version | self.last[vertex] & !S::all_of(row.labels);
                let reaching = row.version & kept | self.reaching[vertex] & !kept;
                for &next in graph.successors(vertex) {
                    let next = usize::from(next);
                    let new = last & !self.last[next] | reaching & !self.reaching[next];
                    if new != S::NONE || !reached.contains(next) {
                        self.last[next] |= last;
                        self.reaching[next] |= reaching;
                        reached.insert(next);
                        open.insert(next);
                    }
                }
            });
        }
    }

    /// **Kept set**: against the edges, through all labels but D and W.
    fn find_kept(&mut self, graph: &Graph) {
        for (kept, row) in self.kept.iter_mut().zip(&self.rows[..graph.vertices]) {
            *kept = row.version & S::all_of(row.kept);
        }
        let mut open = Vertices::below(graph.vertices);
        while !open.is_empty() {
            open.take_falling(|open, vertex| {
                let mut ahead = S::NONE;
                for &next in graph.successors(vertex) {
                    ahead |= self.kept[usize::from(next)];
                }
                let all = self.kept[vertex] | ahead & !S::all_of(self.rows[vertex].closed);
                if all != self.kept[vertex] {
                    self.kept[vertex] = all;
                    open.add_all(&graph.before[vertex]);
                }
            });
        }
    }

    /// The first change of an in argument, by vertex, then array.
    fn refusal_20(&self, routine: &Routine) -> Option<Refusal> {
        let ins = arrays(routine, |array| array.kind == Kind::In);
        let mut rows = self.rows[..routine.vertex_count()].iter();
        let vertex = rows.position(|row| row.changes & ins != 0)?;
        let array = (self.rows[vertex].changes & ins).trailing_zeros();
        Some(Refusal::at_two(20, vertex, array as usize))
    }

    /// The ambiguous references and calls, by vertex, then array.
    fn ambiguous(&self, file: &Routine) -> impl Iterator<Item = (usize, usize)> {
        (0..file.vertex_count()).flat_map(move |vertex| {
            let last = self.last[vertex];
            members(self.rows[vertex].references)
                .filter(move |&array| last.set_of(array).count_ones() > 1)
                .map(move |array| (vertex, array))
        })
    }

    /// Works out the labels of a routine without calls, refused by 20 and 21 or not.
    pub fn solve(&mut self, routine: &Routine) {
        let graph = Graph::new(routine);
        self.read_rows(routine, Row::of_actions);
        self.find_letters(&graph);
        self.find_arriving(routine, &graph);
        self.find_kept(&graph);
    }

    /// Works out the last versions in a file's routine alone: its rows have no letters yet.
    fn arrive(&mut self, file: &Routine) {
        self.read_rows(file, Row::of_file);
        self.find_arriving(file, &Graph::new(file));
    }

    fn refusal(&self, file: &Routine) -> Option<Refusal> {
        let refusal = self.refusal_20(file);
        refusal.or_else(|| {
            let (vertex, array) = self.ambiguous(file).next()?;
            Some(Refusal::at_two(21, vertex, array))
        })
    }

    /// A file's routine with its calls expanded, by the last versions that were worked out.
    fn expanded<'a>(&self, file: &Routine<'a>, room: &'a mut Room) -> Routine<'a> {
        calls::expanded(file, |vertex, array| self.last[vertex].set_of(array), room)
    }

    /// Works out the labels of a file's routine with its calls expanded, and gives that, or refusal
    /// 20 or 21. The labels of a refused routine without calls are worked out too.
    pub fn accept<'a>(
        &mut self,
        file: &Routine<'a>,
        room: &'a mut Room,
    ) -> Result<Routine<'a>, Refusal> {
        let has_calls = file.call_count() > 0;
        if has_calls {
            self.arrive(file);
        } else {
            self.solve(file);
        }
        if let Some(refusal) = self.refusal(file) {
            return Err(refusal);
        }
        let routine = self.expanded(file, room);
        if has_calls {
            self.solve(&routine);
        }
        Ok(routine)
    }
}

impl<S: Sets> Labels for Solved<S> {
    #[inline(always)]
    fn at(&self, vertex: usize) -> impl Iterator<Item = (usize, Label)> {
        let row = &self.rows[vertex];
        let reaching = self.reaching[vertex];
        let kept = self.kept[vertex];
        members(row.labels).map(move |array| {
            let label = Label {
                letter: row.letter(array),
                version: row.version.set_of(array).trailing_zeros() as u8,
                reaching: reaching.set_of(array),
                kept: kept.set_of(array),
            };
            (array, label)
        })
    }
}

/// The arrays that pass a test.
fn arrays(routine: &Routine, test: impl Fn(Array) -> bool) -> Arrays {
    let bits = routine.arrays().enumerate();
    bits.fold(0, |bits, (index, array)| {
        bits | Arrays::from(test(array)) << index
    })
}

fn initial_versions<S: Sets>(routine: &Routine) -> S {
    let arrays = routine.arrays().enumerate();
    arrays.fold(S::NONE, |sets, (index, array)| {
        sets | S::only(index, array.initial)
    })
}

/// The labels of every array of a routine without calls, by array, then vertex.
pub fn labels(routine: &Routine) -> Vec<Vec<Option<Label>>> {
    match routine.is_wide() {
        false => labels_with::<Narrow>(routine),
        true => labels_with::<Wide>(routine),
    }
}

fn labels_with<S: Sets>(routine: &Routine) -> Vec<Vec<Option<Label>>> {
    let mut solved = Solved::<S>::EMPTY;
    solved.solve(routine);
    let label = |vertex, array| {
        let mut labels = solved.at(vertex);
        labels.find_map(|(other, label)| (other == array).then_some(label))
    };
    let vertices = 0..routine.vertex_count();
    (0..routine.array_count())
        .map(|array| {
            vertices
                .clone()
                .map(|vertex| label(vertex, array))
                .collect()
        })
        .collect()
}

/// Refusal 20 or 21 of a file's routine, if there is one.
pub fn refusal(file: &Routine) -> Option<Refusal> {
    match file.is_wide() {
        false => refusal_with::<Narrow>(file),
        true => refusal_with::<Wide>(file),
    }
}

fn refusal_with<S: Sets>(file: &Routine) -> Option<Refusal> {
    let mut solved = Solved::<S>::EMPTY;
    solved.arrive(file);
    solved.refusal(file)
}

/// The ambiguous references and calls of a file's routine, by vertex, then array.
pub fn ambiguous(file: &Routine) -> Vec<(usize, usize)> {
    let mut solved = Solved::<Wide>::EMPTY;
    solved.arrive(file);
    solved.ambiguous(file).collect()
}

/// A file's routine that is not refused, with its calls expanded.
pub fn expanded<'a>(file: &Routine<'a>, room: &'a mut Room) -> Routine<'a> {
    let mut solved = Solved::<Wide>::EMPTY;
    solved.arrive(file);
    solved.expanded(file, room)
}
