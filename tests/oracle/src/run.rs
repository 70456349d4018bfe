//! The run rules ("Run", first part), the report's bytes and refusals 30 to 32 and 2.

use crate::calls::Room;
use crate::labels::fixpoint::{Narrow, Sets, Solved, Wide};
use crate::labels::{Label, Labels, Use, literal};
use crate::outcome::{Outcome, Refusal};
use crate::record::{RECORD, Record};
use crate::routine::{
    Array, Kind, MAX_ARRAYS, MAX_EXPANDED_EDGES, MAX_VERSIONS, MAX_VERTICES, Reference, Routine,
    Set,
};

pub const MAX_PATH: usize = 4096;

/// The length of the longest report: every vertex of a path but the entry references every array.
pub const LONGEST_REPORT: usize =
    ENTRY * MAX_ARRAYS + RECORD * MAX_ARRAYS * (MAX_PATH - 1) + COUNT * MAX_EXPANDED_EDGES;

/// The bytes of an array in a report.
pub const ENTRY: usize = 8;

/// The bytes of an edge's count in a report.
pub const COUNT: usize = 2;

/// The parts of a report.
#[derive(Clone, Copy, Debug)]
pub struct Parts<'a> {
    /// Of each array.
    pub entries: &'a [u8],
    /// Of each reference.
    pub records: &'a [u8],
    /// Of each edge.
    pub counts: &'a [u8],
}

impl<'a> Parts<'a> {
    /// The parts of a report on a routine, whether its calls are expanded or not; none if there is
    /// no such report of that length.
    pub fn of(report: &'a [u8], routine: &Routine) -> Option<Parts<'a>> {
        Parts::split(report, routine.array_count(), routine.expanded_edge_count())
    }

    /// The parts of a report on so many arrays and expanded edges.
    pub fn split(report: &'a [u8], arrays: usize, edges: usize) -> Option<Parts<'a>> {
        let (entries, rest) = report.split_at_checked(ENTRY * arrays)?;
        let records = rest.len().checked_sub(COUNT * edges)?;
        let (records, counts) = rest.split_at(records);
        records.len().is_multiple_of(RECORD).then_some(Parts {
            entries,
            records,
            counts,
        })
    }
}

/// The copies of one array.
#[derive(Clone, Copy, Debug, PartialEq, Eq)]
pub struct Copies {
    pub current: Option<u8>,
    pub live: Set,
    pub stamps: [u16; MAX_VERSIONS],
    /// Number of stamps copied.
    pub copied: u16,
}

impl Copies {
    const NONE: Copies = Copies {
        current: None,
        live: 0,
        stamps: [0; MAX_VERSIONS],
        copied: 0,
    };

    fn start(array: Array) -> Copies {
        let mut copies = Copies::NONE;
        if array.kind.brings_value() {
            copies.lose_all_but(array.initial, 65_535);
        }
        copies
    }

    /// At a label: moves to a kept one's version, then cleans.
    fn label(&mut self, array: Array, label: &Label) {
        if label.is_kept() && self.current != Some(label.version) {
            self.make_current(label);
        }
        let current = self.current.map_or(0, |version| 1 << version);
        let mut dead = self.live & !label.kept & !current;
        self.live &= !dead;
        if array.kind.is_argument() {
            // The initial version belongs to the caller and keeps its stamp.
            dead &= !(1 << array.initial);
        }
        while dead != 0 {
            self.stamps[dead.trailing_zeros() as usize] = 0;
            dead &= dead - 1;
        }
    }

    /// At a kept label whose target is not current.
    fn make_current(&mut self, label: &Label) {
        let target = usize::from(label.version);
        if self.live & 1 << target == 0 {
            self.stamps[target] = 0;
            if let Some(current) = self.current
                && label.letter != Use::D
            {
                self.stamps[target] = self.stamps[usize::from(current)];
                self.copied += 1;
            }
            self.live |= 1 << target;
        }
        self.current = Some(label.version);
    }

    /// A reference uses the current version. It follows a kept label, so there is one. All but a
    /// read give it the new stamp.
    fn reference(&mut self, step: u16, array: usize, reference: Reference) -> Record {
        let version = self.current.expect("a reference follows a kept label");
        let stamp = &mut self.stamps[usize::from(version)];
        let record = Record::new(step, array, version, reference, *stamp);
        if reference.changes() {
            *stamp = record.new;
        }
        record
    }

    /// At the exit: a local array loses all copies, an in argument every copy but the caller's,
    /// which is then live and current with the stamp that it had; no copy is counted.
    fn exit(&mut self, array: Array) {
        match array.kind {
            Kind::Local => self.lose_all(),
            Kind::In => {
                let stamp = self.stamps[usize::from(array.initial)];
                self.lose_all_but(array.initial, stamp);
            }
            Kind::Out | Kind::Inout => {}
        }
    }

    fn lose_all(&mut self) {
        *self = Copies {
            copied: self.copied,
            ..Copies::NONE
        };
    }

    /// One version is left, live and current with this stamp.
    fn lose_all_but(&mut self, version: u8, stamp: u16) {
        self.lose_all();
        self.current = Some(version);
        self.live = 1 << version;
        self.stamps[usize::from(version)] = stamp;
    }

    /// An array's bytes in the report.
    fn bytes(&self) -> [u8; ENTRY] {
        let [copied, copied_high] = self.copied.to_le_bytes();
        let [a, b, c, d] = self.live.to_le_bytes();
        let current = self.current.unwrap_or(255);
        [copied, copied_high, a, b, c, d, current, 0]
    }
}

/// The vertices of a path; an odd last byte is ignored.
pub fn vertices(path: &[u8]) -> impl ExactSizeIterator<Item = usize> + Clone {
    path.as_chunks::<2>()
        .0
        .iter()
        .map(|&word| usize::from(u16::from_le_bytes(word)))
}

/// How often a path passes each edge, or refusal 30, 31 or 32.
pub fn check_path(routine: &Routine, path: &[u8]) -> Result<Vec<u16>, Refusal> {
    let length = vertices(path).len();
    if length == 0 || length > MAX_PATH {
        return Err(Refusal::at(30, length));
    }
    if vertices(path).next() != Some(0) {
        return Err(Refusal::at(31, 0));
    }
    let edges = Edges::new(routine);
    let mut counts = vec![0; routine.edge_count()];
    let steps = vertices(path).zip(vertices(path).skip(1));
    for (index, (from, to)) in steps.enumerate() {
        match edges.place(from, to) {
            Some(place) => counts[place] += 1,
            None => return Err(Refusal::at(32, index + 1)),
        }
    }
    Ok(counts)
}

/// The edges, which rise by from, then to, and where those from each vertex begin.
struct Edges<'a> {
    bytes: &'a [[u8; 4]],
    first: [u16; MAX_VERTICES + 1],
}

impl<'a> Edges<'a> {
    fn new(routine: &Routine<'a>) -> Edges<'a> {
        let mut first = [0; MAX_VERTICES + 1];
        for (index, (from, _)) in routine.edges().enumerate() {
            first[from + 1] = index as u16 + 1;
        }
        for vertex in 0..routine.vertex_count() {
            first[vertex + 1] = first[vertex + 1].max(first[vertex]);
        }
        Edges {
            bytes: routine.edge_bytes(),
            first,
        }
    }

    /// The place of an edge in the list: among those from its start one after the other where they
    /// are few, else by halving.
    fn place(&self, from: usize, to: usize) -> Option<usize> {
        const FEW: usize = 8;
        let end = |edge: &[u8; 4]| usize::from(u16::from_le_bytes([edge[2], edge[3]]));
        let start = usize::from(self.first[from]);
        let row = &self.bytes[start..usize::from(self.first[from + 1])];
        let place = if row.len() <= FEW {
            row.iter().position(|edge| end(edge) == to)
        } else {
            row.binary_search_by_key(&to, end).ok()
        };
        place.map(|place| start + place)
    }
}

/// Takes an accepted path by the run rules; gives each record and the last state.
pub fn walk(
    routine: &Routine,
    labels: &impl Labels,
    path: &[u8],
    mut give: impl FnMut(Record),
) -> [Copies; MAX_ARRAYS] {
    let mut all = [Copies::NONE; MAX_ARRAYS];
    for (copies, array) in all.iter_mut().zip(routine.arrays()) {
        *copies = Copies::start(array);
    }
    for (index, vertex) in vertices(path).enumerate() {
        let step = index as u16 + 1;
        for (array, &byte) in routine.row(vertex).iter().enumerate() {
            if let Some(reference) = Reference::from_byte(byte) {
                give(all[array].reference(step, array, reference));
            }
        }
        for (array, label) in labels.at(vertex) {
            all[array].label(routine.array(array), &label);
        }
        if vertex == routine.exit() {
            for (copies, array) in all.iter_mut().zip(routine.arrays()) {
                copies.exit(array);
            }
        }
    }
    all
}

/// Writes the report of a path through a routine file over the front of `out`.
pub fn run(file: &[u8], path: &[u8], out: &mut [u8]) -> Outcome {
    Outcome::of(
        Routine::parse(file).and_then(|routine| match routine.is_wide() {
            false => run_with::<Narrow>(&routine, path, out),
            true => run_with::<Wide>(&routine, path, out),
        }),
    )
}

fn run_with<S: Sets>(file: &Routine, path: &[u8], out: &mut [u8]) -> Result<usize, Refusal> {
    let (mut solved, mut room) = (Solved::<S>::EMPTY, Room::EMPTY);
    let routine = solved.accept(file, &mut room)?;
    write(&routine, &solved, path, out)
}

/// The same with the labels by listing paths, for small routines.
pub fn run_by_paths(file: &[u8], path: &[u8], out: &mut [u8]) -> Outcome {
    Outcome::of(Routine::parse(file).and_then(|routine| {
        let mut room = Room::EMPTY;
        let routine = literal::accept(&routine, &mut room)?;
        write(&routine, &literal::labels(&routine), path, out)
    }))
}

fn write(
    routine: &Routine,
    labels: &impl Labels,
    path: &[u8],
    out: &mut [u8],
) -> Result<usize, Refusal> {
    let counts = check_path(routine, path)?;
    let arrays = routine.array_count();
    let records = RECORD * reference_count(routine, path);
    let needed = ENTRY * arrays + records + COUNT * counts.len();
    if out.len() < needed {
        return Err(Refusal::at(2, needed));
    }
    let (heads, rest) = out[..needed].split_at_mut(ENTRY * arrays);
    let (records, places) = rest.split_at_mut(records);
    for (place, count) in places.as_chunks_mut::<COUNT>().0.iter_mut().zip(&counts) {
        *place = count.to_le_bytes();
    }
    let mut records = records.as_chunks_mut::<RECORD>().0.iter_mut();
    let states = walk(routine, labels, path, |record| {
        if let Some(place) = records.next() {
            *place = record.bytes();
        }
    });
    for (head, copies) in heads.as_chunks_mut::<ENTRY>().0.iter_mut().zip(&states) {
        *head = copies.bytes();
    }
    Ok(needed)
}

/// Where no row is a call, a byte that is not 0 and has not bit 6, as remappings have, is a
/// reference.
fn reference_count(routine: &Routine, path: &[u8]) -> usize {
    let is_reference = |byte: &&u8| **byte != 0 && **byte & 0x40 == 0;
    vertices(path)
        .map(|vertex| routine.row(vertex).iter().filter(is_reference).count())
        .sum()
}
