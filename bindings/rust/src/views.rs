//! Plans and reports, read.

use crate::formats::{
    ARRAY, Action, CONTENT, COUNT, ENTRY, LABEL, Letter, NONE, PLAN_HEAD, PLAN_MARK, RECORD,
    ROUTINE_HEAD, Reference, SET, word_at,
};

fn word(bytes: &[u8], at: usize) -> u16 {
    word_at(bytes, at).unwrap_or(0)
}

/// A set of versions, bit k for version k.
fn set(bytes: &[u8], at: usize) -> u32 {
    let bytes = bytes.iter().skip(at).take(SET).rev();
    bytes.fold(0, |set, &byte| set << 8 | u32::from(byte))
}

fn version(byte: u8) -> Option<u8> {
    (byte != NONE).then_some(byte)
}

/// The bytes of a plan.
#[derive(Clone, Copy, Debug)]
pub struct Plan<'a> {
    contents: &'a [u8],
    labels: &'a [u8],
}

/// A label of the expanded routine.
#[derive(Clone, Copy, Debug, PartialEq, Eq)]
pub struct Label {
    pub vertex: usize,
    pub array: usize,
    pub letter: Letter,
    /// The version in which the array leaves, none if the label is dropped.
    pub leaving: Option<u8>,
    pub reaching: u32,
    pub kept: u32,
}

impl<'a> Plan<'a> {
    /// `None` if these are not the bytes of a plan, all of them.
    pub fn new(bytes: &'a [u8]) -> Option<Plan<'a>> {
        let rest = bytes.strip_prefix(&PLAN_MARK)?;
        let (vertices, labels) = (word_at(rest, 0)?, word_at(rest, 2)?);
        let contents = CONTENT * usize::from(vertices);
        let whole = PLAN_HEAD + contents + LABEL * usize::from(labels);
        let (contents, labels) = bytes.get(PLAN_HEAD..)?.split_at_checked(contents)?;
        (bytes.len() == whole).then_some(Plan { contents, labels })
    }

    /// How many vertices the expanded routine has.
    pub fn vertices(&self) -> usize {
        self.contents.len() / CONTENT
    }

    /// The labels by vertex, then array.
    pub fn labels(&self) -> impl Iterator<Item = Label> + use<'a> {
        let plan = *self;
        (0..plan.vertices()).flat_map(move |vertex| plan.labels_at(vertex))
    }

    /// The labels of one vertex, by array.
    pub fn labels_at(&self, vertex: usize) -> impl Iterator<Item = Label> + use<'a> {
        let entry = self.contents.chunks_exact(CONTENT).nth(vertex);
        let (first, count) = entry.map_or((0, 0), |entry| (word(entry, 0), word(entry, 2)));
        self.labels
            .chunks_exact(LABEL)
            .skip(usize::from(first))
            .take(usize::from(count))
            .filter_map(move |bytes| {
                Some(Label {
                    vertex,
                    array: usize::from(bytes[0]),
                    letter: Letter::from_byte(bytes[1])?,
                    leaving: version(bytes[2]),
                    reaching: set(bytes, 4),
                    kept: set(bytes, 4 + SET),
                })
            })
    }
}

/// The bytes of a report.
#[derive(Clone, Copy, Debug)]
pub struct Report<'a> {
    entries: &'a [u8],
    records: &'a [u8],
    counts: &'a [u8],
}

/// What a run left of an array.
#[derive(Clone, Copy, Debug, PartialEq, Eq)]
pub struct Entry {
    pub copies: u16,
    pub live: u32,
    pub current: Option<u8>,
}

/// A reference on the path.
#[derive(Clone, Copy, Debug, PartialEq, Eq)]
pub struct Record {
    /// From 1 on.
    pub step: u16,
    pub array: usize,
    pub version: u8,
    pub reference: Reference,
    /// The stamp that a read or modify saw, else 0.
    pub seen: u16,
    /// The stamp that a define or modify gave, else 0.
    pub given: u16,
}

/// How many arrays a routine has, and how many edges once its calls are expanded: two more for each
/// vertex with calls.
fn arrays_and_edges(routine: &[u8]) -> Option<(usize, usize)> {
    let [arrays, vertices, edges] = [8, 12, 16].map(|at| word_at(routine, at).map(usize::from));
    let (arrays, edges) = (arrays?, edges?);
    let rows_at = ROUTINE_HEAD + ARRAY * arrays;
    let rows = routine.get(rows_at..rows_at + arrays * vertices?)?;
    let is_call = |byte: &u8| matches!(Action::from_byte(*byte), Some(Action::Call(..)));
    let rows = rows.chunks_exact(arrays.max(1));
    let calls = rows.filter(|row| row.iter().any(is_call)).count();
    Some((arrays, edges + 2 * calls))
}

impl<'a> Report<'a> {
    /// The report that a run of this routine wrote. `None` if it is none of such a routine.
    ///
    /// ```
    /// let mut routine = b"HPFR\x01\0\x12\0\x01\0\x16\0\x03\0\x19\0\x02\0".to_vec();
    /// routine.extend([3, 2, 0, 0]); // an inout argument of two versions
    /// routine.extend([0x00, 0xc1, 0x00]); // 1 passes it in version 1 as inout: vertices 1, 2 and 3
    /// routine.extend([0, 0, 1, 0, 1, 0, 2, 0]); // edges 0-1, 1-2: expanded 0-1, 1-2, 2-3, 3-4
    /// let report = hpf_remap::ran(&routine, &[0, 0, 1, 0, 2, 0])?;
    /// let report = hpf_remap::Report::new(&routine, &report).unwrap();
    /// let entry = report.entries().next().unwrap();
    /// assert_eq!((entry.copies, entry.live, entry.current), (1, 2, Some(1)));
    /// let record = report.records().next().unwrap(); // step 3 modifies it
    /// assert_eq!((record.step, record.version, record.seen, record.given), (3, 1, 65_535, 3));
    /// assert!(report.counts().eq([1, 1, 0, 0])); // the path ends inside the call
    /// # Ok::<(), hpf_remap::Refusal>(())
    /// ```
    pub fn new(routine: &[u8], report: &'a [u8]) -> Option<Report<'a>> {
        let (arrays, edges) = arrays_and_edges(routine)?;
        let (entries, rest) = report.split_at_checked(ENTRY * arrays)?;
        let records = rest.len().checked_sub(COUNT * edges)?;
        let (records, counts) = rest.split_at(records);
        records.len().is_multiple_of(RECORD).then_some(Report {
            entries,
            records,
            counts,
        })
    }

    /// The bytes of the entries, of the records and of the counts.
    pub fn parts(&self) -> [&'a [u8]; 3] {
        [self.entries, self.records, self.counts]
    }

    /// The entries by array.
    pub fn entries(&self) -> impl ExactSizeIterator<Item = Entry> + use<'a> {
        self.entries.chunks_exact(ENTRY).map(|bytes| Entry {
            copies: word(bytes, 0),
            live: set(bytes, 2),
            current: version(bytes[2 + SET]),
        })
    }

    /// The records by step, then array; from either end.
    pub fn records(&self) -> impl DoubleEndedIterator<Item = Record> + use<'a> {
        self.records.chunks_exact(RECORD).filter_map(|bytes| {
            Some(Record {
                step: word(bytes, 0),
                array: usize::from(bytes[2]),
                version: bytes[3],
                reference: Reference::from_kind(bytes[4])?,
                seen: word(bytes, 6),
                given: word(bytes, 8),
            })
        })
    }

    /// How often each edge was passed, rising by from, then to.
    pub fn counts(&self) -> impl ExactSizeIterator<Item = u16> + use<'a> {
        self.counts.chunks_exact(2).map(|bytes| word(bytes, 0))
    }
}
