//! A routine as its file has it, and its vertices once calls are expanded.

use hpf_remap::formats::{
    ARRAY, Action, EDGE, EDITION, Kind, ROUTINE_HEAD, ROUTINE_MARK, Reference, word_at,
};

#[derive(Clone, Debug, PartialEq, Eq)]
pub struct Array {
    pub kind: Kind,
    pub versions: u8,
    pub initial: u8,
}

/// An edge: from, to.
pub type Edge = (u16, u16);

/// The parts of a routine file. Those of a text may break the library's rules.
#[derive(Clone, Debug, Default, PartialEq, Eq)]
pub struct Routine {
    pub arrays: Vec<Array>,
    /// For each vertex an action for each array.
    pub rows: Vec<Vec<Action>>,
    pub edges: Vec<Edge>,
}

/// A vertex of the expanded routine.
#[derive(Clone, Copy, Debug, PartialEq, Eq)]
pub struct Part {
    /// The vertex of the file.
    pub vertex: usize,
    pub phase: Phase,
}

/// Which vertex of a call it is.
#[derive(Clone, Copy, Debug, PartialEq, Eq)]
pub enum Phase {
    /// It is no call.
    Whole,
    /// The first: arrays are remapped for the call.
    Pass,
    /// The second: the call itself.
    Inside,
    /// The third: arrays are remapped back.
    Back,
}

/// What a vertex of the expanded routine is to an array.
#[derive(Clone, Copy, Debug, PartialEq, Eq)]
pub enum Event {
    Nothing,
    Reference(Reference),
    /// A label to a version.
    Label(u8),
    /// The label before a call.
    Pass(u8),
    /// The label behind a call, to the version that the source names before it.
    Back,
}

/// The edges of a file, behind this byte.
pub fn edges_from(bytes: &[u8]) -> Vec<Edge> {
    let edge = |bytes: &[u8]| Some((word_at(bytes, 0)?, word_at(bytes, 2)?));
    bytes.chunks_exact(EDGE).filter_map(edge).collect()
}

/// The bytes of a file's head: mark, edition, and an offset and a count for each body, which has
/// so many items and so many bytes. `None` where a number has no room.
pub fn head(mark: [u8; 4], length: usize, bodies: &[(usize, usize)]) -> Option<Vec<u8>> {
    let mut head = mark.to_vec();
    head.extend(EDITION.to_le_bytes());
    let mut offset = length;
    for (count, bytes) in bodies {
        head.extend(u16::try_from(offset).ok()?.to_le_bytes());
        head.extend(u16::try_from(*count).ok()?.to_le_bytes());
        offset += bytes;
    }
    Some(head)
}

pub fn edge_bytes(edges: &[Edge]) -> impl Iterator<Item = u8> + '_ {
    edges
        .iter()
        .flat_map(|(from, to)| [from.to_le_bytes(), to.to_le_bytes()].concat())
}

impl Routine {
    /// The parts of a file that the library's reader accepts.
    pub fn from_bytes(file: &[u8]) -> Option<Routine> {
        let arrays = usize::from(word_at(file, 8)?);
        let rows_at = ROUTINE_HEAD + ARRAY * arrays;
        let edges_at = rows_at + arrays * usize::from(word_at(file, 12)?);
        let array = |bytes: &[u8]| {
            Some(Array {
                kind: Kind::from_byte(bytes[0])?,
                versions: bytes[1],
                initial: bytes[2],
            })
        };
        let row = |bytes: &[u8]| bytes.iter().map(|&byte| Action::from_byte(byte)).collect();
        Some(Routine {
            arrays: file
                .get(ROUTINE_HEAD..rows_at)?
                .chunks_exact(ARRAY)
                .map(array)
                .collect::<Option<_>>()?,
            rows: file
                .get(rows_at..edges_at)?
                .chunks_exact(arrays.max(1))
                .map(row)
                .collect::<Option<_>>()?,
            edges: edges_from(file.get(edges_at..)?),
        })
    }

    /// The file; `None` where a number of its head has no room.
    pub fn bytes(&self) -> Option<Vec<u8>> {
        let bodies = [
            (self.arrays.len(), ARRAY * self.arrays.len()),
            (self.rows.len(), self.arrays.len() * self.rows.len()),
            (self.edges.len(), EDGE * self.edges.len()),
        ];
        let mut file = head(ROUTINE_MARK, ROUTINE_HEAD, &bodies)?;
        for array in &self.arrays {
            file.extend([array.kind.byte(), array.versions, array.initial, 0]);
        }
        file.extend(self.rows.iter().flatten().map(|action| action.byte()));
        file.extend(edge_bytes(&self.edges));
        Some(file)
    }

    pub fn is_call(&self, vertex: usize) -> bool {
        let row = self.rows.get(vertex).into_iter().flatten();
        row.into_iter()
            .any(|action| matches!(action, Action::Call(..)))
    }

    /// The vertices of the expanded routine, in its order.
    pub fn parts(&self) -> Vec<Part> {
        let phases = |vertex| match self.is_call(vertex) {
            true => [Phase::Pass, Phase::Inside, Phase::Back].as_slice(),
            false => &[Phase::Whole],
        };
        (0..self.rows.len())
            .flat_map(|vertex| phases(vertex).iter().map(move |&phase| (vertex, phase)))
            .map(|(vertex, phase)| Part { vertex, phase })
            .collect()
    }

    /// The edges of the expanded routine, rising.
    pub fn expanded_edges(&self) -> Vec<(usize, usize)> {
        let parts = self.parts();
        let first = |vertex: u16| parts.partition_point(|part| part.vertex < usize::from(vertex));
        let last = |vertex: u16| parts.partition_point(|part| part.vertex <= usize::from(vertex));
        let within = |phase| phase == Phase::Pass || phase == Phase::Inside;
        let mut edges: Vec<(usize, usize)> = (0..parts.len())
            .filter(|&at| within(parts[at].phase))
            .map(|at| (at, at + 1))
            .collect();
        let joined = |&(from, to): &Edge| (last(from).saturating_sub(1), first(to));
        edges.extend(self.edges.iter().map(joined));
        edges.sort_unstable();
        edges
    }

    /// What a vertex of the expanded routine is to an array.
    pub fn event(&self, part: Part, array: usize) -> Event {
        let of = &self.arrays[array];
        if part.vertex == 0 {
            return Event::Label(of.initial);
        }
        if part.vertex + 1 == self.rows.len() {
            return match of.kind.is_labelled_at_exit() {
                true => Event::Label(of.initial),
                false => Event::Nothing,
            };
        }
        match (self.rows[part.vertex][array], part.phase) {
            (Action::Nothing, _) => Event::Nothing,
            (Action::Reference(reference), _) => Event::Reference(reference),
            (Action::Remap(version), _) => Event::Label(version),
            (Action::Call(_, version), Phase::Whole | Phase::Pass) => Event::Pass(version),
            (Action::Call(intent, _), Phase::Inside) => Event::Reference(intent.reference()),
            (Action::Call(..), Phase::Back) => Event::Back,
        }
    }
}

/// An action as a sentence has it.
pub fn in_words(action: Action) -> String {
    match action {
        Action::Nothing => String::from("nothing"),
        Action::Reference(reference) => format!("a {reference}"),
        Action::Remap(version) => format!("a remapping to version {version}"),
        Action::Call(intent, version) => {
            format!("a call in version {version} with intent {intent}")
        }
    }
}
