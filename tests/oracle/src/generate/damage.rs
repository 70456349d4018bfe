//! Files and paths that are refused.

use super::rng::Rng;
use super::routines::{self, INTENTS, Size};
use crate::builder::{
    DEFINE, Draft, IN, INOUT, KILL, LOCAL, MODIFY, READ, REFERENCES, call_in, call_inout, call_out,
    remap,
};
use crate::calls::is_call;
use crate::labels::fixpoint;
use crate::routine::{HEAD, MAX_VERSIONS, MAX_VERTICES, Routine};

/// The refusals that a routine file can meet, 21 last.
pub const FILE_REFUSALS: [u64; 13] = [10, 11, 12, 13, 14, 15, 16, 17, 18, 19, 20, 22, 21];

/// Action bytes that stand for nothing, about those that do.
const UNKNOWN: [u8; 11] = [
    0x01, 0x0f, 0x11, 0x3f, 0x81, 0x88, 0x90, 0x9f, 0xe0, 0xef, 0xff,
];

/// A well-formed routine with at least three vertices and two edges.
fn base(rng: &mut Rng) -> Draft {
    let size = Size {
        vertices: 16,
        arrays: 3,
        versions: 4,
        calls: routines::any_calls(rng),
    };
    loop {
        let draft = routines::accepted(rng, size);
        if draft.rows.len() > 2 && draft.edges.len() > 1 {
            return draft;
        }
    }
}

fn set_word(file: &mut [u8], at: usize, value: usize) {
    file[at..at + 2].copy_from_slice(&(value as u16).to_le_bytes());
}

/// A value of 16 bits other than `right`, often near it.
fn other_word(rng: &mut Rng, right: usize) -> usize {
    let near = [right + 1, right.wrapping_sub(1), right + 256, right * 2 + 1];
    let value = if rng.chance(50) {
        rng.pick(&near)
    } else {
        rng.below(65_536)
    };
    if value & 0xffff == right {
        right ^ 1
    } else {
        value & 0xffff
    }
}

/// A routine file that is refused with this number of `FILE_REFUSALS`.
pub fn refused(rng: &mut Rng, number: u64) -> Vec<u8> {
    if number == 21 {
        return ambiguous(rng);
    }
    let mut draft = base(rng);
    damage_parts(rng, &mut draft, number);
    let mut file = draft.bytes();
    damage_head(rng, &mut file, number);
    file
}

/// A fault with one of the numbers 14 to 20 and 22.
fn damage_parts(rng: &mut Rng, draft: &mut Draft, number: u64) {
    match number {
        14 => damage_array(rng, draft),
        15 | 17 | 18 | 19 => damage_action(rng, draft, number),
        16 => damage_edge(rng, draft),
        20 => change_in_argument(rng, draft),
        22 => add_calls(rng, draft),
        _ => {}
    }
}

/// A fault with one of the numbers 10 to 13.
fn damage_head(rng: &mut Rng, file: &mut Vec<u8>, number: u64) {
    match number {
        10 if rng.chance(50) => file.truncate(rng.below(HEAD)),
        10 if file.len() >= HEAD => file[rng.below(4)] ^= rng.between(1, 255) as u8,
        11 => {
            let edition = other_word(rng, 1);
            set_word(file, 4, edition);
        }
        12 => {
            let (place, low, beyond) = rng.pick(&[(8, 1, 9), (12, 2, 257), (16, 0, 1025)]);
            let count = match rng.below(3) {
                0 if low > 0 => rng.below(low),
                1 => beyond,
                _ => rng.between(beyond, 65_535),
            };
            set_word(file, place, count);
        }
        13 => match rng.below(5) {
            0 => file.truncate(rng.between(HEAD, file.len().max(HEAD + 1) - 1)),
            1 => file.extend((0..rng.between(1, 9)).map(|_| rng.byte())),
            choice => {
                let place = 4 * choice - 2;
                let right = usize::from(u16::from_le_bytes([file[place], file[place + 1]]));
                let offset = other_word(rng, right);
                set_word(file, place, offset);
            }
        },
        _ => {}
    }
}

fn damage_array(rng: &mut Rng, draft: &mut Draft) {
    let array = rng.below(draft.arrays.len());
    let record = &mut draft.arrays[array];
    match rng.below(4) {
        0 => record[0] = rng.between(4, 255) as u8,
        1 => record[1] = rng.pick(&[0, 33, 34, 64, 255]),
        2 => record[2] = rng.between(usize::from(record[1]), 255) as u8,
        _ => record[3] = rng.between(1, 255) as u8,
    }
}

/// An action byte with a fault of 15, 17, 18 or 19. One of 15 and 17 stands in any row.
fn damage_action(rng: &mut Rng, draft: &mut Draft, number: u64) {
    let exit = draft.rows.len() - 1;
    let array = rng.below(draft.arrays.len());
    let versions = draft.arrays[array][1];
    match number {
        15 => draft.rows[rng.below(exit + 1)][array] = rng.pick(&UNKNOWN),
        17 => {
            let action = match rng.below(2) {
                0 => remap as fn(u8) -> u8,
                _ => rng.pick(&INTENTS),
            };
            let version = rng.between(usize::from(versions), MAX_VERSIONS - 1) as u8;
            draft.rows[rng.below(exit + 1)][array] = action(version);
        }
        18 => {
            let version = rng.below(usize::from(versions)) as u8;
            let call = rng.pick(&INTENTS)(version);
            let reference = rng.pick(&REFERENCES);
            let action = rng.pick(&[reference, reference, remap(version), call]);
            draft.rows[rng.pick(&[0, exit])][array] = action;
        }
        _ => {
            // Two arrays at least are needed to mix.
            draft.arrays.push([0, 1, 0, 0]);
            for row in &mut draft.rows {
                row.push(0);
            }
            let row = &mut draft.rows[rng.between(1, exit - 1)];
            row.fill(0);
            let pair = rng.pick(&[
                [READ, remap(0)],
                [remap(0), DEFINE],
                [MODIFY, call_in(0)],
                [call_out(0), READ],
                [remap(0), call_inout(0)],
                [call_in(0), remap(0)],
                [KILL, remap(0)],
                [remap(0), KILL],
                [KILL, call_out(0)],
                [call_in(0), KILL],
            ]);
            row[array] = pair[0];
            *row.last_mut().expect("there is an array") = pair[1];
        }
    }
}

/// Every file of two arrays with one and two versions and four vertices, of which two that follow
/// each other have rows of these bytes: faults of 15, 17, 18 and 19 in every order, and several in
/// one byte.
pub fn all_of_two_rows() -> impl Iterator<Item = Vec<u8>> {
    const BYTES: [u8; 11] = [
        0,
        READ,
        MODIFY,
        remap(0),
        remap(1),
        remap(16),
        call_in(1),
        call_out(0),
        call_inout(31),
        KILL,
        0xff,
    ];
    (0..3 * 11usize.pow(4)).map(|index| {
        let byte = |place: u32| BYTES[index / 11usize.pow(place) % 11];
        let mut rows = vec![vec![0, 0]; 4];
        let first = index / 11usize.pow(4);
        rows[first] = vec![byte(3), byte(2)];
        rows[first + 1] = vec![byte(1), byte(0)];
        let draft = Draft {
            arrays: vec![[LOCAL, 1, 0, 0], [INOUT, 2, 0, 0]],
            rows,
            edges: vec![(0, 1), (1, 2), (2, 3)],
        };
        draft.bytes()
    })
}

fn damage_edge(rng: &mut Rng, draft: &mut Draft) {
    let vertices = draft.rows.len();
    let edge = rng.below(draft.edges.len());
    // The first edge has none before it.
    let later = edge.max(1);
    match rng.below(6) {
        0 => draft.edges[edge].0 = rng.between(vertices, 65_535) as u16,
        1 => draft.edges[edge].1 = rng.between(vertices, 65_535) as u16,
        2 => draft.edges[edge].1 = 0,
        3 => draft.edges[edge].0 = vertices as u16 - 1,
        4 => draft.edges[later] = draft.edges[later - 1],
        _ => draft.edges.swap(later, later - 1),
    }
}

/// A define, modify or kill of an in argument, or a call that passes one as out or inout, often of
/// several in one row, beside references or calls that are allowed.
fn change_in_argument(rng: &mut Rng, draft: &mut Draft) {
    let always = rng.below(draft.arrays.len());
    for (array, record) in draft.arrays.iter_mut().enumerate() {
        if array == always || rng.chance(50) {
            record[0] = IN;
        }
    }
    for _ in 0..rng.between(1, 3) {
        let vertex = rng.between(1, draft.rows.len() - 2);
        let calls = rng.chance(50);
        for (array, action) in draft.rows[vertex].iter_mut().enumerate() {
            let version = rng.below(usize::from(draft.arrays[array][1]));
            let all = match calls {
                true => &INTENTS.map(|intent| intent(version as u8))[..],
                false => &REFERENCES,
            };
            *action = if array == always {
                rng.pick(&all[1..])
            } else if rng.chance(25) {
                0
            } else {
                rng.pick(all)
            };
        }
    }
}

/// Puts vertices that no edge leaves before the exit, calls among them: there are more than 256
/// once the calls are expanded, often one or two more. An edge to the exit leads to the first.
fn add_calls(rng: &mut Rng, draft: &mut Draft) {
    let exit = draft.rows.pop().expect("there is an exit");
    let mut expanded = draft.places().len() + 1;
    let beyond = match rng.below(4) {
        0 => 1,
        1 => 2,
        _ => rng.between(1, 200),
    };
    while expanded < MAX_VERTICES + beyond {
        let row = if MAX_VERTICES + beyond - expanded < 3 {
            vec![0; draft.arrays.len()]
        } else {
            routines::row(rng, &draft.arrays, 85)
        };
        expanded += if is_call(&row) { 3 } else { 1 };
        draft.rows.push(row);
    }
    draft.rows.push(exit);
}

/// A routine with an ambiguous reference.
fn ambiguous(rng: &mut Rng) -> Vec<u8> {
    loop {
        let size = Size::any(rng);
        let file = routines::program(rng, size).bytes();
        let routine = Routine::parse(&file).expect("generated files are well formed");
        if fixpoint::refusal(&routine).is_some_and(|refusal| refusal.number == 21) {
            return file;
        }
    }
}

/// A file with two to four faults of any numbers, or of those behind the head's: the one that is
/// checked first wins.
pub fn several_faults(rng: &mut Rng) -> Vec<u8> {
    let numbers = match rng.below(2) {
        0 => &FILE_REFUSALS[..12],
        _ => &FILE_REFUSALS[4..12],
    };
    let mut numbers: Vec<u64> = (0..rng.between(2, 4)).map(|_| rng.pick(numbers)).collect();
    // Faults of the head last: they can cut the file short.
    numbers.sort_unstable_by(|one, other| other.cmp(one));
    let mut draft = base(rng);
    for number in &numbers {
        damage_parts(rng, &mut draft, *number);
    }
    let mut file = draft.bytes();
    for number in &numbers {
        damage_head(rng, &mut file, *number);
    }
    file
}

/// A file with one byte changed, by position, then value.
pub fn every_byte(file: &[u8]) -> impl Iterator<Item = Vec<u8>> {
    (0..file.len()).flat_map(move |place| {
        (1..=255).map(move |change| {
            let mut damaged = file.to_vec();
            damaged[place] ^= change;
            damaged
        })
    })
}

/// A file cut at every place, and with up to eight further bytes.
pub fn every_length(file: &[u8]) -> impl Iterator<Item = Vec<u8>> {
    (0..=file.len() + 8)
        .filter(|&length| length != file.len())
        .map(|length| {
            let mut changed = file.to_vec();
            changed.resize(length, 0);
            changed
        })
}
