//! Refusals, places, buffers and limits.

use oracle::builder::{self, DEFINE, Draft, IN, KILL, LOCAL, OUT, READ, path_bytes, remap};
use oracle::generate::rng::Rng;
use oracle::generate::routines::{self, Size};
use oracle::generate::{damage, limits};
use oracle::outcome::Outcome;
use oracle::plan::plan;
use oracle::run::run;
use std::collections::BTreeSet;

fn plan_answer(file: &[u8]) -> (u64, u64, u64) {
    let mut out = vec![0x5a; 30_000];
    let Outcome {
        number,
        first,
        second,
    } = plan(file, &mut out);
    let written = if number == 0 { first as usize } else { 0 };
    assert!(out[written..].iter().all(|&byte| byte == 0x5a));
    (number, first, second)
}

fn run_answer(file: &[u8], path: &[u8]) -> (u64, u64, u64) {
    let mut out = vec![0x5a; 400_000];
    let Outcome {
        number,
        first,
        second,
    } = run(file, path, &mut out);
    let written = if number == 0 { first as usize } else { 0 };
    assert!(out[written..].iter().all(|&byte| byte == 0x5a));
    (number, first, second)
}

/// P with one word or byte changed.
fn p_with(change: impl Fn(&mut Vec<u8>)) -> (u64, u64, u64) {
    let mut file = builder::p().bytes();
    change(&mut file);
    plan_answer(&file)
}

#[test]
fn the_head_of_the_file() {
    assert_eq!(p_with(|file| file.truncate(17)), (10, 17, 0));
    assert_eq!(p_with(|file| file[3] = b'P'), (10, 0, 0));
    assert_eq!(p_with(|file| file[5] = 1), (11, 4, 0));
    assert_eq!(p_with(|file| file[9] = 1), (12, 8, 0));
    assert_eq!(p_with(|file| file[12] = 1), (12, 12, 0));
    assert_eq!(p_with(|file| file[17] = 5), (12, 16, 0));
    assert_eq!(p_with(|file| file[7] = 1), (13, 6, 0));
    assert_eq!(p_with(|file| file[10] = 21), (13, 10, 0));
    assert_eq!(p_with(|file| file[15] = 9), (13, 14, 0));
    assert_eq!(p_with(|file| file.truncate(61)), (13, 18, 0));
    assert_eq!(p_with(|file| file.push(0)), (13, 18, 0));
}

#[test]
fn a_lower_number_wins_over_a_lower_byte() {
    let both = |file: &mut Vec<u8>| {
        file[6] = 0;
        file[17] = 5;
    };
    assert_eq!(p_with(both), (12, 16, 0));
}

#[test]
fn array_bytes() {
    assert_eq!(p_with(|file| file[18] = 4), (14, 18, 0));
    assert_eq!(p_with(|file| file[19] = 0), (14, 19, 0));
    assert_eq!(p_with(|file| file[19] = 32).0, 0);
    assert_eq!(p_with(|file| file[19] = 33), (14, 19, 0));
    assert_eq!(p_with(|file| file[20] = 3), (14, 20, 0));
    assert_eq!(p_with(|file| file[21] = 1), (14, 21, 0));
}

#[test]
fn action_bytes() {
    assert_eq!(p_with(|file| file[22] = 0x10), (18, 22, 0));
    assert_eq!(p_with(|file| file[29] = 0x40), (18, 29, 0));
    assert_eq!(p_with(|file| file[23] = 0x50), (17, 23, 0));
    assert_eq!(p_with(|file| file[23] = 0x5f), (17, 23, 0));
    assert_eq!(p_with(|file| file[24] = 0x43), (17, 24, 0));
    let mut mixed = Draft {
        arrays: vec![[LOCAL, 2, 0, 0]; 3],
        rows: vec![vec![0; 3]; 3],
        edges: vec![(0, 1), (1, 2)],
    };
    mixed.rows[1] = vec![READ, 0, remap(1)];
    assert_eq!(plan_answer(&mixed.bytes()), (19, 18 + 12 + 3 + 2, 0));
    mixed.rows[1] = vec![remap(1), DEFINE, READ];
    assert_eq!(plan_answer(&mixed.bytes()), (19, 18 + 12 + 3 + 1, 0));
}

/// The first faulty byte over 15, 17, 18 and 19; of the faults that meet in it the lowest number.
#[test]
fn several_faults_of_action_bytes() {
    // Two arrays, of one version and of two: the rows start at bytes 26, 28, 30 and 32.
    let answer = |rows: [[u8; 2]; 4]| {
        let draft = Draft {
            arrays: vec![[LOCAL, 1, 0, 0], [IN, 2, 0, 0]],
            rows: rows.map(|row| row.to_vec()).to_vec(),
            edges: vec![(0, 1), (1, 2), (2, 3), (3, 3)],
        };
        plan_answer(&draft.bytes())
    };
    let (none, mixed) = ([0, 0], [READ, remap(0)]);
    // Unknown, or a version too large, in the rows of entry and exit.
    assert_eq!(answer([[0, 0xff], none, none, none]), (15, 27, 0));
    assert_eq!(answer([none, none, none, [0xff, 0]]), (15, 32, 0));
    assert_eq!(answer([[remap(1), 0], none, none, none]), (17, 26, 0));
    assert_eq!(answer([none, none, none, [0, remap(2)]]), (17, 33, 0));
    assert_eq!(answer([[0, remap(1)], none, none, none]), (18, 27, 0));
    // Mixed there: the first byte is not zero.
    assert_eq!(answer([mixed, none, none, none]), (18, 26, 0));
    assert_eq!(answer([none, none, none, mixed]), (18, 32, 0));
    // Mixed and too large; too large, mixed later.
    assert_eq!(answer([none, [READ, remap(2)], none, none]), (17, 29, 0));
    assert_eq!(answer([none, [remap(1), READ], none, none]), (17, 28, 0));
    // Mixed, and an unknown byte after it, before it and beside it.
    assert_eq!(answer([none, mixed, [0xff, 0], none]), (19, 29, 0));
    assert_eq!(answer([none, [0xff, 0], mixed, none]), (15, 28, 0));
    assert_eq!(answer([none, [READ, 0xff], none, none]), (15, 29, 0));
    // A row's kind is its own; the edge out of the exit is looked at last.
    assert_eq!(answer([none, [READ, 0], [0, remap(0)], none]), (16, 46, 0));
}

/// The family of an action byte that is known, 0 for nothing, and the version that it names.
fn family(byte: u8) -> Option<(u8, u8)> {
    match byte {
        0x00 => Some((0, 0)),
        0x10 | 0x20 | 0x30 | 0x80 => Some((1, 0)),
        0x40..=0x5f => Some((2, byte - 0x40)),
        0x60..=0x7f => Some((3, byte - 0x60)),
        0xa0..=0xbf => Some((3, byte - 0xa0)),
        0xc0..=0xdf => Some((3, byte - 0xc0)),
        _ => None,
    }
}

/// The faults of each action byte with its place, each asked by itself in the words of requests 2,
/// 3, 6 and 7.
fn faults(draft: &Draft) -> Vec<(usize, Vec<u64>)> {
    let differ = |one: u8, other: u8| match (family(one), family(other)) {
        (Some((one, _)), Some((other, _))) => one != 0 && other != 0 && one != other,
        _ => false,
    };
    let mut all = Vec::new();
    for (vertex, row) in draft.rows.iter().enumerate() {
        for (array, &byte) in row.iter().enumerate() {
            let place = 18 + 4 * draft.arrays.len() + vertex * row.len() + array;
            let unknown = family(byte).is_none();
            let versions = draft.arrays[array][1];
            let too_large = family(byte).is_some_and(|(_, version)| version >= versions);
            let at_entry_or_exit = byte != 0 && (vertex == 0 || vertex == draft.rows.len() - 1);
            let mixed = row[..array].iter().any(|&earlier| differ(earlier, byte));
            let numbers = [
                (15, unknown),
                (17, too_large),
                (18, at_entry_or_exit),
                (19, mixed),
            ];
            let met = numbers.iter().filter(|(_, fault)| *fault);
            let met: Vec<u64> = met.map(|&(number, _)| number).collect();
            if !met.is_empty() {
                all.push((place, met));
            }
        }
    }
    all
}

/// The answer on a routine whose fault, if there is one, is in its action bytes.
fn is_answered_by_words(draft: &Draft) {
    let file = draft.bytes();
    let (number, first, second) = plan_answer(&file);
    match faults(draft).first() {
        Some((place, met)) => {
            assert_eq!(
                (number, first, second),
                (met[0], *place as u64, 0),
                "{draft:?}"
            );
        }
        None => assert!(matches!(number, 0 | 20 | 21), "{number} {draft:?}"),
    }
}

/// All faults of action bytes, all that meet in one byte, and all orders of two.
#[test]
fn action_bytes_by_words() {
    let (mut meetings, mut orders) = (BTreeSet::new(), BTreeSet::new());
    for file in damage::all_of_two_rows() {
        let draft = Draft::from_bytes(&file).unwrap();
        is_answered_by_words(&draft);
        if let [(_, first), later @ ..] = &faults(&draft)[..] {
            meetings.insert(first.clone());
            orders.extend(later.iter().map(|(_, later)| (first[0], later[0])));
        }
    }
    let met: [&[u64]; 7] = [&[15], &[15, 18], &[17], &[17, 18], &[17, 19], &[18], &[19]];
    assert_eq!(meetings, met.iter().map(|met| met.to_vec()).collect());
    let numbers = [15, 17, 18, 19];
    for first in numbers {
        for later in numbers {
            assert!(orders.contains(&(first, later)), "{first} before {later}");
        }
    }
}

/// Rows of any bytes.
#[test]
fn any_action_bytes_by_words() {
    let mut answered = BTreeSet::new();
    for index in 0..20_000 {
        let mut rng = Rng::for_input(7, index);
        let size = Size {
            vertices: rng.between(2, 8),
            arrays: rng.between(1, 8),
            versions: rng.between(1, 32),
            calls: rng.pick(&[0, 50]),
        };
        let mut draft = routines::any_graph(&mut rng, size);
        for _ in 0..rng.between(1, 6) {
            let vertex = rng.below(draft.rows.len());
            let array = rng.below(draft.arrays.len());
            let remap = remap(rng.below(32) as u8);
            let call = rng.pick(&routines::INTENTS)(rng.below(32) as u8);
            let byte = rng.byte();
            draft.rows[vertex][array] = rng.pick(&[byte, remap, call, READ, DEFINE, KILL]);
        }
        is_answered_by_words(&draft);
        answered.insert(plan_answer(&draft.bytes()).0);
    }
    assert!(
        answered.is_superset(&[0, 15, 17, 18, 19].into()),
        "{answered:?}"
    );
}

/// A kill is a reference: beside a remapping it is 19, at the entry or exit 18, of an in argument
/// 20, where two versions may come 21. Bytes about it are unknown.
#[test]
fn kills() {
    assert_eq!(p_with(|file| file[23] = KILL).0, 0);
    assert_eq!(p_with(|file| file[22] = KILL), (18, 22, 0));
    assert_eq!(p_with(|file| file[29] = KILL), (18, 29, 0));
    for byte in [0x81, 0x88, 0x8f, 0x90, 0x9f] {
        assert_eq!(p_with(|file| file[23] = byte), (15, 23, 0));
    }
    let row = |row: [u8; 3]| {
        let draft = Draft {
            arrays: vec![[LOCAL, 2, 0, 0], [OUT, 2, 0, 0], [IN, 2, 0, 0]],
            rows: vec![vec![0; 3], row.to_vec(), vec![0; 3]],
            edges: vec![(0, 1), (1, 2)],
        };
        plan_answer(&draft.bytes())
    };
    assert_eq!(row([KILL, KILL, READ]).0, 0);
    assert_eq!(row([KILL, 0, remap(1)]), (19, 35, 0));
    assert_eq!(row([remap(1), KILL, 0]), (19, 34, 0));
    assert_eq!(row([KILL, 0, builder::call_in(1)]), (19, 35, 0));
    assert_eq!(row([builder::call_out(1), KILL, 0]), (19, 34, 0));
    assert_eq!(row([KILL, 0, KILL]), (20, 1, 2));
    let mut ambiguous = builder::t();
    ambiguous.rows[2] = vec![KILL];
    assert_eq!(plan_answer(&ambiguous.bytes()), (21, 2, 0));
}

#[test]
fn edges() {
    // P's edges start at byte 30.
    assert_eq!(p_with(|file| file[31] = 1), (16, 30, 0));
    assert_eq!(p_with(|file| file[36] = 8), (16, 34, 0));
    assert_eq!(p_with(|file| file[36] = 0), (16, 34, 0));
    assert_eq!(p_with(|file| file[58] = 7), (16, 58, 0));
    assert_eq!(p_with(|file| file[60] = 2), (16, 58, 0));
    assert_eq!(p_with(|file| file[38] = 1), (0, 88, 0));
    assert_eq!(p_with(|file| file[38] = 0), (16, 38, 0));
}

#[test]
fn the_programmers_refusals() {
    // A define of an in argument that no path reaches, and an ambiguous read before it.
    let mut draft = Draft::one_array(
        IN,
        2,
        0,
        &[remap(1), READ, DEFINE],
        &[(0, 1), (0, 2), (1, 2), (2, 4)],
    );
    assert_eq!(plan_answer(&draft.bytes()), (20, 3, 0));
    draft.rows[3] = vec![READ];
    assert_eq!(plan_answer(&draft.bytes()), (21, 2, 0));
    // A label that no path reaches brings no version.
    draft.edges.retain(|&edge| edge != (0, 1));
    assert_eq!(plan_answer(&draft.bytes()).0, 0);
}

#[test]
fn paths_are_checked_in_order() {
    let file = builder::p().bytes();
    let answer = |path: &[u16]| run_answer(&file, &path_bytes(path));
    assert_eq!(answer(&[]), (30, 0, 0));
    assert_eq!(answer(&[1; 4097]), (30, 4097, 0));
    assert_eq!(answer(&[1, 7]), (31, 0, 0));
    assert_eq!(answer(&[900]), (31, 0, 0));
    assert_eq!(answer(&[0, 1, 2, 4]), (32, 3, 0));
    assert_eq!(answer(&[0, 900]), (32, 1, 0));
    assert_eq!(answer(&[0, 257]), (32, 1, 0));
    assert_eq!(answer(&[0]), (0, 24, 0));
    assert_eq!(run_answer(&file, &[0]), (30, 0, 0));
    assert_eq!(run_answer(&file, &[0, 0, 1, 0, 9]), (0, 34, 0));
    assert_eq!(run_answer(&builder::t().bytes(), &[]), (21, 2, 0));
}

#[test]
fn buffers() {
    let file = builder::p().bytes();
    let path = path_bytes(&[0, 1, 2, 3]);
    for length in 0..96 {
        let mut out = vec![0x5a; length];
        let answer = plan(&file, &mut out);
        if length < 88 {
            assert_eq!((answer.number, answer.first, answer.second), (1, 88, 0));
            assert!(out.iter().all(|&byte| byte == 0x5a));
        } else {
            assert_eq!(answer, Outcome::written(88));
            assert!(out[..4] == *b"HPF2" && out[88..].iter().all(|&byte| byte == 0x5a));
        }
        let mut out = vec![0x5a; length];
        let answer = run(&file, &path, &mut out);
        if length < 44 {
            assert_eq!((answer.number, answer.first, answer.second), (2, 44, 0));
            assert!(out.iter().all(|&byte| byte == 0x5a));
        } else {
            assert_eq!(answer, Outcome::written(44));
            assert!(out[44..].iter().all(|&byte| byte == 0x5a));
        }
    }
}

#[test]
fn the_largest_file_plan_and_report() {
    let file = limits::largest_report().bytes();
    assert_eq!(file.len(), 6194);
    assert_eq!(plan_answer(&limits::largest_plan().bytes()), (0, 25_608, 0));
    let path = limits::longest_path();
    assert_eq!(path.len(), 4096);
    let counts = 2 * 1024;
    let answer = run_answer(&file, &path_bytes(&path));
    assert_eq!(answer, (0, 327_664 + counts, 0));
    let answer = run_answer(&file, &path_bytes(&path[..512]));
    assert_eq!(answer, (0, 40_944 + counts, 0));
    // With as many edges as there may be once calls are expanded.
    let (file, path) = (limits::longest_report().bytes(), limits::longest_stay());
    let answer = run_answer(&file, &path_bytes(&path));
    assert_eq!(answer, (0, 330_048, 0));
}

#[test]
fn one_beyond_each_limit() {
    let numbers: Vec<(u64, u64, u64)> = limits::beyond_limits()
        .iter()
        .map(|draft| plan_answer(&draft.bytes()))
        .collect();
    assert_eq!(
        numbers,
        [
            (12, 8, 0),
            (12, 8, 0),
            (12, 12, 0),
            (12, 12, 0),
            (12, 12, 0),
            (12, 16, 0),
            (14, 19, 0),
            (22, 257, 0),
            (22, 257, 0),
            (22, 258, 0),
            (22, 764, 0)
        ]
    );
}
