//! Reading directive files: refusal 40 and its place.

use oracle::directives::convert::convert;
use oracle::directives::file::{self, EDGE, LONGEST_FILE};
use oracle::directives::{Alignment, Array, Dimension, Mapping, Program, Statement};
use oracle::generate::damage::{every_byte, every_length};
use oracle::generate::directives::{self, EXAMPLE, Size, damage, limits};
use oracle::generate::rng::Rng;
use oracle::outcome::{Outcome, Refusal};

const SEED: u64 = 40;

/// What a conversion answers; a refusal writes no byte.
fn answer(file: &[u8]) -> (u64, u64, u64) {
    let mut out = vec![0x5a; 7_000];
    let Outcome {
        number,
        first,
        second,
    } = convert(file, &mut out);
    let written = if number == 0 { first as usize } else { 0 };
    assert!(out[written..].iter().all(|&byte| byte == 0x5a));
    (number, first, second)
}

/// A program with every kind of statement, of one branch.
fn sample() -> Program {
    Program {
        templates: vec![
            Mapping(Dimension::Block, Dimension::NotSpread),
            Mapping(Dimension::Cyclic(1), Dimension::Cyclic(65_535)),
        ],
        arrays: vec![
            Array {
                kind: 0,
                alignment: Alignment::straight(0),
            },
            Array {
                kind: 3,
                alignment: Alignment::exchanged(1),
            },
        ],
        vertices: vec![
            Statement::References(vec![0, 0]),
            Statement::References(vec![0x20, 0x10]),
            Statement::Realign(1, Alignment::exchanged(0)),
            Statement::Redistribute(1, Mapping(Dimension::Block, Dimension::Cyclic(256))),
            Statement::References(vec![0x30, 0]),
            Statement::References(vec![0, 0]),
        ],
        edges: vec![(0, 1), (1, 2), (1, 3), (2, 3), (3, 4), (4, 5)],
    }
}

/// The layout, byte by byte.
#[test]
fn the_bytes_of_a_file() {
    let head = [
        72, 80, 70, 68, 1, 0, 22, 0, 2, 0, 38, 0, 2, 0, 46, 0, 6, 0, 130, 0, 6, 0,
    ];
    let templates = [1, 0, 0, 0, 0, 0, 0, 0, 2, 0, 1, 0, 2, 0, 255, 255];
    let arrays = [0, 0, 0, 0, 3, 1, 1, 0];
    let vertices = [
        [0, 0, 0, 0, 0, 0, 0, 0, 0, 0, 0, 0, 0, 0],
        [0, 0, 0, 0, 0, 0, 0, 0, 0, 0, 0, 0, 0x20, 0x10],
        [1, 1, 0, 1, 0, 0, 0, 0, 0, 0, 0, 0, 0, 0],
        [2, 1, 0, 0, 1, 0, 0, 0, 2, 0, 0, 1, 0, 0],
        [0, 0, 0, 0, 0, 0, 0, 0, 0, 0, 0, 0, 0x30, 0],
        [0, 0, 0, 0, 0, 0, 0, 0, 0, 0, 0, 0, 0, 0],
    ];
    let edges = [
        [0, 0, 1, 0],
        [1, 0, 2, 0],
        [1, 0, 3, 0],
        [2, 0, 3, 0],
        [3, 0, 4, 0],
        [4, 0, 5, 0],
    ];
    let file = [
        &head[..],
        &templates,
        &arrays,
        vertices.as_flattened(),
        edges.as_flattened(),
    ]
    .concat();
    assert_eq!(sample().bytes(), file);
    assert_eq!(file::parse(&file), Ok(sample()));
}

/// The example of docs/DIRECTIVES.md.
#[test]
fn the_example() {
    let file = EXAMPLE.program().bytes();
    assert_eq!(file.len(), 115);
    assert_eq!(file[60..73], [2, 0, 0, 0, 2, 0, 3, 0, 0, 0, 0, 0, 0]);
    let mut out = [0; 43];
    assert_eq!(convert(&file, &mut out), Outcome::written(43));
    assert_eq!(out[18..27], [0, 2, 0, 0, 0x00, 0x20, 0x41, 0x10, 0x00]);
    let with = |at: usize, byte: u8| {
        let mut file = file.clone();
        file[at] = byte;
        answer(&file)
    };
    assert_eq!(with(66, 0), (40, 66, 0));
    assert_eq!(with(72, 0x10), (40, 72, 0));
    assert_eq!(answer(&file[..114]), (40, 114, 0));
    assert_eq!(answer(&[&file[..], &[0]].concat()), (40, 115, 0));
}

#[test]
fn fields_in_order() {
    let with = |changes: &[(usize, u8)]| {
        let mut file = sample().bytes();
        for &(at, byte) in changes {
            file[at] = byte;
        }
        answer(&file)
    };
    // A word gives its first byte, also where only the high one is wrong.
    assert_eq!(with(&[(5, 1)]), (40, 4, 0));
    // Front to back: an offset goes before a count, the head before the bodies.
    assert_eq!(with(&[(8, 9), (6, 0)]), (40, 6, 0));
    assert_eq!(with(&[(8, 9), (30, 3)]), (40, 8, 0));
    assert_eq!(with(&[(22, 3), (45, 1)]), (40, 22, 0));
    // Edges: from, to, then the order.
    let second = 134;
    assert_eq!(with(&[(second, 5)]), (40, second as u64, 0));
    assert_eq!(with(&[(second + 2, 6)]), (40, second as u64 + 2, 0));
    assert_eq!(
        with(&[(second, 0), (second + 2, 0)]),
        (40, second as u64 + 2, 0)
    );
    assert_eq!(
        with(&[(second, 0), (second + 2, 1)]),
        (40, second as u64, 0)
    );
    assert_eq!(
        with(&[(second, 0), (second + 2, 6)]),
        (40, second as u64 + 2, 0)
    );
    assert_eq!(answer(&[]), (40, 0, 0));
    assert_eq!(answer(b"HPF"), (40, 3, 0));
    assert_eq!(answer(b"HXF"), (40, 1, 0));
    assert_eq!(answer(b"HPFR"), (40, 3, 0));
}

/// A file that is right up to its end gives its length, and one that goes on the byte behind.
#[test]
fn lengths() {
    let program = sample();
    let file = program.bytes();
    for changed in every_length(&file) {
        let place = changed.len().min(file.len()) as u64;
        assert_eq!(answer(&changed), (40, place, 0));
    }
    let largest = limits::largest().bytes();
    for length in 0..largest.len() {
        assert_eq!(answer(&largest[..length]), (40, length as u64, 0));
    }
    let longer = [&largest[..], &[0]].concat();
    assert_eq!(answer(&longer), (40, largest.len() as u64, 0));
}

/// Each wrong field has its place, in a whole file and in one that ends early.
#[test]
fn every_fault_of_one_field() {
    let mut tried = 0;
    for index in 0..300 {
        let mut rng = Rng::for_input(SEED, index);
        let program = match index {
            0 => sample(),
            _ => {
                let size = Size::small(&mut rng);
                directives::program(&mut rng, size)
            }
        };
        // Without its last edge a file is right whose count says so.
        let before_last = program.bytes().len() - EDGE;
        for fault in damage::faults(&program) {
            let file = fault.file(&program);
            let shown = || format!("seed {SEED}, index {index}\n{program}{fault:?}");
            assert_eq!(answer(&file), (40, fault.place as u64, 0), "{}", shown());
            let length = rng.below(before_last);
            let place = fault.place_within(length) as u64;
            assert_eq!(answer(&file[..length]), (40, place, 0), "{}", shown());
            tried += 1;
        }
    }
    assert!(tried > 100_000, "{tried}");
}

/// Of two wrong fields the first one counts, whatever follows it.
#[test]
fn faults_of_two_fields() {
    let mut tried = 0;
    for index in 0..20_000 {
        let mut rng = Rng::for_input(SEED + 1, index);
        let size = Size::small(&mut rng);
        let program = directives::program(&mut rng, size);
        let mut pair = [
            damage::any(&mut rng, &program),
            damage::any(&mut rng, &program),
        ];
        pair.sort_by_key(|fault| fault.end);
        if pair[1].at < pair[0].end {
            continue;
        }
        let mut file = program.bytes();
        for fault in &pair {
            fault.apply(&mut file);
        }
        let place = pair[0].place as u64;
        assert_eq!(answer(&file), (40, place, 0), "{index}\n{program}{pair:?}");
        tried += 1;
    }
    assert!(tried > 10_000, "{tried}");
}

/// Every byte counts: what is accepted is written back the same, and what is refused is refused
/// at the changed field or behind it, whatever stands behind the wrong field.
#[test]
fn every_byte_counts() {
    let file = sample().bytes();
    let mut accepted = 0;
    for (index, damaged) in every_byte(&file).enumerate() {
        let changed = index / 255;
        match file::parse(&damaged) {
            Ok(program) => {
                assert_eq!(program.bytes(), damaged);
                accepted += 1;
            }
            Err(Refusal { number, first, .. }) => {
                let place = first as usize;
                assert_eq!(number, 40);
                assert!(place + 4 > changed);
                let mut rng = Rng::for_input(SEED, index as u64);
                let mut other = damaged.clone();
                for byte in other.iter_mut().skip(place + 4) {
                    *byte = rng.byte();
                }
                assert_eq!(file::parse(&other), file::parse(&damaged));
            }
        }
    }
    assert!(accepted > 200, "{accepted}");
}

#[test]
fn drawn_files_are_read_back() {
    for index in 0..3_000 {
        let mut rng = Rng::for_input(SEED + 2, index);
        let size = Size::any(&mut rng);
        let program = directives::program(&mut rng, size);
        let file = program.bytes();
        assert_eq!(file::parse(&file).as_ref(), Ok(&program));
        let text = program.to_string();
        assert_eq!(Program::from_text(&text).as_ref(), Ok(&program), "{text}");
    }
}

#[test]
fn counts() {
    let smallest = limits::smallest().bytes();
    assert_eq!(smallest.len(), 22 + 8 + 4 + 26);
    assert_eq!(answer(&smallest), (0, 24, 0));
    let largest = limits::largest().bytes();
    assert_eq!((largest.len(), LONGEST_FILE), (9334, 9334));
    assert_eq!(answer(&largest), (0, 6194, 0));
    let everywhere = limits::directives_everywhere().bytes();
    assert_eq!(everywhere.len(), LONGEST_FILE);
    assert_eq!(answer(&everywhere), (0, 6194, 0));
    let against = limits::directives_against_numbers().bytes();
    assert_eq!(answer(&against), (0, 6194 - 11 * 4, 0));
    for (program, place) in limits::beyond() {
        assert_eq!(answer(&program.bytes()), (40, place as u64, 0));
    }
}
