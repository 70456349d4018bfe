//! The generators draw what they promise.

use harness::library::{Input, ORACLE};
use oracle::builder::{Draft, path_bytes};
use oracle::calls::{Part, is_call};
use oracle::generate::rng::Rng;
use oracle::generate::routines::{self, Size};
use oracle::generate::{damage, limits, paths};
use oracle::routine::{Kind, Routine};
use std::collections::HashSet;

const SEED: u64 = 5;

/// What is answered when there is no room; 1 and 2 say that the input is accepted.
fn answer(input: &Input) -> u64 {
    input.call(&ORACLE, &mut []).number
}

#[test]
fn refusals_have_their_number() {
    for number in damage::FILE_REFUSALS {
        for index in 0..300 {
            let mut rng = Rng::for_input(number, index);
            let input = Input::plan(damage::refused(&mut rng, number));
            assert_eq!(
                answer(&input),
                number,
                "seed {number}, index {index}\n{input}"
            );
        }
    }
}

/// The first edge is damaged too, and 20 meets rows that change several in arguments.
#[test]
fn refusals_have_any_place() {
    let refused = |number, index| damage::refused(&mut Rng::for_input(SEED, index), number);
    let first_edge = |file: &[u8]| u64::from(u16::from_le_bytes([file[14], file[15]]));
    let of_first_edge = (0..300).map(|index| refused(16, index)).filter(|file| {
        let place = Input::plan(file.clone()).call(&ORACLE, &mut []).first;
        place == first_edge(file)
    });
    assert!(of_first_edge.count() > 15);
    let several = (0..300).map(|index| refused(20, index)).filter(|file| {
        let routine = Routine::parse(file).unwrap();
        let place = Input::plan(file.clone()).call(&ORACLE, &mut []).first;
        let row = routine.row(place as usize).iter().zip(routine.arrays());
        let changes = |byte: u8| !matches!(byte, 0x00 | 0x10 | 0x60..=0x7f);
        row.filter(|(byte, array)| array.kind == Kind::In && changes(**byte))
            .count()
            > 1
    });
    assert!(several.count() > 60);
}

#[test]
fn routines_are_well_formed() {
    for index in 0..500 {
        let mut rng = Rng::for_input(SEED, index);
        let size = Size::any(&mut rng);
        for draft in [
            routines::program(&mut rng, size),
            routines::any_graph(&mut rng, size),
        ] {
            let input = Input::plan(draft.bytes());
            let drawn = format!("seed {SEED}, index {index}\n{input}");
            assert!(Routine::parse(input.file()).is_ok(), "{drawn}");
            assert_eq!(Draft::from_bytes(input.file()), Some(draft), "{drawn}");
        }
    }
}

#[test]
fn read_only_routines_have_in_arguments() {
    let seed = SEED + 2;
    for index in 0..500 {
        let mut rng = Rng::for_input(seed, index);
        let size = Size::any(&mut rng);
        let draft = routines::read_only(&mut rng, size);
        let input = Input::plan(draft.bytes());
        let drawn = format!("seed {seed}, index {index}\n{input}");
        assert_eq!(answer(&input), 1, "{drawn}");
        let routine = Routine::parse(input.file()).unwrap();
        assert!(
            routine.arrays().any(|array| array.kind == Kind::In),
            "{drawn}"
        );
    }
}

#[test]
fn routines_of_four_vertices_differ() {
    let files: HashSet<Vec<u8>> = routines::all_of_four_vertices()
        .map(|draft| draft.bytes())
        .collect();
    // 49 pairs of actions without calls, of each kind, and 51 with them, of two.
    assert_eq!(files.len(), (4 * 49 + 2 * 51) * (1 << 9));
}

/// The counts that the comparison is to meet.
#[test]
fn limits_have_their_counts() {
    let drafts = limits::at_limits(&mut Rng::new(SEED));
    let counts = |draft: &Draft| (draft.rows.len(), draft.edges.len());
    let accepted = |draft: &&Draft| answer(&Input::plan(draft.bytes())) == 1;
    let has_calls = |draft: &&Draft| draft.rows.iter().any(|row| is_call(row));
    let met: HashSet<(usize, usize)> = drafts.iter().filter(accepted).map(counts).collect();
    let with_calls: HashSet<(usize, usize)> = drafts
        .iter()
        .filter(accepted)
        .filter(has_calls)
        .map(|draft| counts(&draft.expanded()))
        .collect();
    for vertices in [32, 33] {
        for edges in [127, 128, 129] {
            let both = (vertices, edges);
            assert!(met.contains(&both), "{vertices} {edges}");
            assert!(with_calls.contains(&both), "{vertices} {edges}");
        }
    }
    assert!(met.contains(&(2, 0)) && met.contains(&(256, 1024)));
    for edges in [1023, 1024, 1025, 1026, 1191, 1192] {
        assert!(with_calls.contains(&(256, edges)), "{edges}");
    }
    assert_eq!(counts(&limits::chain_from_entry()), (256, 508));
    assert_eq!(counts(&limits::chain_both_ways()), (256, 1013));
}

#[test]
fn paths_follow_edges() {
    let seed = SEED + 1;
    let mut refused = [0; 33];
    for index in 0..500 {
        let mut rng = Rng::for_input(seed, index);
        let size = Size::any(&mut rng);
        let draft = routines::accepted(&mut rng, size);
        let path = path_bytes(&paths::any(&mut rng, &draft));
        let input = Input::run(draft.bytes(), path);
        assert_eq!(answer(&input), 2, "seed {seed}, index {index}\n{input}");
        let damaged = paths::damaged(&mut rng, &draft);
        refused[answer(&Input::run(draft.bytes(), damaged)) as usize] += 1;
    }
    assert!(refused[30..].iter().all(|&count| count > 20), "{refused:?}");
}

/// Paths into a call end at its first and at its second vertex.
#[test]
fn paths_end_inside_calls() {
    let seed = SEED + 3;
    let mut ends = [0; 2];
    for index in 0..500 {
        let mut rng = Rng::for_input(seed, index);
        let size = Size::any(&mut rng);
        let draft = routines::accepted(&mut rng, size);
        let path = paths::into_call(&mut rng, &draft);
        let last = path.last().map_or(0, |&vertex| usize::from(vertex));
        match draft.places()[last].part {
            Part::Before => ends[0] += 1,
            Part::Inside => ends[1] += 1,
            Part::Whole | Part::After => {}
        }
        let input = Input::run(draft.bytes(), path_bytes(&path));
        assert_eq!(answer(&input), 2, "seed {seed}, index {index}\n{input}");
    }
    assert!(ends.iter().all(|&count| count > 80), "{ends:?}");
}
