//! Demand 3 of the oracle's own runs, the last stamps included, and their counts of edges.

use harness::library::Input;
use harness::shrink::demand;
use oracle::builder::{self, Draft, path_bytes};
use oracle::calls::Room;
use oracle::generate::rng::Rng;
use oracle::generate::routines::{self, Size};
use oracle::generate::{limits, paths};
use oracle::labels::fixpoint::{self, Solved, Wide};
use oracle::routine::Routine;
use oracle::run::{ENTRY, LONGEST_REPORT, MAX_PATH, check_path, run};
use oracle::{demand3, passes};

const SEED: u64 = 2;

/// Demand 3 of the run and of the report's bytes, and the counts in these, where routine and path are well formed. A refused
/// routine without calls is run too.
fn holds(file: &[u8], path: &[u8]) -> Result<(), String> {
    let Ok(parsed) = Routine::parse(file) else {
        return Ok(());
    };
    let (mut solved, mut room) = (Solved::<Wide>::EMPTY, Room::EMPTY);
    let (accepted, routine) = match solved.accept(&parsed, &mut room) {
        Ok(routine) => (true, routine),
        Err(_) if parsed.call_count() == 0 => (false, parsed),
        Err(_) => return Ok(()),
    };
    if check_path(&routine, path).is_err() {
        return Ok(());
    }
    demand3::of_run(&routine, &solved, path)?;
    if !accepted {
        return Ok(());
    }
    let mut report = vec![0x5a; LONGEST_REPORT];
    let answer = run(file, path, &mut report);
    if answer.number != 0 {
        return Err(format!("{answer:?}"));
    }
    let report = &report[..answer.first as usize];
    demand3::of_report(&routine, path, report)?;
    passes::of_report(&routine, path, report)
}

/// `name` says where routine and path come from.
fn demand_3(name: &str, draft: &Draft, path: &[u16]) {
    let (file, path) = (draft.bytes(), path_bytes(path));
    let well_formed = Routine::parse(&file).is_ok_and(|routine| {
        let mut room = Room::EMPTY;
        let routine = fixpoint::expanded(&routine, &mut room);
        check_path(&routine, &path).is_ok()
    });
    let input = Input::run(file, path);
    assert!(well_formed, "{name}\n{input}");
    demand(name, input, &|input| {
        holds(input.file(), input.path().unwrap_or_default())
    });
}

#[test]
fn random_paths() {
    for index in 0..4000 {
        let mut rng = Rng::for_input(SEED, index);
        let size = Size::any(&mut rng);
        let draft = routines::accepted(&mut rng, size);
        let path = paths::any(&mut rng, &draft);
        demand_3(&format!("seed {SEED}, index {index}"), &draft, &path);
    }
}

/// Full paths with in arguments, whose caller's copy has stamp 65,535 then.
#[test]
fn in_arguments_to_the_exit() {
    let seed = SEED + 2;
    let mut full = 0;
    for index in 0..4000 {
        let mut rng = Rng::for_input(seed, index);
        let size = Size::any(&mut rng);
        let draft = routines::read_only(&mut rng, size);
        let path = paths::to_exit(&mut rng, &draft);
        full += u64::from(path.last() == Some(&(draft.places().len() as u16 - 1)));
        demand_3(&format!("seed {seed}, index {index}"), &draft, &path);
    }
    assert!(full > 3000, "{full} full paths");
}

/// Without calls demand 3 needs neither 20 nor 21.
#[test]
fn paths_through_refused_routines() {
    let seed = SEED + 1;
    for index in 0..4000 {
        let mut rng = Rng::for_input(seed, index);
        let size = Size {
            calls: 0,
            ..Size::any(&mut rng)
        };
        let draft = if rng.chance(50) {
            routines::program(&mut rng, size)
        } else {
            routines::any_graph(&mut rng, size)
        };
        let path = paths::any(&mut rng, &draft);
        demand_3(&format!("seed {seed}, index {index}"), &draft, &path);
    }
}

#[test]
fn the_longest_paths() {
    let (report, ring) = (limits::largest_report(), limits::ring_of_labels());
    demand_3("the largest report", &report, &limits::longest_path());
    demand_3("the ring", &ring, &limits::round_the_ring());
    let (report, path) = (limits::longest_report(), limits::longest_stay());
    demand_3("the longest report", &report, &path);
    let mut rng = Rng::new(SEED);
    let calls = limits::most_calls(&mut rng);
    let path = paths::walk(&mut rng, &calls, MAX_PATH);
    demand_3("the most calls", &calls, &path);
}

/// Every step round the ring copies: the machine does no more.
#[test]
fn the_most_copies() {
    let (file, path) = (
        limits::ring_of_labels().bytes(),
        path_bytes(&limits::round_the_ring()),
    );
    let mut report = [0; LONGEST_REPORT];
    assert_eq!(run(&file, &path, &mut report).number, 0);
    for head in report[..8 * ENTRY].chunks_exact(ENTRY) {
        assert_eq!(u16::from_le_bytes([head[0], head[1]]), 4095);
    }
}

/// A report that differs from the machine is found.
#[test]
fn invented_records_are_found() {
    let draft = builder::s();
    let file = draft.bytes();
    let path = path_bytes(&[0, 1, 2, 3, 4]);
    let routine = Routine::parse(&file).unwrap();
    let mut report = [0; 38];
    assert_eq!(run(&file, &path, &mut report).number, 0);
    assert_eq!(demand3::of_report(&routine, &path, &report), Ok(()));
    // Copies above the machine's count, a wrong version, kind, zero, stamps.
    for (place, byte) in [(0, 3), (11, 1), (12, 1), (13, 1), (16, 3), (24, 3), (26, 1)] {
        let mut wrong = report;
        wrong[place] = byte;
        assert!(demand3::of_report(&routine, &path, &wrong).is_err());
    }
    assert!(demand3::of_report(&routine, &path, &report[..28]).is_err());
}

/// Counts that are not those of the path are found: of another edge, more or fewer, or missing.
#[test]
fn invented_counts_are_found() {
    let file = builder::s().bytes();
    let path = path_bytes(&[0, 1, 2, 3, 4]);
    let routine = Routine::parse(&file).unwrap();
    let mut report = [0; 38];
    assert_eq!(run(&file, &path, &mut report).number, 0);
    assert_eq!(report[28..], [1, 0, 1, 0, 1, 0, 1, 0, 0, 0]);
    assert_eq!(passes::of_report(&routine, &path, &report), Ok(()));
    for (place, byte) in [(28, 2), (28, 0), (29, 1), (34, 0), (36, 1), (37, 1)] {
        let mut wrong = report;
        wrong[place] = byte;
        assert!(passes::of_report(&routine, &path, &wrong).is_err());
    }
    let mut moved = report;
    moved[28..].rotate_right(2);
    assert!(passes::of_report(&routine, &path, &moved).is_err());
    assert!(passes::of_report(&routine, &path, &report[..28]).is_err());
}

/// A full path's report in which the caller's copy of an in argument is not live, not alone or not
/// current, or was copied home, is found.
#[test]
fn a_lost_callers_copy_is_found() {
    let file = builder::read_only().bytes();
    let path = path_bytes(&[0, 1, 2, 3]);
    let routine = Routine::parse(&file).unwrap();
    let mut report = [0; 24];
    assert_eq!(run(&file, &path, &mut report).number, 0);
    assert_eq!(report[..8], [1, 0, 1, 0, 0, 0, 0, 0]);
    assert_eq!(demand3::of_report(&routine, &path, &report), Ok(()));
    for (place, byte) in [
        (0, 2),
        (2, 0),
        (2, 2),
        (2, 3),
        (3, 1),
        (4, 1),
        (5, 128),
        (6, 1),
        (6, 255),
    ] {
        let mut wrong = report;
        wrong[place] = byte;
        assert!(demand3::of_report(&routine, &path, &wrong).is_err());
    }
}
