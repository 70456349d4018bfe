//! The three forms of the label rules agree.

use harness::drive::named;
use harness::library::Input;
use harness::shrink::demand;
use oracle::builder::Draft;
use oracle::calls::Room;
use oracle::generate::limits;
use oracle::generate::rng::Rng;
use oracle::generate::routines::{self, Size};
use oracle::labels::fixpoint::{Solved, Wide};
use oracle::labels::{Label, Labels, fixpoint, literal, search};
use oracle::outcome::Refusal;
use oracle::routine::{MAX_VERSIONS, Routine};
use std::cell::RefCell;

const SEED: u64 = 1;

/// A form of the label rules: its refusal, the expanded routine, and its labels.
struct Reading {
    refusal: fn(&Routine) -> Option<Refusal>,
    expanded: for<'a> fn(&Routine<'a>, &'a mut Room) -> Routine<'a>,
    labels: fn(&Routine) -> Vec<Vec<Option<Label>>>,
}

const FIXPOINT: Reading = Reading {
    refusal: fixpoint::refusal,
    expanded: fixpoint::expanded,
    labels: fixpoint::labels,
};

const SEARCH: Reading = Reading {
    refusal: search::refusal,
    expanded: search::expanded,
    labels: search::labels,
};

const LITERAL: Reading = Reading {
    refusal: literal::refusal,
    expanded: literal::expanded,
    labels: literal::labels,
};

fn equal<T: PartialEq + std::fmt::Debug>(found: T, expected: T) -> Result<(), String> {
    if found == expected {
        Ok(())
    } else {
        Err(format!("{found:?} against {expected:?}"))
    }
}

/// What is asked of a well-formed routine; `name` says where it comes from.
fn each(name: &str, draft: &Draft, holds: &dyn Fn(&Routine) -> Result<(), String>) {
    let file = draft.bytes();
    assert!(Routine::parse(&file).is_ok(), "{name}: {draft:?}");
    demand(name, Input::plan(file), &|input| {
        Routine::parse(input.file()).map_or(Ok(()), |routine| holds(&routine))
    });
}

/// A refused routine without calls has labels too.
fn agrees(name: &str, draft: &Draft, slower: Reading) {
    each(name, draft, &|file| {
        let refusal = (slower.refusal)(file);
        equal((FIXPOINT.refusal)(file), refusal)?;
        if refusal.is_some() && file.call_count() > 0 {
            return Ok(());
        }
        let rooms = &mut [Room::EMPTY, Room::EMPTY];
        let [fast_room, slow_room] = rooms;
        let fast = (FIXPOINT.expanded)(file, fast_room);
        let slow = (slower.expanded)(file, slow_room);
        equal(fast.action_bytes(), slow.action_bytes())?;
        equal(fast.edges().collect(), slow.edges().collect::<Vec<_>>())?;
        equal((FIXPOINT.labels)(&fast), (slower.labels)(&slow))
    });
}

/// Where a drawn routine comes from.
fn drawn(seed: u64, index: u64) -> String {
    format!("seed {seed}, index {index}")
}

#[test]
fn named_routines() {
    for (index, (draft, _)) in named().into_iter().enumerate() {
        agrees(&format!("named {index}"), &draft, LITERAL);
        agrees(&format!("named {index}"), &draft, SEARCH);
    }
}

#[test]
fn all_routines_of_four_vertices() {
    for (index, draft) in routines::all_of_four_vertices().enumerate() {
        agrees(&format!("four vertices {index}"), &draft, LITERAL);
    }
}

/// Few, or so many that sets have 32 bits.
fn any_versions(rng: &mut Rng) -> usize {
    match rng.below(4) {
        0 => rng.between(17, MAX_VERSIONS),
        _ => rng.between(1, 3),
    }
}

#[test]
fn small_graphs() {
    for index in 0..20_000 {
        let mut rng = Rng::for_input(SEED, index);
        let size = Size {
            vertices: rng.between(2, 8),
            arrays: rng.between(1, 2),
            versions: any_versions(&mut rng),
            calls: routines::any_calls(&mut rng),
        };
        let edges = rng.between(size.vertices - 1, 2 * size.vertices);
        let spine = rng.chance(50);
        let mut draft = routines::graph(&mut rng, size, edges, spine);
        if rng.chance(50) {
            routines::make_acceptable(&mut rng, &mut draft);
        }
        agrees(&drawn(SEED, index), &draft, LITERAL);
        agrees(&drawn(SEED, index), &draft, SEARCH);
    }
}

#[test]
fn small_programs() {
    for index in 0..20_000 {
        let mut rng = Rng::for_input(SEED + 1, index);
        let size = Size {
            vertices: rng.between(3, 12),
            arrays: rng.between(1, 2),
            versions: any_versions(&mut rng),
            calls: routines::any_calls(&mut rng),
        };
        let mut draft = routines::program(&mut rng, size);
        if rng.chance(50) {
            routines::make_acceptable(&mut rng, &mut draft);
        }
        agrees(&drawn(SEED + 1, index), &draft, LITERAL);
    }
}

#[test]
fn routines_of_any_size() {
    for index in 0..1000 {
        let mut rng = Rng::for_input(SEED + 2, index);
        let size = Size::any(&mut rng);
        let draft = match rng.below(3) {
            0 => routines::program(&mut rng, size),
            1 => routines::any_graph(&mut rng, size),
            _ => routines::accepted(&mut rng, size),
        };
        agrees(&drawn(SEED + 2, index), &draft, SEARCH);
    }
}

/// Tables that were used before give the same labels, also where narrow sets would do.
#[test]
fn tables_used_again() {
    let seed = SEED + 3;
    let tables = RefCell::new(Solved::<Wide>::EMPTY);
    for index in 0..1000 {
        let mut rng = Rng::for_input(seed, index);
        let size = Size::any(&mut rng);
        let draft = routines::accepted(&mut rng, size);
        each(&drawn(seed, index), &draft, &|routine| {
            let mut solved = tables.borrow_mut();
            let mut room = Room::EMPTY;
            let Ok(routine) = solved.accept(routine, &mut room) else {
                return Ok(());
            };
            let labels = search::labels(&routine);
            (0..routine.vertex_count()).try_for_each(|vertex| {
                let found: Vec<(usize, Label)> = solved.at(vertex).collect();
                equal(found, labels.at(vertex).collect())
            })
        });
    }
}

#[test]
fn routines_at_the_limits() {
    let drafts = limits::at_limits(&mut Rng::new(SEED));
    for (index, draft) in drafts.iter().enumerate() {
        agrees(&format!("seed {SEED}, limit {index}"), draft, SEARCH);
    }
}
