//! Calls of the oracle's own accepted routines: what comes back is what the source names, and an
//! expanded routine is one as if its calls had been written out.

use harness::library::{Input, ORACLE};
use harness::shrink::demand;
use oracle::builder::{Draft, path_bytes};
use oracle::calls::{Call, Part, Place, Room};
use oracle::generate::rng::Rng;
use oracle::generate::routines::{self, Size};
use oracle::generate::{limits, paths};
use oracle::labels::fixpoint::{Solved, Wide};
use oracle::outcome::Outcome;
use oracle::routine::{Action, Array, MAX_EDGES, Routine};
use oracle::run::{MAX_PATH, check_path, vertices};

const SEED: u64 = 3;

/// The machine's held version of each array, along a path; at each call also the version that was
/// held before it. The source names a version at the entry, at remappings and at the exit.
struct Walk {
    held: Vec<u8>,
    before_call: Vec<u8>,
}

impl Walk {
    fn start(arrays: &[Array]) -> Walk {
        let initial: Vec<u8> = arrays.iter().map(|array| array.initial).collect();
        Walk {
            held: initial.clone(),
            before_call: initial,
        }
    }

    /// Takes a vertex of the expanded routine, and says what is wrong with its row there.
    fn step(&mut self, file: &Routine, place: Place, row: &[u8]) -> Result<(), String> {
        if place.part == Part::Before {
            self.before_call.clone_from(&self.held);
        }
        for (array, &byte) in row.iter().enumerate() {
            let called = match Action::from_byte(file.row(place.vertex)[array]) {
                Some(Action::Call(call)) => Some(call),
                _ => None,
            };
            let named = match Action::from_byte(byte) {
                Some(Action::Remap(version)) => Some(version),
                _ => None,
            };
            let due = match (place.part, called) {
                (Part::Whole, _) => named,
                (Part::Before, Some(Call { version, .. })) => Some(version),
                (Part::After, Some(_)) => Some(self.before_call[array]),
                _ => None,
            };
            if named != due {
                return Err(format!("{place:?}, array {array}: {named:?}, due {due:?}"));
            }
            self.held[array] = named.unwrap_or(self.held[array]);
            if place.part == Part::Inside && called.is_some_and(|c| c.version != self.held[array]) {
                return Err(format!(
                    "{place:?}, array {array}: {} held",
                    self.held[array]
                ));
            }
        }
        Ok(())
    }
}

/// On a path of an accepted routine each remapping back names what the source names before the
/// call; how many calls were left.
fn names_the_same(file: &[u8], path: &[u8]) -> Result<usize, String> {
    let Ok(parsed) = Routine::parse(file) else {
        return Ok(0);
    };
    let (mut solved, mut room) = (Solved::<Wide>::EMPTY, Room::EMPTY);
    let Ok(routine) = solved.accept(&parsed, &mut room) else {
        return Ok(0);
    };
    if check_path(&routine, path).is_err() {
        return Ok(0);
    }
    let places = Draft::from_bytes(file).map_or_else(Vec::new, |draft| draft.places());
    let mut walk = Walk::start(&routine.arrays().collect::<Vec<_>>());
    for vertex in vertices(path) {
        walk.step(&parsed, places[vertex], routine.row(vertex))?;
    }
    let left = |vertex: &usize| places[*vertex].part == Part::After;
    Ok(vertices(path).filter(left).count())
}

/// The answer and bytes of the oracle.
fn called(input: &Input) -> (Outcome, Vec<u8>) {
    let needed = match input.call(&ORACLE, &mut []) {
        Outcome {
            number: 1 | 2,
            first,
            ..
        } => first as usize,
        _ => 0,
    };
    let mut out = vec![0; needed];
    let outcome = input.call(&ORACLE, &mut out);
    (outcome, out)
}

/// An accepted routine is planned and run as the expanded one would be as a file of its own, where
/// a file may have as many edges.
fn is_as_written_out(input: &Input) -> Result<(), String> {
    let (outcome, bytes) = called(input);
    let draft = Draft::from_bytes(input.file()).unwrap_or_default();
    if outcome.number != 0 {
        return Ok(());
    }
    let expanded = draft.expanded();
    if expanded.edges.len() > MAX_EDGES {
        return Ok(());
    }
    let (found, found_bytes) = called(&input.with_file(expanded.bytes()));
    if (found, found_bytes) == (outcome, bytes) {
        Ok(())
    } else {
        Err(format!("{outcome:?}, written out {found:?}"))
    }
}

/// Asks the first of a routine along a path; `name` says where they come from. Gives how many calls
/// the path left.
fn demand_names(name: &str, draft: &Draft, path: &[u16]) -> usize {
    let path = path_bytes(path);
    let input = Input::run(draft.bytes(), path.clone());
    demand(name, input, &|input| {
        let path = input.path().unwrap_or_default();
        names_the_same(input.file(), path).map(|_| ())
    });
    names_the_same(&draft.bytes(), &path).unwrap_or(0)
}

/// Asks both.
fn demand_both(name: &str, draft: &Draft, path: &[u16]) -> usize {
    demand(name, Input::plan(draft.bytes()), &is_as_written_out);
    let input = Input::run(draft.bytes(), path_bytes(path));
    demand(name, input, &is_as_written_out);
    demand_names(name, draft, path)
}

#[test]
fn random_paths() {
    let mut left = 0;
    for index in 0..6000 {
        let mut rng = Rng::for_input(SEED, index);
        let size = Size::any(&mut rng);
        let draft = routines::accepted(&mut rng, size);
        let path = match index % 3 {
            0 => paths::any(&mut rng, &draft),
            1 => paths::to_exit(&mut rng, &draft),
            _ => paths::into_call(&mut rng, &draft),
        };
        left += demand_both(&format!("seed {SEED}, index {index}"), &draft, &path);
    }
    assert!(left > 20_000, "{left} calls left");
}

/// Every path of up to eleven vertices through small routines, longer ones cut there.
#[test]
fn every_path_of_small_routines() {
    let seed = SEED + 1;
    let mut left = 0;
    for index in 0..150 {
        let mut rng = Rng::for_input(seed, index);
        let size = Size {
            vertices: rng.between(5, 12),
            arrays: rng.between(1, 2),
            versions: rng.between(2, 3),
            calls: 50,
        };
        let draft = routines::accepted(&mut rng, size);
        let successors = draft.expanded().successors();
        let mut open = vec![vec![0]];
        while let Some(path) = open.pop() {
            let next = &successors[usize::from(path[path.len() - 1])];
            if path.len() == 11 || next.is_empty() {
                left += demand_names(&format!("seed {seed}, index {index}"), &draft, &path);
                continue;
            }
            open.extend(next.iter().map(|&vertex| {
                let mut longer = path.clone();
                longer.push(vertex);
                longer
            }));
        }
    }
    assert!(left > 10_000, "{left} calls left");
}

#[test]
fn at_the_limits() {
    let mut rng = Rng::new(SEED);
    let mut left = 0;
    for (index, draft) in limits::at_limits(&mut rng).iter().enumerate() {
        let path = paths::walk(&mut rng, draft, MAX_PATH);
        left += demand_both(&format!("seed {SEED}, limit {index}"), draft, &path);
    }
    assert!(left > 5000, "{left} calls left");
}
