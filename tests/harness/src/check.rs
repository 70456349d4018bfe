//! One input held against the oracle, with buffers of several lengths.

use crate::library::{Form, Input, Library};
use oracle::calls::Room;
use oracle::directives::{demand4, file, sets};
use oracle::generate::limits;
use oracle::labels::fixpoint;
use oracle::outcome::Outcome;
use oracle::plan::LONGEST_PLAN;
use oracle::rounds::LONGEST_ROUNDS;
use oracle::routine::{LONGEST_FILE, Routine};
use oracle::{builder, demand3, passes, rounds};
use std::sync::LazyLock;

/// Bytes before and after a lent buffer that no call may touch.
const GUARD: usize = 64;

/// How much longer than needed the longest buffer is.
const SPARE: usize = 40;

/// In which way a library is wrong.
#[derive(Clone, Debug, PartialEq, Eq)]
pub enum Difference {
    /// A byte outside the buffer.
    Outside,
    /// Demand 3 of the library's own report, whatever the oracle's says.
    Demand3(String),
    /// The counts of edges in that report, against the path.
    Passes(String),
    /// The mappings of the versions in that report, against the directives.
    Mappings(String),
    /// Numbers of rounds that no pass takes, whatever the order of the edges.
    Rounds(String),
    /// Number, places or length.
    Outcome,
    /// A byte of the plan, report or routine, at this place.
    Written(usize),
    /// A byte beyond the length written, at this place.
    Beyond(usize),
    /// A byte of the buffer although the call is refused, at this place.
    Refused(usize),
}

/// What a call did with a buffer.
#[derive(Clone, Debug)]
pub struct Called {
    pub outcome: Outcome,
    pub buffer: Vec<u8>,
    /// Whether no byte outside the buffer was touched.
    inside: bool,
}

impl Called {
    /// The bytes written; none for a refusal, or where the length is beyond the buffer.
    fn written(&self) -> &[u8] {
        match self.outcome.number {
            0 => self.buffer.get(..self.outcome.first as usize),
            _ => None,
        }
        .unwrap_or_default()
    }
}

/// A difference, with what both did.
#[derive(Clone, Debug)]
pub struct Fault {
    pub difference: Difference,
    pub expected: Called,
    pub found: Called,
}

/// What an input showed on which both agree.
pub struct Checked {
    /// The number that each call answered.
    pub numbers: Vec<u64>,
    pub form: Form,
    /// Whether demand 3 and the counts of edges were judged.
    pub judged: bool,
    /// At so many references mappings were judged.
    pub references: usize,
    /// The answer with the longest buffer.
    pub answer: Outcome,
    /// The plan, report, routine or rounds; empty for a refusal.
    pub written: Vec<u8>,
}

/// A byte that stands at a place of a buffer before the call.
fn before(place: usize) -> u8 {
    (place * 151 + 37) as u8
}

/// Calls a library with a filled buffer of this length inside guard bytes.
fn call(library: &Library, input: &Input, length: usize) -> Called {
    let mut all: Vec<u8> = (0..length + 2 * GUARD).map(before).collect();
    let outcome = input.call(library, &mut all[GUARD..GUARD + length]);
    let untouched =
        |places: std::ops::Range<usize>| all[places.clone()].iter().copied().eq(places.map(before));
    let inside = untouched(0..GUARD) && untouched(GUARD + length..length + 2 * GUARD);
    all.truncate(GUARD + length);
    all.drain(..GUARD);
    Called {
        outcome,
        buffer: all,
        inside,
    }
}

/// Holds a library against the oracle on one input.
pub fn check(library: &Library, input: &Input) -> Result<Checked, Box<Fault>> {
    let form = Form::of(input);
    let oracle = form.oracle();
    let mut checked = Checked {
        numbers: Vec::new(),
        form,
        judged: false,
        references: 0,
        answer: Outcome::written(0),
        written: Vec::new(),
    };
    for (index, length) in lengths(&oracle, input).into_iter().enumerate() {
        let expected = call(&oracle, input, length);
        let found = call(library, input, length);
        // The first buffer is the longest; reports in the others are held against it.
        let judgement = match index {
            0 => judge(input, &expected, &found),
            _ => None,
        };
        checked.judged |= judgement.is_some();
        let broken = match judgement {
            Some(Ok(references)) => {
                checked.references = references;
                None
            }
            Some(Err(broken)) => Some(broken),
            None => None,
        };
        let difference = (!found.inside)
            .then_some(Difference::Outside)
            .or(broken)
            .or_else(|| difference(input, &expected, &found))
            .or_else(|| wrong_rounds(input, &found, (index > 0).then_some(&checked.written)));
        if let Some(difference) = difference {
            return Err(Box::new(Fault {
                difference,
                expected,
                found,
            }));
        }
        checked.numbers.push(found.outcome.number);
        if index == 0 {
            checked.answer = found.outcome;
            checked.written = found.written().to_vec();
        }
    }
    Ok(checked)
}

/// With room to spare, exact, one byte short and empty where a call succeeds; with room
/// for any plan, routine or rounds of such a file and empty where it is refused.
fn lengths(oracle: &Library, input: &Input) -> Vec<usize> {
    match input.call(oracle, &mut []) {
        Outcome {
            number: 1 | 2,
            first,
            ..
        } => {
            let needed = first as usize;
            vec![needed + SPARE, needed, needed - 1, 0]
        }
        // A directive file is longer than its routine. In a routine a call's byte becomes two labels
        // of 12 bytes, its row three of the plan's contents of 4.
        _ => match input {
            Input::Convert { directives } => vec![SPARE + directives.len().min(LONGEST_FILE), 0],
            Input::Rounds { .. } => vec![SPARE + LONGEST_ROUNDS, 0],
            _ => vec![SPARE + LONGEST_PLAN.min(40 * input.file().len()), 0],
        },
    }
}

/// Demand 3 of the library's report and its counts of edges, and for a directive file the mappings in
/// it: at how many references. It says nothing where file, path or buffer is refused.
fn judge(input: &Input, expected: &Called, found: &Called) -> Option<Result<usize, Difference>> {
    let path = input.path()?;
    let due = expected.outcome.number == 0 && found.outcome.number == 0;
    if !due {
        return None;
    }
    let report = found.written();
    let Input::ConvertAndRun { directives, .. } = input else {
        let demanded = demanded(input.file(), path, report);
        return Some(demanded.map(|()| 0));
    };
    let program = file::parse(directives).ok()?;
    let conversion = sets::conversion(&program).ok()?;
    let routine = conversion.routine(&program).bytes();
    let mapped = demand4::of_report(&program, &conversion.versions, path, report);
    let demanded = mapped.map_err(Difference::Mappings).and_then(|references| {
        self::demanded(&routine, path, report)?;
        Ok(references)
    });
    Some(demanded)
}

/// Demand 3 and the counts of edges.
fn demanded(routine: &[u8], path: &[u8], report: &[u8]) -> Result<(), Difference> {
    let mut room = Room::EMPTY;
    let file = Routine::parse(routine).expect("an accepted routine is well formed");
    let routine = fixpoint::expanded(&file, &mut room);
    demand3::of_report(&routine, path, report).map_err(Difference::Demand3)?;
    passes::of_report(&routine, path, report).map_err(Difference::Passes)
}

/// The numbers of rounds that the documents tell, of routines without calls.
static TOLD: LazyLock<[(Vec<u8>, [u16; 4]); 2]> = LazyLock::new(|| {
    [
        (builder::p().bytes(), [2, 0, 2, 3]),
        (limits::chain_both_ways().bytes(), [2, 0, 2, 255]),
    ]
});

/// What is wrong with the numbers of rounds that are written: in the longest buffer by themselves,
/// in the others if they are not the same.
fn wrong_rounds(input: &Input, found: &Called, longest: Option<&Vec<u8>>) -> Option<Difference> {
    let Input::Rounds { routine } = input else {
        return None;
    };
    let written = found.written();
    if written.is_empty() {
        return None;
    }
    let fault = match longest {
        Some(longest) => (written != longest).then(|| String::from("others in a longer buffer")),
        None => rounds::fault(routine, written).or_else(|| {
            let (_, told) = TOLD.iter().find(|(file, _)| file == routine)?;
            let is_told = written
                .iter()
                .copied()
                .eq(told.map(u16::to_le_bytes).concat());
            (!is_told).then(|| format!("not those that are told, {told:?}"))
        }),
    };
    fault.map(Difference::Rounds)
}

/// What differs. Numbers of rounds are the library's own, and not compared.
fn difference(input: &Input, expected: &Called, found: &Called) -> Option<Difference> {
    if found.outcome != expected.outcome {
        return Some(Difference::Outcome);
    }
    let own = match input {
        Input::Rounds { .. } => expected.written().len(),
        _ => 0,
    };
    let mut bytes = found.buffer.iter().zip(&expected.buffer).enumerate();
    let (place, _) = bytes.find(|(place, (byte, right))| *place >= own && byte != right)?;
    Some(if place < expected.written().len() {
        Difference::Written(place)
    } else if expected.outcome.number == 0 {
        Difference::Beyond(place)
    } else {
        Difference::Refused(place)
    })
}
