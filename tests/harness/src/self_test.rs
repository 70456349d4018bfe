//! The comparison itself, tried on the oracle with faults put in.

mod calls;
mod conversions;
mod interfaces;
mod kills;
mod passes;
mod plans;
mod rounds;
mod runs;
mod versions;

use crate::drawn::Drawn;
use crate::drive::{
    Mismatch, Options, compare, compare_conversions, compare_plans, compare_runs, named_directives,
};
use crate::library::{Convert, Form, Input, Library, ORACLE, Plan, Rounds, Run};
use oracle::builder::{self, Draft};
use oracle::calls::Room;
use oracle::directives::{Program, file};
use oracle::generate::directives::{self, EXAMPLE};
use oracle::labels::fixpoint;
use oracle::outcome::Outcome;
use oracle::routine::Routine;
use oracle::run::{COUNT, ENTRY};
use std::collections::BTreeMap;
use std::ops::Range;

const FEW: Options = Options {
    routines: 2000,
    paths: 1000,
    conversions: 500,
    seed: 1,
};

/// The mismatch that a faulty planner gives, and the parts of its small routine.
fn planner(faulty: Plan) -> (Box<Mismatch>, Option<Draft>) {
    let library = Library {
        plan: faulty,
        ..ORACLE
    };
    let mismatch = compare_plans(&library, FEW).expect_err("the fault is not found");
    in_parts(mismatch)
}

/// The mismatch that a faulty runner gives, and the parts of its small routine.
fn runner(faulty: Run) -> (Box<Mismatch>, Option<Draft>) {
    let library = Library {
        run: faulty,
        ..ORACLE
    };
    let mismatch = compare_runs(&library, FEW).expect_err("the fault is not found");
    in_parts(mismatch)
}

/// The mismatch that a faulty converter gives, and the contents of its small directive file.
fn converter(faulty: Convert) -> (Box<Mismatch>, Option<Program>) {
    let library = Library {
        convert: faulty,
        ..ORACLE
    };
    let mismatch = compare_conversions(&library, FEW).expect_err("the fault is not found");
    let (mismatch, _) = in_parts(mismatch);
    let program = file::parse(mismatch.input.file()).ok();
    (mismatch, program)
}

/// The mismatch that faulty rounds give, and the parts of their small routine.
fn counter(faulty: Rounds) -> (Box<Mismatch>, Option<Draft>) {
    let library = Library {
        rounds: faulty,
        ..ORACLE
    };
    let mismatch = compare_plans(&library, FEW).expect_err("the fault is not found");
    let (mismatch, draft) = in_parts(mismatch);
    assert!(matches!(mismatch.input, Input::Rounds { .. }), "{mismatch}");
    (mismatch, draft)
}

fn in_parts(mismatch: Box<Mismatch>) -> (Box<Mismatch>, Option<Draft>) {
    let text = mismatch.to_string();
    let found = format!("seed 1, {}, input {}\n", mismatch.kind, mismatch.index);
    assert!(text.contains(&found), "{text}");
    assert!(text.ends_with(&mismatch.input.to_string()), "{text}");
    let draft = Draft::from_bytes(mismatch.input.file());
    (mismatch, draft)
}

/// A file with its in arguments made inout: the rules label them at the exit, as they did in
/// arguments before request 1, but with W and not R.
fn labelled_home(file: &[u8]) -> Vec<u8> {
    let mut draft = Draft::from_bytes(file).unwrap();
    for record in &mut draft.arrays {
        if record[0] == builder::IN {
            record[0] = builder::INOUT;
        }
    }
    draft.bytes()
}

/// Shows an accepted file's routine with its calls expanded.
fn with_expanded<T>(file: &[u8], show: impl FnOnce(&Routine) -> T) -> T {
    let mut room = Room::EMPTY;
    let routine = Routine::parse(file).unwrap();
    show(&fixpoint::expanded(&routine, &mut room))
}

/// Where the records of a report on a file's routine stand.
fn records_in(file: &[u8], length: u64) -> Range<usize> {
    let routine = Routine::parse(file).unwrap();
    let end = length as usize - COUNT * routine.expanded_edge_count();
    ENTRY * routine.array_count()..end
}

fn outcome(number: u64, first: u64, second: u64) -> Outcome {
    Outcome {
        number,
        first,
        second,
    }
}

/// All kinds are tried, as often as they should be, and show what they should.
#[test]
fn the_oracle_agrees_with_itself() {
    let tally = compare(&ORACLE, FEW).unwrap();
    assert_eq!(tally.missing(), [""; 0], "{tally}");
    // 255 values for each byte, and every length up to eight more but its own: P, Q, S, T, T
    // without its read, U, Z, the read-only argument, the call, the calls in a loop and the
    // ambiguous call have 62, 52, 48, 42, 42, 58, 48, 38, 48, 61 and 50 bytes, and paths of 18, 8,
    // 10, 8, 6, 14, 10, 6, 16, 30 and 10; the four further routines that are drawn have 340.
    let (files, paths, drawn) = (549, 136, 340);
    let four_vertices = (4 * 49 + 2 * 51) * (1 << 9);
    // The example, the directive file of every statement and the drawn one have 115, 154 and 150
    // bytes.
    let damaged = 115 + 154 + 150;
    let named = named_directives();
    let sum = |size: fn(&Program) -> usize| named.iter().map(size).sum::<usize>() as u64;
    let expected = [
        ("converted run, damaged path", 50),
        ("converted run, path along edges", 250),
        ("converted run, path to the exit", 150),
        ("converted run, refused directives", 50),
        ("conversion, all of four vertices", 7 * 7 * (1 << 9)),
        ("conversion, as drawn", 150),
        ("conversion, chain with gaps", 25),
        ("conversion, every byte damaged", 255 * damaged),
        (
            "conversion, every length",
            sum(|program| program.bytes().len() + 8),
        ),
        ("conversion, far too long", 3),
        ("conversion, largest cut", 98),
        ("conversion, limits", 24 + 12 + 8),
        ("conversion, made acceptable", 100),
        ("conversion, many mappings", 25),
        ("conversion, named", named.len() as u64),
        ("conversion, named and varied", 100),
        (
            "conversion, one field wrong",
            sum(|program| directives::damage::faults(program).len()),
        ),
        ("conversion, refused by number", 50),
        ("conversion, two fields wrong", 50),
        ("plan, all of four vertices", four_vertices),
        ("plan, all of two rows", 3 * 11u64.pow(4)),
        ("plan, converted", 450),
        ("plan, every byte damaged", 255 * (files + drawn)),
        ("plan, every length", files + drawn + 15 * 8),
        ("plan, far too long", 3),
        ("plan, graph as drawn", 200),
        ("plan, graph made acceptable", 200),
        ("plan, in arguments", 200),
        ("plan, limits", 58 + 11),
        ("plan, named", 16),
        ("plan, program as drawn", 400),
        ("plan, program made acceptable", 200),
        ("plan, refused by number", 400),
        ("plan, several faults", 200),
        ("plan, two arrays of each kind", 200),
        ("run, all of four vertices", four_vertices),
        ("run, damaged path", 200),
        ("run, every byte damaged", 255 * files),
        ("run, every length", files + 11 * 8),
        ("run, every path byte damaged", 255 * paths),
        ("run, every path length", paths + 11 * 8),
        ("run, far too long", 6),
        ("run, in arguments to the exit", 200),
        ("run, limits", 11 + 58),
        ("run, named", 38),
        ("run, path along edges", 300),
        ("run, path into a call", 100),
        ("run, refused routine", 100),
        ("run, two arrays of each kind", 100),
    ];
    let planned = expected
        .iter()
        .filter(|(kind, _)| kind.starts_with("plan, "));
    let rounds = planned.map(|(_, count)| count).sum();
    let mut expected = BTreeMap::from(expected);
    expected.insert("rounds of what is planned", rounds);
    assert_eq!(tally.kinds, expected);
}

/// A generator that draws nothing but T without its read: only N, no run with a record.
#[test]
fn a_poor_generator() {
    let mut drawn = Drawn::default();
    let file = builder::t_without_read().bytes();
    let path = builder::path_bytes(&[0, 2, 3]);
    for input in [Input::plan(file.clone()), Input::run(file, path)] {
        let mut written = vec![0; 100];
        let answer = input.call(&ORACLE, &mut written);
        drawn.count(&input, answer, &written[..answer.first as usize]);
    }
    assert_eq!(
        drawn.lacking(),
        [
            "plans drawn: with calls",
            "plans drawn: two arrays of each kind",
            "plans drawn: refused by 22",
            "accepted plans: with calls",
            "  one that no path gets to",
            "  one in a loop",
            "  two in a row",
            "  one that does not pass every array",
            "accepted plans: with a kill",
            "  planned otherwise with modifies in its place",
            "accepted plans: an array of 17 versions or more",
            "labels of accepted plans: a version above 15",
            "  that leaves",
            "  in the reaching set",
            "  in the kept set",
            "labels of accepted plans: D",
            "labels of accepted plans: R",
            "labels of accepted plans: W",
            "labels of accepted plans: in",
            "runs drawn: two arrays of each kind",
            "accepted runs: with a copy",
            "accepted runs: fewer copies than remaps",
            "accepted runs: with a record",
            "accepted runs: with a kill",
            "  a read or modify that sees what it left",
            "  and after a copy of that",
            "accepted runs: a record in a version above 15",
            "  one live",
            "  one current, with a copy",
            "accepted runs: an edge passed more than once",
            "  one passed more than 63 times",
            "  a call's inner edges passed, not all",
            "accepted runs: to the exit, in argument",
            "  its last label not home",
            "  with a copy of it",
            "accepted runs: through a call",
            "accepted runs: end at a call's first vertex",
            "accepted runs: end at a call's second vertex",
        ]
    );
}

/// Which form of the label rules says what is expected.
#[test]
fn small_routines_are_expected_literally() {
    for draft in [
        builder::p(),
        builder::q(),
        builder::s(),
        builder::t(),
        builder::u(),
        builder::z(),
        builder::calls_in_a_loop(),
    ] {
        assert_eq!(Form::of(&Input::plan(draft.bytes())), Form::Literal);
    }
    let longer = Draft::chain(builder::LOCAL, 1, 0, &[0; 7]);
    assert_eq!(Form::of(&Input::plan(longer.bytes())), Form::Fixpoint);
    assert_eq!(Form::of(&Input::plan(b"HPFR".to_vec())), Form::NotAsked);
}

/// Which form of the directives' meaning says what is expected.
#[test]
fn small_directive_files_are_expected_by_states() {
    for program in named_directives() {
        let input = Input::convert(program.bytes());
        assert_eq!(Form::of(&input), Form::Literal);
    }
    let largest = directives::limits::largest().bytes();
    assert_eq!(Form::of(&Input::convert(largest.clone())), Form::Fixpoint);
    let both = |file: Vec<u8>| Form::of(&Input::convert_and_run(file, vec![0, 0]));
    assert_eq!(both(EXAMPLE.program().bytes()), Form::Literal);
    assert_eq!(both(largest), Form::Fixpoint);
    assert_eq!(both(b"HPFD".to_vec()), Form::NotAsked);
}
