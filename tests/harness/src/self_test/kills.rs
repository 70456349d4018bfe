//! Faults about kills.

use super::{converter, outcome, planner, records_in, runner};
use crate::check::Difference;
use crate::library::{Convert, Plan, Run};
use oracle::builder::{DEFINE, Draft, IN, KILL, MODIFY, READ};
use oracle::directives::{Statement, convert, file};
use oracle::outcome::Outcome;
use oracle::plan;
use oracle::record::RECORD;
use oracle::routine::Routine;
use oracle::run;

/// A file whose parts fit together, with another byte for each kill.
fn with_byte(file: &[u8], byte: u8) -> Vec<u8> {
    let Some(mut draft) = Draft::from_bytes(file) else {
        return file.to_vec();
    };
    let bytes = draft.rows.iter_mut().flatten();
    bytes
        .filter(|byte| **byte == KILL)
        .for_each(|kill| *kill = byte);
    draft.bytes()
}

/// A kill is planned as a modify, a read or nothing, or is unknown.
#[test]
fn planned_as_something_else() {
    fn faulty<const BYTE: u8>(file: &[u8], out: &mut [u8]) -> Outcome {
        plan::plan(&with_byte(file, BYTE), out)
    }
    for (faulty, vertices) in [
        (faulty::<MODIFY> as Plan, 3),
        (faulty::<READ>, 3),
        (faulty::<0>, 3),
        (faulty::<0xff>, 3),
    ] {
        let (mismatch, draft) = planner(faulty);
        let draft = draft.unwrap();
        let bytes = draft.rows.iter().flatten();
        assert!(bytes.clone().any(|&byte| byte == KILL), "{mismatch}");
        assert!(draft.rows.len() <= vertices, "{mismatch}");
    }
}

/// A kill of an in argument is accepted.
#[test]
fn an_in_argument_killed() {
    fn faulty(file: &[u8], out: &mut [u8]) -> Outcome {
        match plan::plan(file, &mut []) {
            Outcome {
                number: 20,
                first,
                second,
            } => {
                let mut draft = Draft::from_bytes(file).unwrap();
                let byte = &mut draft.rows[first as usize][second as usize];
                if *byte == KILL {
                    *byte = READ;
                }
                plan::plan(&draft.bytes(), out)
            }
            _ => plan::plan(file, out),
        }
    }
    let (mismatch, draft) = planner(faulty);
    assert_eq!(mismatch.fault.expected.outcome, outcome(20, 1, 0));
    let draft = draft.unwrap();
    assert_eq!(draft.arrays, [[IN, 1, 0, 0]], "{mismatch}");
}

/// A kill beside a remapping or a call is accepted, or is of a family of its own beside other
/// references.
#[test]
fn another_family() {
    fn alone(file: &[u8], out: &mut [u8]) -> Outcome {
        let answer = plan::plan(file, out);
        if answer.number == 19 {
            let mut draft = Draft::from_bytes(file).unwrap();
            let index = answer.first as usize - 18 - 4 * draft.arrays.len();
            let row = &mut draft.rows[index / draft.arrays.len()];
            if row.contains(&KILL) {
                row.fill(KILL);
                return plan::plan(&draft.bytes(), out);
            }
        }
        answer
    }
    fn beside_references(file: &[u8], out: &mut [u8]) -> Outcome {
        if let Ok(routine) = Routine::parse(file) {
            for vertex in 0..routine.vertex_count() {
                let row = routine.row(vertex);
                let kill = row.iter().position(|&byte| byte == KILL);
                let other = row.iter().position(|&byte| byte != 0 && byte != KILL);
                if let (Some(kill), Some(other)) = (kill, other) {
                    let first = 18 + 4 * row.len() + vertex * row.len();
                    return outcome(19, (first + kill.max(other)) as u64, 0);
                }
            }
        }
        plan::plan(file, out)
    }
    for faulty in [alone as Plan, beside_references] {
        let (mismatch, draft) = planner(faulty);
        assert_eq!(mismatch.fault.difference, Difference::Outcome);
        let draft = draft.unwrap();
        assert_eq!((draft.arrays.len(), draft.rows.len()), (2, 3), "{mismatch}");
    }
}

/// The report of a run in which kills were something else, with their kind put in again.
fn ran_as<const BYTE: u8>(file: &[u8], path: &[u8], out: &mut [u8]) -> Outcome {
    let answer = run::run(&with_byte(file, BYTE), path, out);
    if answer.number == 0 {
        let mut right = vec![0; answer.first as usize];
        run::run(file, path, &mut right);
        let records = records_in(file, answer.first);
        let right = right[records.clone()].chunks_exact(RECORD);
        let records = out[records].chunks_exact_mut(RECORD);
        for (record, right) in records.zip(right) {
            record[4] = right[4];
        }
    }
    answer
}

/// A kill gives its step as stamp, in its record and to later reads.
#[test]
fn the_step_as_stamp() {
    let (mismatch, draft) = runner(ran_as::<DEFINE>);
    let difference = &mismatch.fault.difference;
    assert!(matches!(difference, Difference::Demand3(_)), "{mismatch}");
    assert_eq!(draft.unwrap().rows.len(), 3, "{mismatch}");
}

/// A kill needs the old value: it is copied before.
#[test]
fn copied_before_a_kill() {
    let (mismatch, draft) = runner(ran_as::<MODIFY>);
    assert_eq!(mismatch.fault.difference, Difference::Written(0));
    assert_eq!(draft.unwrap().rows.len(), 5, "{mismatch}");
}

/// The stamp stays as it was, so that a later read sees it; or the record alone says 0.
#[test]
fn a_stamp_that_stays() {
    fn faulty<const STEP: bool>(file: &[u8], path: &[u8], out: &mut [u8]) -> Outcome {
        let answer = run::run(file, path, out);
        if answer.number == 0 {
            let arrays = Routine::parse(file).unwrap().array_count();
            let mut stamps = vec![None; arrays];
            let records = &mut out[records_in(file, answer.first)];
            for record in records.chunks_exact_mut(RECORD) {
                let stamp = &mut stamps[usize::from(record[2])];
                match record[4] {
                    1 => {
                        if let Some(stamp) = *stamp {
                            record[6..8].copy_from_slice(&u16::to_le_bytes(stamp));
                        }
                    }
                    4 if STEP => *stamp = Some(u16::from_le_bytes([record[0], record[1]])),
                    4 => *stamp = stamp.or(Some(1)),
                    _ => *stamp = None,
                }
            }
        }
        answer
    }
    for faulty in [faulty::<true>, faulty::<false>] {
        let (mismatch, draft) = runner(faulty);
        let difference = &mismatch.fault.difference;
        assert!(matches!(difference, Difference::Demand3(_)), "{mismatch}");
        assert!(draft.unwrap().rows.len() <= 4, "{mismatch}");
    }
}

/// A kill appears as a define, or not at all.
#[test]
fn another_kind() {
    fn as_define(file: &[u8], path: &[u8], out: &mut [u8]) -> Outcome {
        let answer = run::run(file, path, out);
        if answer.number == 0 {
            let records = out[records_in(file, answer.first)].chunks_exact_mut(RECORD);
            records
                .filter(|record| record[4] == 4)
                .for_each(|record| record[4] = 2);
        }
        answer
    }
    fn left_out(file: &[u8], path: &[u8], out: &mut [u8]) -> Outcome {
        match run::run(file, path, &mut []).number {
            2 => run::run(&with_byte(file, 0), path, out),
            _ => run::run(file, path, out),
        }
    }
    for faulty in [as_define as Run, left_out] {
        let (mismatch, draft) = runner(faulty);
        assert_eq!(draft.unwrap().rows.len(), 3, "{mismatch}");
    }
}

/// A converter refuses a kill, makes another reference of it, or nothing.
#[test]
fn converted_to_something_else() {
    fn unknown(directives: &[u8], out: &mut [u8]) -> Outcome {
        if let Ok(program) = file::parse(directives) {
            let arrays = program.arrays.len();
            for (vertex, statement) in program.vertices.iter().enumerate() {
                if let Statement::References(row) = statement
                    && let Some(array) = row.iter().position(|&byte| byte == KILL)
                {
                    let first = file::HEAD + file::TEMPLATE * program.templates.len();
                    let rows = first + file::ARRAY * arrays + file::VERTEX;
                    let place = rows + vertex * (file::VERTEX + arrays) + array;
                    return outcome(40, place as u64, 0);
                }
            }
        }
        convert::convert(directives, out)
    }
    fn other<const BYTE: u8>(directives: &[u8], out: &mut [u8]) -> Outcome {
        let answer = convert::convert(directives, out);
        if answer.number == 0 {
            let routine = &mut out[..answer.first as usize];
            let changed = with_byte(routine, BYTE);
            routine.copy_from_slice(&changed);
        }
        answer
    }
    for faulty in [unknown as Convert, other::<DEFINE>, other::<0>] {
        let (mismatch, program) = converter(faulty);
        let program = program.unwrap();
        assert_eq!(program.vertices[1], Statement::References(vec![KILL]));
        assert_eq!(program.vertices.len(), 3, "{mismatch}");
    }
}
