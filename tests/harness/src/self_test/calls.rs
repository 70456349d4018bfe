//! Faults of all calls: lengths, inputs that are changed, memory that threads share.

use super::{FEW, converter, counter, outcome, planner, runner};
use crate::check::Difference;
use crate::drive::{compare, compare_conversions, compare_plans, compare_runs};
use crate::library::{Library, ORACLE};
use crate::raw::{self, CHANGED, Raw};
use oracle::directives::convert;
use oracle::outcome::Outcome;
use oracle::{plan, rounds, run};
use std::slice;
use std::sync::Mutex;
use std::thread;

/// A file's length taken modulo 65,536.
#[test]
fn a_file_length_of_16_bits() {
    fn faulty(file: &[u8], out: &mut [u8]) -> Outcome {
        plan::plan(&file[..file.len() % 65_536], out)
    }
    fn faulty_run(file: &[u8], path: &[u8], out: &mut [u8]) -> Outcome {
        run::run(&file[..file.len() % 65_536], path, out)
    }
    fn faulty_rounds(file: &[u8], out: &mut [u8]) -> Outcome {
        rounds::rounds(&file[..file.len() % 65_536], out)
    }
    let mismatches = [planner(faulty), runner(faulty_run), counter(faulty_rounds)];
    for (mismatch, _) in mismatches {
        assert_eq!(mismatch.fault.difference, Difference::Outcome);
        assert_eq!(mismatch.fault.expected.outcome, outcome(13, 18, 0));
        assert!(mismatch.kind.ends_with(", far too long"), "{mismatch}");
    }
    fn faulty_convert(file: &[u8], out: &mut [u8]) -> Outcome {
        convert::convert(&file[..file.len() % 65_536], out)
    }
    let (mismatch, _) = converter(faulty_convert);
    assert_eq!(mismatch.fault.expected.outcome.number, 40);
    assert_eq!(mismatch.kind, "conversion, far too long", "{mismatch}");
}

/// The oracle by pointers, which changes the last byte that it reads.
struct Scribbler;

/// The bytes behind a pointer, which is null if there are none.
///
/// # Safety
///
/// As for `Raw`.
unsafe fn bytes<'a>(start: *mut u8, length: usize) -> &'a mut [u8] {
    if length == 0 {
        return &mut [];
    }
    // SAFETY: the caller's.
    unsafe { slice::from_raw_parts_mut(start, length) }
}

impl Raw for Scribbler {
    unsafe fn plan(
        routine: *const u8,
        routine_len: usize,
        out: *mut u8,
        out_len: usize,
    ) -> Outcome {
        // SAFETY: the caller's; what is read lies in memory that may be changed.
        let (routine, out) =
            unsafe { (bytes(routine.cast_mut(), routine_len), bytes(out, out_len)) };
        let answer = plan::plan(routine, out);
        if answer.number == 21 {
            routine[routine_len - 1] ^= 1;
        }
        answer
    }

    unsafe fn run(
        routine: *const u8,
        routine_len: usize,
        path: *const u8,
        path_len: usize,
        out: *mut u8,
        out_len: usize,
    ) -> Outcome {
        // SAFETY: as in `plan`.
        let (routine, path, out) = unsafe {
            (
                bytes(routine.cast_mut(), routine_len),
                bytes(path.cast_mut(), path_len),
                bytes(out, out_len),
            )
        };
        let answer = run::run(routine, path, out);
        if answer.number == 32 {
            path[path_len - 1] ^= 1;
        }
        answer
    }

    unsafe fn convert(
        directives: *const u8,
        directives_len: usize,
        out: *mut u8,
        out_len: usize,
    ) -> Outcome {
        // SAFETY: as in `plan`.
        let (directives, out) = unsafe {
            (
                bytes(directives.cast_mut(), directives_len),
                bytes(out, out_len),
            )
        };
        let answer = convert::convert(directives, out);
        if answer.number == 42 {
            directives[directives_len - 1] ^= 1;
        }
        answer
    }

    unsafe fn rounds(
        routine: *const u8,
        routine_len: usize,
        out: *mut u8,
        out_len: usize,
    ) -> Outcome {
        // SAFETY: as in `plan`.
        let (routine, out) =
            unsafe { (bytes(routine.cast_mut(), routine_len), bytes(out, out_len)) };
        let answer = rounds::rounds(routine, out);
        if answer.number == 22 {
            routine[routine_len - 1] ^= 1;
        }
        answer
    }
}

/// A file, and a path, that is not as it was after the call.
#[test]
fn a_changed_input() {
    let library = raw::library::<Scribbler>();
    let rounds_alone = Library {
        rounds: library.rounds,
        ..ORACLE
    };
    for (mismatch, number) in [
        (compare_plans(&library, FEW).unwrap_err(), 21),
        (compare_runs(&library, FEW).unwrap_err(), 32),
        (compare_conversions(&library, FEW).unwrap_err(), 42),
        (compare_plans(&rounds_alone, FEW).unwrap_err(), 22),
    ] {
        assert_eq!(mismatch.fault.difference, Difference::Outcome);
        assert_eq!(mismatch.fault.expected.outcome.number, number);
        assert_eq!(mismatch.fault.found.outcome, CHANGED);
    }
}

/// A library that keeps its file where every thread finds it: right in one thread.
#[test]
fn threads_that_share_memory() {
    static KEPT: Mutex<Vec<u8>> = Mutex::new(Vec::new());
    fn keep(file: &[u8]) -> Vec<u8> {
        KEPT.lock().unwrap().clear();
        KEPT.lock().unwrap().extend(file);
        thread::yield_now();
        KEPT.lock().unwrap().clone()
    }
    let library = Library {
        plan: |file, out| plan::plan(&keep(file), out),
        run: |file, path, out| run::run(&keep(file), path, out),
        convert: |file, out| convert::convert(&keep(file), out),
        rounds: |file, out| rounds::rounds(&keep(file), out),
    };
    compare(&library, FEW).expect_err("the fault is not found");
}
