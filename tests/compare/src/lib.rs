//! The verified library, as what is held against the oracle.

use harness::library::Library;
use harness::raw::{self, Raw};
use hpf_remap::ffi::{self, hpf_convert, hpf_plan, hpf_rounds, hpf_run};
use oracle::directives::file;
use oracle::outcome::Outcome;
use oracle::plan::LONGEST_PLAN;
use oracle::rounds::LONGEST_ROUNDS;
use oracle::routine::LONGEST_FILE;
use oracle::run::{LONGEST_REPORT, MAX_PATH};

// The sizes that the bindings tell are those of document 01, and of directive files.
const _: () = assert!(
    hpf_remap::LARGEST_ROUTINE == LONGEST_FILE
        && hpf_remap::LARGEST_DIRECTIVES == file::LONGEST_FILE
        && hpf_remap::LARGEST_PLAN == LONGEST_PLAN
        && hpf_remap::LARGEST_REPORT == LONGEST_REPORT
        && hpf_remap::LARGEST_ROUNDS == LONGEST_ROUNDS
        && hpf_remap::LONGEST_PATH == MAX_PATH
);

/// The verified library by its safe calls.
pub const VERIFIED: Library = Library {
    plan: |routine, out| reply(hpf_remap::plan(routine, out)),
    run: |routine, path, out| reply(hpf_remap::run(routine, path, out)),
    convert: |directives, out| reply(hpf_remap::convert(directives, out)),
    rounds: |routine, out| reply(hpf_remap::rounds(routine, out)),
};

fn reply(result: Result<usize, hpf_remap::Refusal>) -> Outcome {
    match result {
        Ok(length) => Outcome::written(length),
        Err(refusal) => Outcome {
            number: refusal.number,
            first: refusal.first,
            second: refusal.second,
        },
    }
}

fn answer(outcome: ffi::Outcome) -> Outcome {
    let ffi::Outcome {
        number,
        first,
        second,
    } = outcome;
    Outcome {
        number,
        first,
        second,
    }
}

/// The verified library by pointers.
pub fn verified_by_pointers() -> Library {
    raw::library::<Pointers>()
}

struct Pointers;

impl Raw for Pointers {
    unsafe fn plan(
        routine: *const u8,
        routine_len: usize,
        out: *mut u8,
        out_len: usize,
    ) -> Outcome {
        // SAFETY: what `Raw` asks of its caller is what the call asks.
        answer(unsafe { hpf_plan(routine, routine_len, out, out_len) })
    }

    unsafe fn run(
        routine: *const u8,
        routine_len: usize,
        path: *const u8,
        path_len: usize,
        out: *mut u8,
        out_len: usize,
    ) -> Outcome {
        // SAFETY: as in `plan`.
        answer(unsafe { hpf_run(routine, routine_len, path, path_len, out, out_len) })
    }

    unsafe fn convert(
        directives: *const u8,
        directives_len: usize,
        out: *mut u8,
        out_len: usize,
    ) -> Outcome {
        // SAFETY: as in `plan`.
        answer(unsafe { hpf_convert(directives, directives_len, out, out_len) })
    }

    unsafe fn rounds(
        routine: *const u8,
        routine_len: usize,
        out: *mut u8,
        out_len: usize,
    ) -> Outcome {
        // SAFETY: as in `plan`.
        answer(unsafe { hpf_rounds(routine, routine_len, out, out_len) })
    }
}
