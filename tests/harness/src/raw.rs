//! A library called by pointers, as C calls it: null wherever a length is 0, and what it reads
//! lies in memory that it could change.

use crate::library::Library;
use oracle::outcome::Outcome;
use std::ptr::null_mut;

/// The calls by pointers.
pub trait Raw {
    /// # Safety
    ///
    /// Each pointer is that of as many bytes as the length beside it says, or null if that
    /// length is 0. No two overlap.
    unsafe fn plan(routine: *const u8, routine_len: usize, out: *mut u8, out_len: usize)
    -> Outcome;

    /// # Safety
    ///
    /// As for `plan`.
    unsafe fn run(
        routine: *const u8,
        routine_len: usize,
        path: *const u8,
        path_len: usize,
        out: *mut u8,
        out_len: usize,
    ) -> Outcome;

    /// # Safety
    ///
    /// As for `plan`.
    unsafe fn convert(
        directives: *const u8,
        directives_len: usize,
        out: *mut u8,
        out_len: usize,
    ) -> Outcome;

    /// # Safety
    ///
    /// As for `plan`.
    unsafe fn rounds(
        routine: *const u8,
        routine_len: usize,
        out: *mut u8,
        out_len: usize,
    ) -> Outcome;
}

/// The answer for a call that changed what it was to read: no right call gives it.
pub const CHANGED: Outcome = Outcome {
    number: u64::MAX,
    first: 0,
    second: 0,
};

/// A library of these calls.
pub fn library<R: Raw>() -> Library {
    Library {
        plan: plan::<R>,
        run: run::<R>,
        convert: convert::<R>,
        rounds: rounds::<R>,
    }
}

fn start(bytes: &mut [u8]) -> *mut u8 {
    if bytes.is_empty() {
        null_mut()
    } else {
        bytes.as_mut_ptr()
    }
}

fn plan<R: Raw>(routine: &[u8], out: &mut [u8]) -> Outcome {
    let mut lent = routine.to_vec();
    // SAFETY: each pointer is that of a slice of the length beside it, or null and the
    // length is 0.
    let outcome = unsafe { R::plan(start(&mut lent), lent.len(), start(out), out.len()) };
    if lent == routine { outcome } else { CHANGED }
}

fn run<R: Raw>(routine: &[u8], path: &[u8], out: &mut [u8]) -> Outcome {
    let (mut lent, mut lent_path) = (routine.to_vec(), path.to_vec());
    // SAFETY: as in `plan`.
    let outcome = unsafe {
        R::run(
            start(&mut lent),
            lent.len(),
            start(&mut lent_path),
            lent_path.len(),
            start(out),
            out.len(),
        )
    };
    if lent == routine && lent_path == path {
        outcome
    } else {
        CHANGED
    }
}

fn convert<R: Raw>(directives: &[u8], out: &mut [u8]) -> Outcome {
    let mut lent = directives.to_vec();
    // SAFETY: as in `plan`.
    let outcome = unsafe { R::convert(start(&mut lent), lent.len(), start(out), out.len()) };
    if lent == directives { outcome } else { CHANGED }
}

fn rounds<R: Raw>(routine: &[u8], out: &mut [u8]) -> Outcome {
    let mut lent = routine.to_vec();
    // SAFETY: as in `plan`.
    let outcome = unsafe { R::rounds(start(&mut lent), lent.len(), start(out), out.len()) };
    if lent == routine { outcome } else { CHANGED }
}
