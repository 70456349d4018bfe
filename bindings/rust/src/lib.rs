//! Array remapping by copies for High Performance Fortran, from Rust: safe calls of the
//! verified static library. include/hpf_remap.h tells the formats and every answer.
//!
//! A call keeps no state, takes no memory but some stack, and may run in any number of
//! threads at once.
//!
//! ```
//! let refusal = hpf_remap::plan(b"HPFR", &mut []).unwrap_err();
//! assert_eq!(refusal.to_string(), "10 4 0");
//! assert_eq!(hpf_remap::refusal::text(10), Some("the routine is too short, or its mark is wrong"));
//! ```
//!
//! A routine's bytes say at each vertex what it does with each array. One of them, 80, kills: no value
//! of the array is needed until it is defined again. It is a define that gives no value, and kind 4 in
//! a report. A local array of two versions, along the path 0 1 2 3 4:
//!
//! ```
//! let mut routine = b"HPFR\x01\0\x12\0\x01\0\x16\0\x06\0\x1c\0\x05\0".to_vec();
//! routine.extend([0, 2, 0, 0]); // local, two versions, initial 0
//! routine.extend([0x00, 0x20, 0x41, 0x80, 0x10, 0x00]); // 1 define, 2 remap to 1, 3 kill, 4 read
//! routine.extend([0, 0, 1, 0, 1, 0, 2, 0, 2, 0, 3, 0, 3, 0, 4, 0, 4, 0, 5, 0]); // edges 0-1 to 4-5
//! let path = [0, 0, 1, 0, 2, 0, 3, 0, 4, 0];
//! let mut report = [0; 48];
//! assert_eq!(hpf_remap::run(&routine, &path, &mut report), Ok(48));
//! assert_eq!(report[..8], [0, 0, 2, 0, 0, 0, 1, 0]); // no copy, version 1 is live and current
//! assert_eq!(report[18..28], [4, 0, 0, 1, 4, 0, 0, 0, 0, 0]); // step 4 kills version 1
//! assert_eq!(report[28..38], [5, 0, 0, 1, 1, 0, 0, 0, 0, 0]); // step 5 reads it and sees 0
//! assert_eq!(report[38..48], [1, 0, 1, 0, 1, 0, 1, 0, 0, 0]); // each edge is passed once, 4-5 never
//! ```
//!
//! [`convert`] makes a routine of a directive file, which says `distribute`, `align`,
//! `redistribute` and `realign` in place of version numbers; docs/DIRECTIVES.md tells its format.
//! One template and one array, whose mapping is changed between a define and a read:
//!
//! ```
//! let mut directives = b"HPFD\x01\0\x16\0\x01\0\x1e\0\x01\0\x22\0\x05\0\x63\0\x04\0".to_vec();
//! directives.extend([1, 0, 0, 0, 0, 0, 0, 0]); // distribute T(block, *)
//! directives.extend([0, 0, 0, 0]); // align A with T, straight
//! directives.extend([0; 13]); // the entry
//! directives.extend([0, 0, 0, 0, 0, 0, 0, 0, 0, 0, 0, 0, 0x20]); // 1 define A
//! directives.extend([2, 0, 0, 0, 2, 0, 3, 0, 0, 0, 0, 0, 0]); // 2 redistribute T(cyclic(3), *)
//! directives.extend([0, 0, 0, 0, 0, 0, 0, 0, 0, 0, 0, 0, 0x10]); // 3 read A
//! directives.extend([0; 13]); // 4 the exit
//! directives.extend([0, 0, 1, 0, 1, 0, 2, 0, 2, 0, 3, 0, 3, 0, 4, 0]); // edges 0-1, 1-2, 2-3, 3-4
//! let mut routine = [0; hpf_remap::LARGEST_ROUTINE];
//! assert_eq!(hpf_remap::convert(&directives, &mut routine), Ok(43));
//! assert_eq!(routine[18..22], [0, 2, 0, 0]); // a local array of two versions
//! assert_eq!(routine[22..27], [0x00, 0x20, 0x41, 0x10, 0x00]); // define, remap to 1, read
//! ```
//!
//! [`rounds`] tells how many rounds over the edges each pass of the planner takes. Three vertices,
//! and a local array that is defined, remapped nowhere and read by nobody:
//!
//! ```
//! let mut routine = b"HPFR\x01\0\x12\0\x01\0\x16\0\x03\0\x19\0\x02\0".to_vec();
//! routine.extend([0, 1, 0, 0]); // a local array of one version
//! routine.extend([0x00, 0x20, 0x00]); // 1 define
//! routine.extend([0, 0, 1, 0, 1, 0, 2, 0]); // edges 0-1, 1-2
//! let mut rounds = [0; hpf_remap::LARGEST_ROUNDS];
//! assert_eq!(hpf_remap::rounds(&routine, &mut rounds), Ok(8)); // no calls: four passes
//! let number = |pass: usize| u16::from_le_bytes([rounds[2 * pass], rounds[2 * pass + 1]]);
//! let [letters, reached, reaching, kept] = [0, 1, 2, 3].map(number);
//! assert_eq!((letters, reaching), (2, 2)); // one round that finds all, and one more
//! assert_eq!(reached, 0); // no pass: each vertex but the entry is entered from an earlier one
//! assert_eq!(kept, 1); // no label lies ahead of any vertex, so that even the first finds nothing
//! ```
//!
//! [`planned`], [`converted`] and [`ran`] give bytes of their own. [`Plan`] and [`Report`] read what
//! was written:
//!
//! ```
//! # let mut routine = b"HPFR\x01\0\x12\0\x01\0\x16\0\x03\0\x19\0\x02\0".to_vec();
//! # routine.extend([0, 1, 0, 0, 0x00, 0x20, 0x00, 0, 0, 1, 0, 1, 0, 2, 0]);
//! use hpf_remap::{Plan, Report, formats::Letter};
//!
//! let plan = hpf_remap::planned(&routine)?; // the routine of three vertices again
//! let labels: Vec<_> = Plan::new(&plan).unwrap().labels().collect();
//! assert_eq!((labels[0].letter, labels[0].leaving, labels[0].kept), (Letter::D, Some(0), 1));
//!
//! let report = hpf_remap::ran(&routine, &[0, 0, 1, 0])?; // vertices 0 and 1
//! let report = Report::new(&routine, &report).unwrap();
//! let given: Vec<_> = report.records().map(|record| record.given).collect();
//! assert_eq!(given, [2]); // the define is step 2
//! # Ok::<(), hpf_remap::Refusal>(())
//! ```

pub mod formats;
pub mod refusal;
mod views;

use ffi::Outcome;
pub use refusal::Refusal;
pub use views::{Entry, Label, Plan, Record, Report};

/// So many bytes suffice for any routine that is accepted.
pub const LARGEST_ROUTINE: usize = 6194;

/// So many bytes suffice for any directive file that is accepted.
pub const LARGEST_DIRECTIVES: usize = 9334;

/// So many bytes suffice for any plan.
pub const LARGEST_PLAN: usize = 25_608;

/// So many bytes suffice for any report.
pub const LARGEST_REPORT: usize = 330_048;

/// So many bytes suffice for the rounds of any routine.
pub const LARGEST_ROUNDS: usize = 12;

/// The most vertices of a path.
pub const LONGEST_PATH: usize = 4096;

/// The calls as C has them. Each pointer is that of as many bytes as the length beside it says,
/// or null if that length is 0; what is written must not overlap what is read.
pub mod ffi {
    /// What a call answers: number 0 and the length written, or a refusal and its two places.
    #[repr(C)]
    #[derive(Clone, Copy, Debug, PartialEq, Eq)]
    pub struct Outcome {
        pub number: u64,
        pub first: u64,
        pub second: u64,
    }

    unsafe extern "C" {
        pub fn hpf_plan(
            routine: *const u8,
            routine_len: usize,
            plan: *mut u8,
            plan_len: usize,
        ) -> Outcome;

        pub fn hpf_run(
            routine: *const u8,
            routine_len: usize,
            path: *const u8,
            path_len: usize, // in bytes: twice the number of vertices
            report: *mut u8,
            report_len: usize,
        ) -> Outcome;

        pub fn hpf_convert(
            directives: *const u8,
            directives_len: usize,
            routine: *mut u8,
            routine_len: usize,
        ) -> Outcome;

        pub fn hpf_rounds(
            routine: *const u8,
            routine_len: usize,
            rounds: *mut u8,
            rounds_len: usize,
        ) -> Outcome;
    }
}

/// The length written, or the refusal.
fn written(outcome: Outcome) -> Result<usize, Refusal> {
    match outcome {
        Outcome {
            number: 0, first, ..
        } => Ok(first as usize), // a length within the caller's buffer
        Outcome {
            number,
            first,
            second,
        } => Err(Refusal {
            number,
            first,
            second,
        }),
    }
}

/// Plans a routine: writes the plan over the front of `out`, and leaves the rest of it.
///
/// A refusal writes nothing. Number 1 says that `out` is too short, and `first` the length that
/// is needed; [`LARGEST_PLAN`] bytes always suffice.
pub fn plan(routine: &[u8], out: &mut [u8]) -> Result<usize, Refusal> {
    // SAFETY: each pointer is that of a slice of the length beside it. The call reads the
    // routine and writes `out`, which is lent to it alone.
    let outcome =
        unsafe { ffi::hpf_plan(routine.as_ptr(), routine.len(), out.as_mut_ptr(), out.len()) };
    written(outcome)
}

/// Runs a routine along a path: writes the report over the front of `out`, and leaves the rest
/// of it. The path is bytes, two for each vertex, low byte first: with a slice of as many bytes
/// as there are vertices half the path is run, and the answer is 0.
///
/// A refusal writes nothing. Number 2 says that `out` is too short, and `first` the length that
/// is needed, so that a call with an empty `out` asks for it.
pub fn run(routine: &[u8], path: &[u8], out: &mut [u8]) -> Result<usize, Refusal> {
    // SAFETY: as in `plan`; the path is read too.
    let outcome = unsafe {
        ffi::hpf_run(
            routine.as_ptr(),
            routine.len(),
            path.as_ptr(),
            path.len(),
            out.as_mut_ptr(),
            out.len(),
        )
    };
    written(outcome)
}

/// Converts a directive file: writes the routine over the front of `out`, and leaves the rest of
/// it.
///
/// A refusal writes nothing. Number 1 says that `out` is too short, and `first` the length that
/// is needed; [`LARGEST_ROUTINE`] bytes always suffice. What is written is accepted by [`plan`].
pub fn convert(directives: &[u8], out: &mut [u8]) -> Result<usize, Refusal> {
    // SAFETY: as in `plan`.
    let outcome = unsafe {
        ffi::hpf_convert(
            directives.as_ptr(),
            directives.len(),
            out.as_mut_ptr(),
            out.len(),
        )
    };
    written(outcome)
}

/// Plans a routine, and writes the rounds of each pass over the edges over the front of `out`, 16
/// bits each, low byte first, in the order in which the passes are made; leaves the rest of it.
///
/// Without calls these are four: letters, reached vertices, reaching sets, kept sets. With calls two
/// come first, of the file: reached vertices, and the versions that arrive at calls; the four are of
/// the expanded routine. Where each vertex but the entry is entered from an earlier one all are
/// reached: no pass is made for it, and its number is 0.
///
/// A refusal, which is as that of [`plan`], writes nothing. Number 1 says that `out` is too short,
/// and `first` the length that is needed; [`LARGEST_ROUNDS`] bytes always suffice.
pub fn rounds(routine: &[u8], out: &mut [u8]) -> Result<usize, Refusal> {
    // SAFETY: as in `plan`.
    let outcome =
        unsafe { ffi::hpf_rounds(routine.as_ptr(), routine.len(), out.as_mut_ptr(), out.len()) };
    written(outcome)
}

/// What a call writes into a buffer of so many bytes, all of which it may need.
fn filled(
    most: usize,
    call: impl FnOnce(&mut [u8]) -> Result<usize, Refusal>,
) -> Result<Vec<u8>, Refusal> {
    let mut out = vec![0; most];
    let length = call(&mut out)?;
    out.truncate(length);
    Ok(out)
}

/// The plan of a routine.
pub fn planned(routine: &[u8]) -> Result<Vec<u8>, Refusal> {
    filled(LARGEST_PLAN, |out| plan(routine, out))
}

/// The report of a routine along a path of two bytes a vertex.
pub fn ran(routine: &[u8], path: &[u8]) -> Result<Vec<u8>, Refusal> {
    filled(LARGEST_REPORT, |out| run(routine, path, out))
}

/// The routine that a directive file becomes.
pub fn converted(directives: &[u8]) -> Result<Vec<u8>, Refusal> {
    filled(LARGEST_ROUTINE, |out| convert(directives, out))
}
