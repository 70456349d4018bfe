//! How much stack a call takes: it runs in a thread whose stack was painted.

use compare::VERIFIED;
use harness::drive::{named, named_directives};
use harness::library::{Input, ORACLE};
use oracle::builder::{Draft, path_bytes};
use oracle::directives::Program;
use oracle::generate::rng::Rng;
use oracle::generate::{directives, limits, paths};
use oracle::outcome::Outcome;
use oracle::run::{LONGEST_REPORT, MAX_PATH};
use std::ffi::{c_int, c_void};
use std::fmt;
use std::ptr::null_mut;

/// What include/hpf_remap.h says.
pub const LIMIT: usize = 64 * 1024;

const SIZE: usize = 256 * 1024;
const PAINT: u8 = 0xa5;

#[repr(align(4096))]
struct Stack([u8; SIZE]);

/// `pthread_attr_t`, with room to spare.
#[repr(C, align(16))]
struct Attributes([u8; 128]);

unsafe extern "C" {
    fn pthread_attr_init(attributes: *mut Attributes) -> c_int;
    fn pthread_attr_setstack(attributes: *mut Attributes, stack: *mut c_void, size: usize)
    -> c_int;
    fn pthread_create(
        thread: *mut u64,
        attributes: *const Attributes,
        start: extern "C" fn(*mut c_void) -> *mut c_void,
        job: *mut c_void,
    ) -> c_int;
    fn pthread_join(thread: u64, value: *mut *mut c_void) -> c_int;
}

/// What the thread does, and what it found.
struct Job<'a> {
    input: &'a Input,
    out: Vec<u8>,
    outcome: Outcome,
    /// An address in the frame that calls.
    frame: usize,
}

extern "C" fn start(job: *mut c_void) -> *mut c_void {
    let here = 0u8;
    // SAFETY: `used` passes a job of its own and waits for the thread.
    let job = unsafe { &mut *job.cast::<Job>() };
    job.frame = (&raw const here).addr();
    job.outcome = job.input.call(&VERIFIED, &mut job.out);
    null_mut()
}

/// The most stack of a call, over so many routines and directive files.
#[derive(Default)]
pub struct Most {
    plan: usize,
    run: usize,
    rounds: usize,
    routines: usize,
    conversion: usize,
    directives: usize,
}

impl Most {
    pub fn bytes(&self) -> usize {
        let routines = self.plan.max(self.run).max(self.rounds);
        routines.max(self.conversion)
    }

    fn take(&mut self, draft: &Draft, path: &[u16]) {
        let file = draft.bytes();
        self.plan = self.plan.max(used(&Input::plan(file.clone())));
        self.rounds = self.rounds.max(used(&Input::rounds(file.clone())));
        self.run = self.run.max(used(&Input::run(file, path_bytes(path))));
        self.routines += 1;
    }

    fn take_directives(&mut self, program: &Program) {
        let input = Input::convert(program.bytes());
        self.conversion = self.conversion.max(used(&input));
        self.directives += 1;
    }
}

impl fmt::Display for Most {
    fn fmt(&self, f: &mut fmt::Formatter) -> fmt::Result {
        let Most {
            plan,
            run,
            rounds,
            routines,
            conversion,
            directives,
        } = self;
        write!(f, "stack: {plan} bytes for a plan, {run} for a run, ")?;
        write!(
            f,
            "{rounds} for rounds, {conversion} for a conversion, the most over "
        )?;
        write!(f, "{routines} routines and {directives} directive files")
    }
}

/// The most stack that the routines and directive files with a name and those at the limits take:
/// the largest, those whose edges are numbered along their paths and against them, accepted and
/// refused ones.
pub fn most(seed: u64) -> Most {
    let mut most = Most::default();
    for (draft, paths) in named() {
        most.take(&draft, &paths[0]);
    }
    most.take(&limits::largest_report(), &limits::longest_path());
    most.take(&limits::ring_of_labels(), &limits::round_the_ring());
    most.take(&limits::longest_report(), &limits::longest_stay());
    let mut rng = Rng::new(seed);
    for draft in limits::at_limits(&mut rng) {
        let path = paths::walk(&mut rng, &draft, MAX_PATH);
        most.take(&draft, &path);
    }
    let mut programs = named_directives();
    programs.extend([
        directives::limits::largest(),
        directives::limits::directives_everywhere(),
        directives::limits::directives_against_numbers(),
    ]);
    programs.extend(directives::limits::large(&mut rng));
    for program in programs {
        most.take_directives(&program);
    }
    most
}

/// The bytes of stack below the caller's frame that a call takes.
fn used(input: &Input) -> usize {
    let mut stack = Box::new(Stack([PAINT; SIZE]));
    let mut attributes = Attributes([0; 128]);
    let mut thread = 0;
    let mut job = Job {
        input,
        out: vec![0; LONGEST_REPORT],
        outcome: Outcome::written(0),
        frame: 0,
    };
    let memory = (&raw mut stack.0).cast::<u8>();
    // SAFETY: the stack and the job live until the thread has ended.
    let painted = unsafe {
        let failures = [
            pthread_attr_init(&mut attributes),
            pthread_attr_setstack(&mut attributes, memory.cast(), SIZE),
            pthread_create(&mut thread, &attributes, start, (&raw mut job).cast()),
            pthread_join(thread, null_mut()),
        ];
        assert_eq!(failures, [0; 4]);
        (0..SIZE)
            .take_while(|&place| memory.add(place).read_volatile() == PAINT)
            .count()
    };
    // A call that ends too early takes less.
    assert_eq!(job.outcome, input.call(&ORACLE, &mut job.out));
    job.frame - memory.addr() - painted
}
