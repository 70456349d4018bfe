use hpf::Standard;
use std::ffi::c_int;
use std::process::ExitCode;
use std::sync::atomic::{AtomicBool, Ordering};

/// Whether standard input and output were open when the program was started. Rust's runtime opens
/// /dev/null in place of one that is not, before `main`: what is written there would be lost in
/// silence.
static OPEN: [AtomicBool; 2] = [const { AtomicBool::new(true) }; 2];

/// Called before the runtime.
#[used]
#[unsafe(link_section = ".init_array")]
static LOOK: extern "C" fn() = look;

extern "C" fn look() {
    const F_GETFD: c_int = 1;
    unsafe extern "C" {
        fn fcntl(descriptor: c_int, command: c_int, ...) -> c_int;
    }
    for (descriptor, open) in (0..).zip(&OPEN) {
        // SAFETY: this command reads the flags of a descriptor, open or not, and changes nothing.
        let flags = unsafe { fcntl(descriptor, F_GETFD) };
        open.store(flags != -1, Ordering::Relaxed);
    }
}

fn main() -> ExitCode {
    let [input_is_open, output_is_open] =
        [&OPEN[0], &OPEN[1]].map(|open| open.load(Ordering::Relaxed));
    let standard = Standard {
        input_is_open,
        output_is_open,
    };
    hpf::main(std::env::args_os().skip(1), standard)
}
