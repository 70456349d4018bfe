//! Programs whose output cannot be written: that they say so, and stop at the first write that
//! fails.

use crate::expected::{self, Met, Printed, program};
use crate::folder::{Folder, Left, Sink};
use harness::library::Input;
use oracle::builder::{self, path_bytes};
use oracle::directives::figures::{FIGURE_10, FIGURE_21};
use oracle::generate::{directives, limits};
use std::io::Result;

/// The unit of a file's limit in a shell, 512 bytes or 1,024.
const LIMITS: [usize; 2] = [512, 1024];

/// A plan, a report and a routine, small and the largest; refusals; a path that is not run.
fn inputs() -> Vec<Input> {
    let largest = limits::largest_report().bytes();
    let longest = limits::longest_path();
    vec![
        Input::plan(builder::p().bytes()),
        Input::plan(limits::largest_plan().bytes()),
        Input::plan(builder::calls_in_a_loop().bytes()),
        Input::plan(builder::t().bytes()),
        Input::plan(vec![]),
        Input::run(builder::p().bytes(), path_bytes(&[0, 1, 2, 3])),
        Input::run(largest.clone(), path_bytes(&longest[..512])),
        Input::run(builder::t().bytes(), path_bytes(&[0, 1])),
        Input::run(builder::p().bytes(), path_bytes(&[0, 2])),
        Input::run(largest, path_bytes(&longest[..513])),
        Input::convert(FIGURE_10.program().bytes()),
        Input::convert(directives::limits::largest().bytes()),
        Input::convert(FIGURE_21.program().bytes()),
        Input::convert(vec![]),
    ]
}

/// What is wrong with what a program left, where standard output took its first `size` bytes.
fn fault(
    input: &Input,
    sink: Sink,
    size: usize,
    left: &Left,
    writes: Option<u64>,
) -> Option<String> {
    let Printed { output, mut errors } = expected::printed(input, Met::End, Met::End);
    errors += &expected::unwritten(input);
    // One write a line, or for a whole routine; what is cut takes another. The last one fails.
    let taken = &output[..size];
    let whole = match input {
        Input::Convert { .. } => usize::from(size > 0),
        _ => String::from_utf8_lossy(taken).lines().count(),
    };
    let due = (whole + 1 + errors.lines().count()) as u64;
    let found = String::from_utf8_lossy(&left.errors);
    let wrong = if left.output != taken {
        format!("{} bytes of output, {size} are due", left.output.len())
    } else if found != errors {
        format!("errors:\n{found}due:\n{errors}")
    } else if left.status.code() != Some(0) {
        format!("{}", left.status)
    } else if writes.is_some_and(|writes| writes != due) {
        format!("{} writes, {due} are due", writes.unwrap_or(0))
    } else {
        return None;
    };
    Some(format!("{}, {sink:?}: {wrong}\n{input}", program(input)))
}

/// Tries all inputs on all outputs; what was tried in words, or a fault.
pub fn hold(folder: &Folder) -> Result<std::result::Result<String, String>> {
    let mut tried = 0;
    let mut counted = 0;
    for input in inputs() {
        let (_, output) = expected::output(&input);
        for sink in Sink::ALL {
            // A short output does not reach the file's limit.
            if sink == Sink::Limited && output.len() <= LIMITS[1] {
                continue;
            }
            let (left, writes) = folder.unwritten(&input, sink)?;
            // Linux does not count a write to a closed descriptor.
            let writes = writes.filter(|_| sink != Sink::Closed);
            let size = match sink {
                Sink::Limited if left.output.len() == LIMITS[1] => LIMITS[1],
                Sink::Limited => LIMITS[0],
                _ => 0,
            };
            if let Some(words) = fault(&input, sink, size, &left, writes) {
                return Ok(Err(words));
            }
            tried += 1;
            counted += u64::from(writes.is_some());
        }
    }
    let words = format!("{tried} outputs cannot be written; writes are counted in {counted}");
    Ok(Ok(words))
}
