//! Times of the verified library and of the oracle on the same inputs, in one process: medians
//! of repeated batches, taken in turn: plans, runs and conversions of directive files. For a plan
//! also the rounds over the edges that the library's passes take. Arrays have up to 16 versions where
//! a line does not say 32. Then times of the library on routines with calls and on the same routines
//! written out without calls.

use std::collections::{BTreeSet, HashSet};
use std::hint::black_box;
use std::time::{Duration, Instant};

use compare::VERIFIED;
use harness::library::{Input, Library, ORACLE};
use oracle::builder::{
    self, DEFINE, Draft, LOCAL, MODIFY, READ, call_in, call_inout, call_out, remap,
};
use oracle::directives::Program;
use oracle::directives::figures::FIGURE_10;
use oracle::generate::rng::Rng;
use oracle::generate::routines::{self, Size};
use oracle::generate::{directives, limits, paths};
use oracle::rounds::LONGEST_ROUNDS;
use oracle::routine::{Action, MAX_VERSIONS, MAX_VERTICES};
use oracle::run::{LONGEST_REPORT, MAX_PATH};

const SEED: u64 = 1;
const BATCHES: usize = 31;
const BATCH: Duration = Duration::from_millis(20);

/// The routine that the seed draws, with what 20 and 21 refuse taken out.
fn acceptable(draw: impl Fn(&mut Rng) -> Draft) -> Vec<u8> {
    let mut rng = Rng::new(SEED);
    let mut draft = draw(&mut rng);
    routines::make_acceptable(&mut rng, &mut draft);
    draft.bytes()
}

/// The versions of arrays where a line does not say more.
const VERSIONS: usize = 16;

/// The same routine with arrays of 16 versions: 16 to 31 become 0 to 15.
fn of_16_versions(mut draft: Draft) -> Draft {
    for record in &mut draft.arrays {
        *record = [record[0], record[1].min(16), record[2] % 16, 0];
    }
    let bytes = draft.rows.iter_mut().flatten();
    for byte in bytes.filter(|byte| Action::is_remap(**byte)) {
        *byte = remap((*byte - remap(0)) % 16);
    }
    draft
}

/// A structured program of eight arrays of up to so many versions, at least half of that: the first
/// one drawn that has so many vertices.
fn structured(rng: &mut Rng, vertices: usize, versions: usize) -> Draft {
    let size = Size {
        versions,
        ..Size::LARGEST
    };
    loop {
        let draft = routines::program(rng, size);
        if draft.rows.len() == vertices {
            return draft;
        }
    }
}

/// A row that has three of eight arrays, drawn, each with one of these bytes.
fn three_of_eight(rng: &mut Rng, bytes: &[u8]) -> Vec<u8> {
    let mut row = vec![0; 8];
    for _ in 0..3 {
        row[rng.below(8)] = bytes[rng.below(bytes.len())];
    }
    row
}

/// A program of eight arrays and 40 calls, with as many vertices as there may be once they are
/// expanded, and a path of as many as there may be. It is a chain with branches ahead and loops
/// back, so that a path gets to every vertex.
fn chain_with_calls() -> (Draft, Vec<u16>) {
    const CALLS: usize = 40;
    const LAST: usize = MAX_VERTICES - 2 * CALLS - 1;
    let calls = [call_in(1), call_out(2), call_inout(3)];
    let mut rng = Rng::new(SEED);
    let mut rows = vec![vec![0; 8]; LAST + 1];
    for (vertex, row) in rows.iter_mut().enumerate().take(LAST).skip(1) {
        let call = vertex % 4 == 1 && vertex < 4 * CALLS;
        let bytes: &[u8] = if call {
            &calls
        } else {
            &[READ, DEFINE, MODIFY]
        };
        *row = three_of_eight(&mut rng, bytes);
    }
    let mut edges: BTreeSet<_> = (0..LAST).map(|vertex| (vertex, vertex + 1)).collect();
    edges.extend(
        (1..LAST - 9)
            .step_by(6)
            .map(|from| (from, from + rng.between(2, 8))),
    );
    edges.extend(
        (12..LAST)
            .step_by(9)
            .map(|from| (from, from - rng.between(2, 10))),
    );
    let draft = Draft {
        arrays: vec![[LOCAL, 4, 0, 0]; 8],
        rows,
        edges: edges
            .iter()
            .map(|&(from, to)| (from as u16, to as u16))
            .collect(),
    };
    assert_eq!(draft.places().len(), MAX_VERTICES);
    let path = paths::walk(&mut rng, &draft, MAX_PATH);
    (draft, path)
}

/// So many different routines of one array with as many vertices as P, all accepted.
fn small_routines(count: usize) -> Vec<Input> {
    let size = Size {
        vertices: builder::p().rows.len(),
        arrays: 1,
        versions: 3,
        calls: 0,
    };
    let mut files = HashSet::new();
    let drawn = (0..).map(|index| routines::accepted(&mut Rng::for_input(SEED, index), size));
    drawn
        .filter(|draft| draft.rows.len() == size.vertices)
        .map(|draft| draft.bytes())
        .filter(|file| files.insert(file.clone()))
        .map(Input::plan)
        .take(count)
        .collect()
}

/// Inputs that are called in turn, under a name.
struct Line {
    name: &'static str,
    inputs: Vec<Input>,
}

fn plan(name: &'static str, routine: Vec<u8>) -> Line {
    let inputs = vec![Input::plan(routine)];
    Line { name, inputs }
}

fn run(name: &'static str, draft: Draft, path: &[u16]) -> Line {
    let inputs = vec![Input::run(draft.bytes(), builder::path_bytes(path))];
    Line { name, inputs }
}

fn convert(name: &'static str, program: &Program) -> Line {
    let inputs = vec![Input::convert(program.bytes())];
    Line { name, inputs }
}

/// Drawn directives and references on a structured graph, with what is refused taken out.
fn structured_directives() -> Program {
    let mut rng = Rng::new(SEED);
    let graph = structured(&mut rng, MAX_VERTICES, VERSIONS);
    let size = directives::Size::LARGEST;
    let mut program = directives::on_graph(&mut rng, size, MAX_VERTICES, graph.edges);
    directives::make_acceptable(&mut rng, &mut program);
    program
}

/// Lines of directive files: a small one, one that is drawn, and the worst at the limits.
fn conversions() -> Vec<Line> {
    vec![
        convert("convert figure 10", &FIGURE_10.program()),
        convert(
            "convert, structured, 256 vertices",
            &structured_directives(),
        ),
        convert(
            "convert, largest",
            &directives::limits::largest_of(VERSIONS),
        ),
        convert(
            "convert, directives everywhere",
            &directives::limits::directives_everywhere(),
        ),
        convert(
            "convert, directives against numbers",
            &directives::limits::directives_against_numbers(),
        ),
    ]
}

/// Lines of routines with calls.
fn calls() -> Vec<Line> {
    let (draft, path) = chain_with_calls();
    vec![
        plan("plan, one call", builder::call().bytes()),
        plan("plan, 40 calls, 256 vertices", draft.bytes()),
        run("run, one call", builder::call(), &[0, 1, 2, 3, 4, 5, 6, 7]),
        run("run, 40 calls, 4,096 vertices", draft, &path),
    ]
}

/// The same inputs with the calls written out.
fn written_out(line: &Line) -> Vec<Input> {
    let written_out = |input: &Input| {
        let draft = Draft::from_bytes(input.file()).expect("a routine has parts");
        input.with_file(draft.expanded().bytes())
    };
    line.inputs.iter().map(written_out).collect()
}

fn lines() -> Vec<Line> {
    vec![
        plan("plan P", builder::p().bytes()),
        Line {
            name: "plan, 1,000 routines like P in turn",
            inputs: small_routines(1000),
        },
        plan(
            "plan, structured, 51 vertices",
            acceptable(|rng| structured(rng, 51, VERSIONS)),
        ),
        plan(
            "plan, structured, 256 vertices",
            acceptable(|rng| structured(rng, MAX_VERTICES, VERSIONS)),
        ),
        plan(
            "plan, 256 vertices, 1,024 edges",
            acceptable(|rng| limits::dense(rng, VERSIONS)),
        ),
        plan(
            "plan, backward chain",
            acceptable(|rng| limits::backward_chain(rng, VERSIONS)),
        ),
        plan(
            "plan, zigzag chain",
            acceptable(|rng| limits::zigzag_chain(rng, VERSIONS)),
        ),
        plan(
            "plan, chain entered throughout",
            of_16_versions(limits::chain_from_entry()).bytes(),
        ),
        plan(
            "plan, chain both ways, 1,013 edges",
            of_16_versions(limits::chain_both_ways()).bytes(),
        ),
        plan(
            "plan, largest",
            of_16_versions(limits::largest_plan()).bytes(),
        ),
        plan(
            "plan, structured, 32 versions",
            acceptable(|rng| {
                let mut draft = structured(rng, MAX_VERTICES, MAX_VERSIONS);
                for record in &mut draft.arrays {
                    record[1] = MAX_VERSIONS as u8;
                }
                draft
            }),
        ),
        run("run, case 2", builder::p(), &[0, 1, 2, 3, 4, 5, 6, 2, 3]),
        run(
            "run, 4,096 vertices, 8 arrays",
            of_16_versions(limits::largest_report()),
            &limits::longest_path(),
        ),
        run(
            "run, 4,096 vertices, labels alone",
            of_16_versions(limits::ring_of_labels()),
            &limits::round_the_ring(),
        ),
        run(
            "run, labels alone, 32 versions",
            limits::ring_of_labels(),
            &limits::round_the_ring(),
        ),
    ]
}

/// One side of a line: what is called, and on which inputs.
type Side<'a> = (Library, &'a [Input]);

/// Both sides do the whole work and give the same bytes: a refusal is not to be timed.
fn check(name: &str, sides: &[Side; 2]) {
    let [(ours, our_inputs), (other, other_inputs)] = sides;
    for (one, two) in our_inputs.iter().zip(*other_inputs) {
        let [ours, other] = [(ours, one), (other, two)].map(|(library, input)| {
            let mut out = vec![0; LONGEST_REPORT];
            (input.call(library, &mut out), out)
        });
        assert_eq!(ours.0.number, 0, "{name}: {:?}", ours.0);
        assert_eq!(ours.0, other.0, "{name}");
        assert!(ours.1 == other.1, "{name}: the bytes differ");
    }
}

/// The heads of the columns of rounds: the first two are of the file, if it has calls.
const HEADS: &str = "  file: reached arriving  letters  reached reaching     kept";

/// The rounds of the library's passes for a routine, in the columns of all six.
fn rounds(routine: &[u8]) -> [u16; 6] {
    let mut out = [0; LONGEST_ROUNDS];
    let answer = (VERIFIED.rounds)(routine, &mut out);
    assert_eq!(answer.number, 0, "{answer:?}");
    let words = out[..answer.first as usize].as_chunks::<2>().0;
    let mut rounds = [0; 6];
    for (number, word) in rounds[6 - words.len()..].iter_mut().zip(words) {
        *number = u16::from_le_bytes(*word);
    }
    rounds
}

/// The most rounds of each pass for the plans of a line; other calls have no columns for them, and
/// what no pass took has no number.
fn rounds_of(line: &Line) -> String {
    let plans = line.inputs.iter().filter_map(|input| match input {
        Input::Plan { routine } => Some(rounds(routine)),
        _ => None,
    });
    let Some(most) =
        plans.reduce(|most, more| std::array::from_fn(|pass| most[pass].max(more[pass])))
    else {
        return String::new();
    };
    let widths = [15, 9, 9, 9, 9, 9];
    let columns = most
        .iter()
        .zip(widths)
        .map(|(&number, width)| match number {
            0 => " ".repeat(width),
            number => format!("{number:width$}"),
        });
    columns.collect()
}

/// The time of one call, from `turns` through the inputs.
fn batch((library, inputs): Side, out: &mut [u8], turns: u32) -> Duration {
    let start = Instant::now();
    for _ in 0..turns {
        for input in inputs {
            black_box(black_box(input).call(&library, black_box(out)));
        }
    }
    start.elapsed() / (turns * inputs.len() as u32)
}

/// How many turns fill a batch.
fn turns(side: Side, out: &mut [u8]) -> u32 {
    let one = batch(side, out, 3).max(Duration::from_nanos(1));
    let calls = BATCH.as_nanos() / one.as_nanos();
    (calls as u32 / side.1.len() as u32).clamp(1, 1_000_000)
}

fn median(mut times: Vec<Duration>) -> Duration {
    times.sort_unstable();
    times[times.len() / 2]
}

fn micros(time: Duration) -> f64 {
    time.as_nanos() as f64 / 1000.0
}

/// The times of a line's two sides, taken in turn.
fn times(name: &str, sides: [Side; 2]) -> [f64; 2] {
    check(name, &sides);
    let mut out = vec![0; LONGEST_REPORT];
    let counts = sides.map(|side| turns(side, &mut out));
    let mut times = [Vec::new(), Vec::new()];
    for _ in 0..BATCHES {
        for side in 0..2 {
            times[side].push(batch(sides[side], &mut out, counts[side]));
        }
    }
    times.map(median).map(micros)
}

/// Times a line of the library and of the oracle and prints it.
fn time(line: &Line) {
    let sides = [(VERIFIED, &line.inputs[..]), (ORACLE, &line.inputs[..])];
    let [ours, rust] = times(line.name, sides);
    let (name, ratio, per_second) = (line.name, ours / rust, 1e6 / ours);
    print!("{name:36} {ours:9.2} {rust:9.2} {ratio:7.2} {per_second:11.0}");
    println!("{}", rounds_of(line));
}

/// Times the library on a line with calls and on the same written out, and prints it.
fn time_calls(line: &Line) {
    let written_out = written_out(line);
    let sides = [(VERIFIED, &line.inputs[..]), (VERIFIED, &written_out[..])];
    let [calls, without] = times(line.name, sides);
    let (name, ratio) = (line.name, calls / without);
    println!("{name:36} {calls:11.2} {without:11.2} {ratio:7.2}");
}

fn main() {
    println!(
        "seed {SEED}, medians of {BATCHES} batches, microseconds a call; calls/s of the library"
    );
    println!("the buffer is not cleared between calls: each call finds what the one before wrote");
    println!(
        "{:36} {:>9} {:>9} {:>7} {:>11}{}",
        "", "library", "Rust", "ratio", "calls/s", HEADS
    );
    let calls = calls();
    for line in lines().iter().chain(&calls).chain(&conversions()) {
        time(line);
    }
    println!(
        "\n{:36} {:>11} {:>11} {:>7}",
        "the library's times", "with calls", "written out", "ratio"
    );
    for line in &calls {
        time_calls(line);
    }
}
