//! The inputs that are tried. The seed decides all that are drawn.

use crate::expected::LONGEST_PATH;
use harness::drive::{named, named_directives};
use harness::library::Input;
use oracle::builder::{self, Draft, path_bytes};
use oracle::directives::file::LONGEST_FILE as LONGEST_DIRECTIVES;
use oracle::generate::directives::{EXAMPLE, REFUSALS, Size};
use oracle::generate::rng::Rng;
use oracle::generate::{damage, directives as generate, limits, paths, routines};
use oracle::routine::LONGEST_FILE;

/// A kind of input, and its inputs.
pub type Group = (&'static str, Vec<Input>);

pub fn all(seed: u64) -> Vec<Group> {
    vec![
        ("planner, named", named_plans()),
        ("planner, limits", plans_at_limits(seed)),
        ("planner, short and long files", plans_by_length()),
        ("planner, every kind of array", accepted_plans(seed)),
        ("planner, refused by number", refused_plans(seed)),
        ("planner, damaged", damaged_plans(seed)),
        ("runner, named", named_runs()),
        ("runner, short paths", short_paths()),
        ("runner, paths about 512 vertices", long_paths()),
        ("runner, path along edges", accepted_runs(seed)),
        ("runner, path into a call", runs_into_calls(seed)),
        ("runner, damaged path", damaged_paths(seed)),
        ("runner, refused routine", refused_runs(seed)),
        ("converter, named", named_conversions()),
        ("converter, limits", conversions_at_limits(seed)),
        ("converter, short and long files", conversions_by_length()),
        ("converter, accepted", accepted_conversions(seed)),
        ("converter, refused by number", refused_conversions(seed)),
        ("converter, damaged", damaged_conversions(seed)),
    ]
}

/// So many inputs, each drawn by a generator of its own.
fn drawn(seed: u64, count: u64, draw: impl Fn(&mut Rng, u64) -> Input) -> Vec<Input> {
    (0..count)
        .map(|index| draw(&mut Rng::for_input(seed, index), index))
        .collect()
}

fn lengthened(draft: &Draft, length: usize) -> Vec<u8> {
    let mut file = draft.bytes();
    file.resize(length, 0);
    file
}

fn named_plans() -> Vec<Input> {
    let plan = |(draft, _): (Draft, _)| Input::plan(draft.bytes());
    named().into_iter().map(plan).collect()
}

fn plans_at_limits(seed: u64) -> Vec<Input> {
    let mut drafts = limits::at_limits(&mut Rng::new(seed));
    drafts.extend(limits::beyond_limits());
    drafts
        .iter()
        .map(|draft| Input::plan(draft.bytes()))
        .collect()
}

/// P at every length from empty on, and files up to and beyond the longest.
fn plans_by_length() -> Vec<Input> {
    let mut files: Vec<Vec<u8>> = damage::every_length(&builder::p().bytes()).collect();
    for length in [0, 1, 2, 306, 59_342, 193_806] {
        let beyond = LONGEST_FILE + length;
        files.push(lengthened(&limits::largest_plan(), beyond));
        files.push(lengthened(&builder::p(), beyond));
        files.push(vec![0; beyond]);
    }
    files.into_iter().map(Input::plan).collect()
}

fn accepted_plans(seed: u64) -> Vec<Input> {
    drawn(seed, 150, |rng, _| {
        Input::plan(routines::every_kind(rng, 80).bytes())
    })
}

fn refused_plans(seed: u64) -> Vec<Input> {
    drawn(!seed, 240, |rng, index| {
        let numbers = damage::FILE_REFUSALS;
        let number = numbers[index as usize % numbers.len()];
        Input::plan(damage::refused(rng, number))
    })
}

/// Files with several faults, with a byte changed, and with a byte more or less.
fn damaged_plans(seed: u64) -> Vec<Input> {
    drawn(seed, 150, |rng, index| {
        if index % 3 == 0 {
            return Input::plan(damage::several_faults(rng));
        }
        let mut file = routines::every_kind(rng, 20).bytes();
        if rng.chance(80) {
            let place = rng.below(file.len());
            file[place] ^= rng.between(1, 255) as u8;
        } else {
            file.resize(file.len() + rng.below(3) - 1, 0);
        }
        Input::plan(file)
    })
}

fn named_runs() -> Vec<Input> {
    let mut inputs = Vec::new();
    for (draft, paths) in named() {
        let runs = paths.iter().map(|path| path_bytes(path));
        inputs.extend(runs.map(|path| Input::run(draft.bytes(), path)));
    }
    inputs
}

/// Paths of no vertex, one and two, with and without an odd last byte, through routines
/// that are accepted, refused, empty and too long; refusals 30 to 32.
fn short_paths() -> Vec<Input> {
    let files = [
        builder::p().bytes(),
        builder::t().bytes(),
        builder::calls_in_a_loop().bytes(),
        limits::largest_report().bytes(),
        lengthened(&builder::p(), LONGEST_FILE + 1),
        b"HPFR".to_vec(),
        vec![],
    ];
    let paths: [&[u8]; 13] = [
        &[],
        &[0],
        &[7],
        &[0, 0],
        &[0, 1],
        &[1, 0],
        &[0, 0, 9],
        &[0, 0, 1],
        &[0, 0, 1, 0],
        &[0, 0, 1, 0, 255],
        &[0, 0, 2, 0],
        &[0, 0, 1, 1],
        &[0, 0, 255, 255],
    ];
    let mut inputs = Vec::new();
    for file in &files {
        inputs.extend(paths.map(|path| Input::run(file.clone(), path.to_vec())));
    }
    inputs
}

/// Paths of some 512 vertices, with and without an odd last byte, and of many more.
fn long_paths() -> Vec<Input> {
    let loops = Draft::one_array(
        builder::OUT,
        1,
        0,
        &[builder::MODIFY],
        &[(0, 1), (1, 1), (1, 2)],
    );
    let call = Draft::one_array(
        builder::INOUT,
        2,
        0,
        &[builder::call_inout(1)],
        &[(0, 1), (1, 1), (1, 2)],
    );
    let files = [
        limits::largest_report().bytes(),
        limits::largest_plan().bytes(),
        loops.bytes(),
        call.bytes(),
        builder::p().bytes(),
        builder::t().bytes(),
        b"HPFR".to_vec(),
        vec![],
    ];
    let mut paths = Vec::new();
    for length in [511, 512, 513, 4096] {
        // The first gives the largest report of so many vertices.
        let round = path_bytes(&limits::longest_path()[..length]);
        let mut odd = round.clone();
        odd.push(0);
        let mut stays = [1, 0].repeat(length);
        stays[0] = 0;
        // Round the one call.
        let steps = (0..length as u16 - 1).map(|step| 1 + step % 3);
        let calls: Vec<u16> = [0].into_iter().chain(steps).collect();
        paths.extend([round, odd, stays, path_bytes(&calls)]);
    }
    paths.extend([vec![0; 1024], vec![0; 1026], vec![0; 8194], vec![0; 80_000]]);
    let mut inputs = Vec::new();
    for file in &files {
        let runs = paths.iter().cloned();
        inputs.extend(runs.map(|path| Input::run(file.clone(), path)));
    }
    inputs
}

fn accepted_runs(seed: u64) -> Vec<Input> {
    drawn(seed, 200, |rng, _| {
        let draft = routines::every_kind(rng, 80);
        let wanted = rng.between(1, LONGEST_PATH + 8);
        let path = paths::walk(rng, &draft, wanted);
        Input::run(draft.bytes(), path_bytes(&path))
    })
}

fn runs_into_calls(seed: u64) -> Vec<Input> {
    drawn(seed, 80, |rng, _| {
        let draft = routines::every_kind(rng, 40);
        let mut path = paths::into_call(rng, &draft);
        path.truncate(LONGEST_PATH);
        Input::run(draft.bytes(), path_bytes(&path))
    })
}

fn damaged_paths(seed: u64) -> Vec<Input> {
    drawn(!seed, 150, |rng, _| {
        let draft = routines::every_kind(rng, 20);
        let path = paths::damaged(rng, &draft);
        Input::run(draft.bytes(), path)
    })
}

fn refused_runs(seed: u64) -> Vec<Input> {
    drawn(seed, 120, |rng, index| {
        let numbers = damage::FILE_REFUSALS;
        let number = numbers[index as usize % numbers.len()];
        let file = damage::refused(rng, number);
        let length = rng.pick(&[0, 1, 6, 1024, 1025, 1026]);
        Input::run(file, (0..length).map(|_| rng.below(3) as u8).collect())
    })
}

fn named_conversions() -> Vec<Input> {
    let files = named_directives().into_iter();
    files
        .map(|program| Input::convert(program.bytes()))
        .collect()
}

fn conversions_at_limits(seed: u64) -> Vec<Input> {
    let mut programs = vec![generate::limits::smallest(), generate::limits::largest()];
    programs.extend([17, 32, 33].map(generate::limits::by_redistributes));
    programs.extend([17, 32, 33].map(generate::limits::by_realigns));
    programs.extend(generate::limits::large(&mut Rng::new(seed)));
    programs.extend(
        generate::limits::beyond()
            .into_iter()
            .map(|(program, _)| program),
    );
    programs
        .iter()
        .map(|program| Input::convert(program.bytes()))
        .collect()
}

/// The example at every length from empty on, and files up to and beyond the longest.
fn conversions_by_length() -> Vec<Input> {
    let example = EXAMPLE.program().bytes();
    let largest = generate::limits::largest().bytes();
    let mut files: Vec<Vec<u8>> = damage::every_length(&example).collect();
    for length in [0, 1, 2, 306, 59_342, 193_806] {
        for file in [&largest, &example, &Vec::new()] {
            let mut longer = file.clone();
            longer.resize(LONGEST_DIRECTIVES + length, 0);
            files.push(longer);
        }
    }
    files.extend([1, 4096, 4097].map(|cut| largest[..largest.len() - cut].to_vec()));
    files.into_iter().map(Input::convert).collect()
}

/// Sizes of files that are drawn.
fn any_size(rng: &mut Rng) -> Size {
    Size {
        vertices: rng.between(3, 60),
        templates: rng.between(1, 4),
        arrays: rng.between(1, 6),
        spreads: rng.between(2, 6),
    }
}

fn accepted_conversions(seed: u64) -> Vec<Input> {
    drawn(seed, 100, |rng, _| {
        let size = any_size(rng);
        Input::convert(generate::accepted(rng, size).bytes())
    })
}

fn refused_conversions(seed: u64) -> Vec<Input> {
    drawn(!seed, 100, |rng, index| {
        let number = REFUSALS[index as usize % REFUSALS.len()];
        Input::convert(generate::refused(rng, number, any_size))
    })
}

/// Files with a byte changed, and with a byte more or less.
fn damaged_conversions(seed: u64) -> Vec<Input> {
    drawn(seed, 100, |rng, _| {
        let size = any_size(rng);
        let mut file = generate::program(rng, size).bytes();
        if rng.chance(80) {
            let place = rng.below(file.len());
            file[place] ^= rng.between(1, 255) as u8;
        } else {
            file.resize(file.len() + rng.below(3) - 1, 0);
        }
        Input::convert(file)
    })
}
