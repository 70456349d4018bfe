//! What is watched against the independent implementation: the flags of every prefix, the marks,
//! and the machine that copies at every remapping.

use hpf::Accepted;
use hpf::files::{File, Form};
use hpf::watch::{Row, followed};
use oracle::builder::{Draft, path_bytes};
use oracle::generate::rng::Rng;
use oracle::generate::{paths, routines};
use oracle::outcome::Outcome;
use oracle::routine::Routine;
use oracle::{listing, machine};

fn accepted(file: &[u8]) -> Accepted {
    let file = File::of_bytes(Form::Routine, file.to_vec());
    Accepted::new(file).expect("the routine is accepted")
}

fn watched(accepted: &Accepted, path: &[u16]) -> Vec<Row> {
    followed(accepted, &path_bytes(path)).expect("the path is accepted")
}

/// The report of the independent implementation, as the runner prints it.
fn printed(file: &[u8], path: &[u16]) -> String {
    let mut report = vec![0; oracle::run::LONGEST_REPORT];
    let Outcome { number, first, .. } = oracle::run::run(file, &path_bytes(path), &mut report);
    assert_eq!(number, 0);
    let routine = Routine::parse(file).expect("the routine is well formed");
    let (arrays, edges) = (routine.array_count(), routine.expanded_edge_count());
    listing::report(&report[..first as usize], arrays, edges)
}

fn drawn(index: u64) -> (Draft, Vec<u16>) {
    let rng = &mut Rng::for_input(5, index);
    let size = routines::Size::any(rng);
    let draft = routines::accepted(rng, size);
    let mut path = paths::any(rng, &draft);
    path.truncate(200);
    (draft, path)
}

/// Every row has what the independent implementation reports for the path up to there.
#[test]
fn rows_are_those_of_prefixes() {
    for index in 0..300 {
        let (draft, path) = drawn(index);
        let file = draft.bytes();
        let accepted = accepted(&file);
        for (row, steps) in watched(&accepted, &path).iter().zip(1..) {
            let due = printed(&file, &path[..steps]);
            let mut found = String::new();
            for change in &row.changes {
                let current = change.after.current.unwrap_or(255);
                found += &format!("{} {} {current}\n", change.after.copies, change.after.live);
            }
            assert!(due.starts_with(&found), "{due}{found}");
            assert_eq!(row.vertex, usize::from(path[steps - 1]));
        }
    }
}

/// Held version, stamp and copies after every step.
#[test]
fn the_machine_is_that_of_the_rules() {
    for index in 0..1_000 {
        let (draft, path) = drawn(index);
        let accepted = accepted(&draft.bytes());
        let rows = watched(&accepted, &path);
        let expanded = draft.expanded();
        let file = expanded.bytes();
        let routine = Routine::parse(&file).expect("the expanded routine is well formed");
        let arrays: Vec<_> = (0..routine.array_count())
            .map(|at| routine.array(at))
            .collect();
        let actions: Vec<u8> = expanded.rows.concat();
        let path: Vec<usize> = path.iter().map(|&vertex| usize::from(vertex)).collect();
        for steps in [1, path.len() / 2, path.len()] {
            let steps = steps.max(1);
            let (due, _) = machine::run(&arrays, &actions, &path[..steps]);
            for (change, due) in rows[steps - 1].changes.iter().zip(due) {
                let found = change.machine;
                assert_eq!((found.held, found.stamp), (due.held, due.stamp));
                assert_eq!(found.copies, due.count);
                assert!(usize::from(change.after.copies) <= found.copies);
            }
        }
    }
}

/// The references of a row are those of the report, each at its step.
#[test]
fn references_are_those_of_the_report() {
    for index in 0..300 {
        let (draft, path) = drawn(index);
        let file = draft.bytes();
        let accepted = accepted(&file);
        let mut found = String::new();
        for row in watched(&accepted, &path) {
            for record in row.changes.iter().filter_map(|change| change.record) {
                found += &format!(
                    "{} {} {} {} {} {}\n",
                    record.step,
                    record.array,
                    record.version,
                    record.reference.kind(),
                    record.seen,
                    record.given
                );
            }
        }
        let due = printed(&file, &path);
        let records = due.lines().filter(|line| line.split(' ').count() == 6);
        let due: String = records.map(|line| format!("{line}\n")).collect();
        assert_eq!(found, due);
    }
}

/// A copy has its mark, and no line is longer than a terminal is wide.
#[test]
fn marks_and_lines() {
    let (mut copies, mut taken_up, mut unset) = (0, 0, 0);
    for index in 0..300 {
        let (draft, path) = drawn(index);
        let accepted = accepted(&draft.bytes());
        let rows = watched(&accepted, &path);
        let changes = || rows.iter().flat_map(|row| &row.changes);
        let last = rows.last().map_or(&[][..], |row| &row.changes);
        let due: usize = last
            .iter()
            .map(|change| usize::from(change.after.copies))
            .sum();
        assert_eq!(changes().filter(|change| change.copies()).count(), due);
        for machine in [false, true] {
            let text = hpf::rows::shown(&rows, &accepted, machine);
            assert!(text.lines().all(|line| line.len() <= 80), "{text}");
            let steps = text
                .lines()
                .skip(3)
                .take_while(|line| !line.starts_with("array  "));
            let steps: Vec<&str> = steps.collect();
            let marks = |mark: &str| {
                let of = steps.iter().map(|line| line.matches(mark).count());
                of.sum::<usize>()
            };
            if !machine {
                assert_eq!(marks(" + "), due);
                taken_up += marks(" = ");
                unset += marks(" ? ");
                copies += due;
            }
        }
    }
    let all = [copies, taken_up, unset];
    assert!(all.iter().all(|count| *count > 300), "{all:?}");
}

/// Plans and reports are printed as the programs print them.
#[test]
fn listings_are_those_of_the_programs() {
    for index in 0..500 {
        let (draft, path) = drawn(index);
        let file = draft.bytes();
        let accepted = accepted(&file);
        let mut plan = vec![0; oracle::plan::LONGEST_PLAN];
        let length = oracle::plan::plan(&file, &mut plan).first as usize;
        let found = hpf::listing::plan(&accepted.plan().expect("a plan"));
        assert_eq!(found, listing::plan(&plan[..length]));
        let report = hpf_remap::ran(&file, &path_bytes(&path)).expect("a report");
        let found = hpf::listing::report(&accepted.report(&report).expect("a report"));
        assert_eq!(found, printed(&file, &path));
    }
}
