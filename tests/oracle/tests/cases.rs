//! The cases of document 01 by number, routine U, request 1's smallest case, routine K of request 3,
//! and routine Z of request 6.

use oracle::builder::{
    self, DEFINE, Draft, IN, INOUT, KILL, LOCAL, MODIFY, READ, path_bytes, remap,
};
use oracle::generate::limits;
use oracle::listing;
use oracle::machine;
use oracle::outcome::Outcome;
use oracle::plan::plan;
use oracle::routine::Routine;
use oracle::run::{run, vertices};

const ROOM: usize = 400_000;

fn outcome(number: u64, first: u64, second: u64) -> Outcome {
    Outcome {
        number,
        first,
        second,
    }
}

/// The plan of an accepted routine.
fn planned(draft: &Draft) -> Vec<u8> {
    let mut out = vec![0xa5; ROOM];
    let answer = plan(&draft.bytes(), &mut out);
    assert_eq!(answer.number, 0, "{answer:?}");
    out.truncate(answer.first as usize);
    out
}

/// The report of an accepted path.
fn ran(draft: &Draft, path: &[u16]) -> Vec<u8> {
    let mut out = vec![0xa5; ROOM];
    let answer = run(&draft.bytes(), &path_bytes(path), &mut out);
    assert_eq!(answer.number, 0, "{answer:?}");
    out.truncate(answer.first as usize);
    out
}

/// The run program's lines for an accepted path.
fn shown(draft: &Draft, path: &[u16]) -> String {
    let edges = draft.expanded().edges.len();
    listing::report(&ran(draft, path), draft.arrays.len(), edges)
}

/// The same without the counts of edges.
fn shown_without_counts(draft: &Draft, path: &[u16]) -> String {
    let shown = shown(draft, path);
    let lines = shown.lines().filter(|line| line.contains(' '));
    lines.map(|line| format!("{line}\n")).collect()
}

/// The machine's count for the only array.
fn machine_count(draft: &Draft, path: &[u16]) -> usize {
    let file = draft.bytes();
    let routine = Routine::parse(&file).unwrap();
    let arrays: Vec<_> = routine.arrays().collect();
    let path: Vec<usize> = vertices(&path_bytes(path)).collect();
    machine::run(&arrays, routine.action_bytes(), &path).0[0].count
}

/// What every run of a draft along a path answers.
fn run_answer(draft: &Draft, path: &[u16]) -> Outcome {
    run(&draft.bytes(), &path_bytes(path), &mut vec![0; ROOM])
}

#[test]
fn case_1_labels_of_p() {
    let file = builder::p().bytes();
    assert_eq!(file.len(), 62);
    let plan = planned(&builder::p());
    assert_eq!(
        listing::plan(&plan),
        "vertex array use leave reach keep\n\
         0 0 D 0 00000000 00000001\n\
         2 0 R 1 00000001 00000003\n\
         4 0 N - 00000002 00000003\n\
         5 0 R 0 00000002 00000003\n"
    );
    #[rustfmt::skip]
    let bytes = [
        b'H', b'P', b'F', b'2', 8, 0, 4, 0,
        0, 0, 1, 0, 1, 0, 0, 0, 1, 0, 1, 0, 2, 0, 0, 0,
        2, 0, 1, 0, 3, 0, 1, 0, 4, 0, 0, 0, 4, 0, 0, 0,
        0, b'D', 0, 0, 0x00, 0, 0, 0, 0x01, 0, 0, 0,
        0, b'R', 1, 0, 0x01, 0, 0, 0, 0x03, 0, 0, 0,
        0, b'N', 255, 0, 0x02, 0, 0, 0, 0x03, 0, 0, 0,
        0, b'R', 0, 0, 0x02, 0, 0, 0, 0x03, 0, 0, 0,
    ];
    assert_eq!(plan, bytes);
}

#[test]
fn case_2_a_run_of_p() {
    let path = [0, 1, 2, 3, 4, 5, 6, 2, 3];
    assert_eq!(
        shown(&builder::p(), &path),
        "1 3 1\n2 0 0 2 0 2\n4 0 1 1 2 0\n7 0 0 1 2 0\n9 0 1 1 2 0\n1\n1\n2\n1\n1\n1\n1\n0\n"
    );
    assert_eq!(machine_count(&builder::p(), &path), 4);
}

#[test]
fn case_3_labels_of_q() {
    assert_eq!(
        listing::plan(&planned(&builder::q())),
        "vertex array use leave reach keep\n\
         0 0 N - 00000001 00000002\n\
         1 0 W 1 00000001 00000002\n\
         3 0 R 0 00000002 00000001\n\
         5 0 W 0 00000001 00000001\n"
    );
}

#[test]
fn case_4_q_without_the_define() {
    let path = [0, 1, 3, 4];
    assert_eq!(
        shown(&builder::q(), &path),
        "2 1 0\n4 0 0 1 65535 0\n1\n0\n1\n0\n1\n0\n"
    );
    assert_eq!(machine_count(&builder::q(), &path), 2);
}

#[test]
fn case_5_q_with_the_define() {
    let path = [0, 1, 2, 3, 4];
    assert_eq!(
        shown(&builder::q(), &path),
        "2 1 0\n3 0 1 2 0 3\n5 0 0 1 3 0\n1\n1\n0\n1\n1\n0\n"
    );
    assert_eq!(machine_count(&builder::q(), &path), 2);
}

#[test]
fn case_6_a_run_of_s() {
    let path = [0, 1, 2, 3, 4];
    let report = ran(&builder::s(), &path);
    assert_eq!(
        listing::report(&report, 1, 5),
        "1 4 2\n2 0 0 2 0 2\n5 0 2 1 2 0\n1\n1\n1\n1\n0\n"
    );
    #[rustfmt::skip]
    let bytes = [
        1, 0, 4, 0, 0, 0, 2, 0,
        2, 0, 0, 0, 2, 0, 0, 0, 2, 0,
        5, 0, 0, 2, 1, 0, 2, 0, 0, 0,
        1, 0, 1, 0, 1, 0, 1, 0, 0, 0,
    ];
    assert_eq!(report, bytes);
    assert_eq!(machine_count(&builder::s(), &path), 2);
    assert_eq!(
        listing::plan(&planned(&builder::s())),
        "vertex array use leave reach keep\n\
         0 0 D 0 00000000 00000001\n\
         2 0 N - 00000001 00000004\n\
         3 0 R 2 00000001 00000004\n"
    );
}

#[test]
fn case_7_t_is_ambiguous() {
    let file = builder::t().bytes();
    assert_eq!(plan(&file, &mut [0; 100]), outcome(21, 2, 0));
    assert_eq!(run_answer(&builder::t(), &[0, 2]), outcome(21, 2, 0));
}

#[test]
fn case_8_t_with_nothing_at_2() {
    assert_eq!(
        listing::plan(&planned(&builder::t_without_read())),
        "vertex array use leave reach keep\n0 0 N - 00000000 00000000\n1 0 N - 00000000 00000000\n"
    );
}

#[test]
fn case_9_versions() {
    let draft = |versions| Draft::chain(LOCAL, versions, 0, &[builder::READ]);
    planned(&draft(32));
    assert_eq!(plan(&draft(33).bytes(), &mut [0; 100]), outcome(14, 19, 0));
}

/// The lengths of the plans and reports that have names.
#[test]
fn lengths() {
    let plans = [builder::p(), builder::q(), builder::s(), builder::u()];
    assert_eq!(plans.map(|draft| planned(&draft).len()), [88, 80, 68, 76]);
    let chain = [0, 1, 2, 3, 4];
    for (draft, path, length) in [
        (builder::p(), &[0, 1, 2, 3, 4, 5, 6, 2, 3][..], 64),
        (builder::q(), &[0, 1, 3, 4], 30),
        (builder::q(), &chain, 40),
        (builder::s(), &chain, 38),
        (builder::u(), &[0, 1, 2, 3, 4, 5, 6], 62),
    ] {
        assert_eq!(ran(&draft, path).len(), length);
    }
}

/// Versions above 15: the last of 32 in every field, and sets with all 32 bits.
#[test]
fn the_last_of_32_versions() {
    let draft = Draft::chain(INOUT, 32, 31, &[remap(16), READ, remap(31), READ]);
    assert_eq!(
        listing::plan(&planned(&draft)),
        "vertex array use leave reach keep\n\
         0 0 N - 80000000 80010000\n\
         1 0 R 16 80000000 80010000\n\
         3 0 R 31 00010000 80000000\n\
         5 0 W 31 80000000 80000000\n"
    );
    let report = ran(&draft, &[0, 1, 2]);
    assert_eq!(report[..8], [1, 0, 0, 0, 1, 0x80, 16, 0]);
    assert_eq!(
        shown_without_counts(&draft, &[0, 1, 2]),
        "1 2147549184 16\n3 0 16 1 65535 0\n"
    );
    let all = listing::plan(&planned(&limits::most_versions()));
    let kept = all.lines().filter(|line| line.ends_with(" ffffffff"));
    assert_eq!(kept.count(), 33);
}

/// Counts stand where there are no records, and for a path of one vertex are all 0.
#[test]
fn counts_without_records() {
    let draft = builder::t_without_read();
    assert_eq!(shown(&draft, &[0]), "0 0 255\n0\n0\n0\n0\n");
    assert_eq!(shown(&draft, &[0, 2, 3]), "0 0 255\n0\n1\n0\n1\n");
    let short =
        |path: &[u16], room: usize| run(&draft.bytes(), &path_bytes(path), &mut vec![0; room]);
    assert_eq!(short(&[0], 15), outcome(2, 16, 0));
    assert_eq!(short(&[0], 16), outcome(0, 16, 0));
}

/// Counts are those of the expanded routine, in its own order: inner edges of calls stand between
/// those of the file.
#[test]
fn counts_of_expanded_edges() {
    let draft = builder::calls_in_a_loop();
    let path = [0, 1, 2, 3, 4, 5, 6, 7, 8, 9, 10, 5, 6, 7, 8, 9, 10, 11, 4];
    let shown = shown(&draft, &path);
    let counts: Vec<&str> = shown.lines().filter(|line| !line.contains(' ')).collect();
    let due = [
        "1", "1", "1", "1", "1", "2", "2", "2", "2", "2", "1", "1", "1", "0",
    ];
    assert_eq!(counts, due);
}

#[test]
fn case_9_vertices() {
    let draft = |vertices: usize| Draft::chain(LOCAL, 1, 0, &vec![0; vertices - 2]);
    planned(&draft(256));
    assert_eq!(
        plan(&draft(257).bytes(), &mut [0; ROOM]),
        outcome(12, 12, 0)
    );
}

#[test]
fn case_9_paths() {
    let round = Draft::one_array(LOCAL, 1, 0, &[builder::READ], &[(0, 1), (1, 1)]);
    let path = |length: usize| {
        let mut path = vec![1; length];
        path[0] = 0;
        path
    };
    assert_eq!(ran(&round, &path(4096)).len(), 8 + 10 * 4095 + 4);
    assert_eq!(run_answer(&round, &path(4097)), outcome(30, 4097, 0));
    assert_eq!(run_answer(&round, &[]), outcome(30, 0, 0));
    assert_eq!(run_answer(&builder::p(), &[0, 2]), outcome(32, 1, 0));
}

#[test]
fn case_9_empty_file() {
    assert_eq!(plan(&[], &mut [0; 100]), outcome(10, 0, 0));
    assert_eq!(run(&[], &[], &mut [0; 100]), outcome(10, 0, 0));
}

#[test]
fn routine_u() {
    assert_eq!(
        listing::plan(&planned(&builder::u())),
        "vertex array use leave reach keep\n\
         0 0 D 0 00000000 00000001\n\
         2 0 D 1 00000001 00000002\n\
         5 0 R 0 00000002 00000001\n"
    );
    assert_eq!(
        shown(&builder::u(), &[0, 1, 2, 3, 4, 5, 6]),
        "1 1 0\n2 0 0 2 0 2\n4 0 1 2 0 4\n5 0 1 1 4 0\n7 0 0 1 4 0\n1\n1\n1\n1\n1\n1\n0\n"
    );
}

/// Routine Z: a kill needs no old value, and leaves none.
#[test]
fn routine_z() {
    assert_eq!(
        listing::plan(&planned(&builder::z())),
        "vertex array use leave reach keep\n\
         0 0 D 0 00000000 00000001\n\
         2 0 D 1 00000001 00000002\n"
    );
    let path = [0, 1, 2, 3, 4];
    assert_eq!(
        shown_without_counts(&builder::z(), &path),
        "0 2 1\n2 0 0 2 0 2\n4 0 1 4 0 0\n5 0 1 1 0 0\n"
    );
    assert_eq!(machine_count(&builder::z(), &path), 1);
}

/// What a kill leaves is 0, in the caller's copy too, until something is given again; a copy copies
/// it. With a define in its place the plan is the same.
#[test]
fn what_a_kill_leaves() {
    let actions = [READ, KILL, MODIFY, KILL, remap(1), READ, remap(0), READ];
    let draft = Draft::chain(INOUT, 2, 0, &actions);
    let path: Vec<u16> = (0..9).collect();
    assert_eq!(
        shown_without_counts(&draft, &path),
        "1 1 0\n2 0 0 1 65535 0\n3 0 0 4 0 0\n4 0 0 3 0 4\n5 0 0 4 0 0\n7 0 1 1 0 0\n9 0 0 1 0 0\n"
    );
    let mut defines = draft.clone();
    for row in &mut defines.rows {
        row[0] = if row[0] == KILL { DEFINE } else { row[0] };
    }
    assert_eq!(planned(&draft), planned(&defines));
}

/// An in argument that is not mapped home: its label at the exit is gone, and with it the caller's
/// version in the kept sets before.
#[test]
fn read_only_argument() {
    let draft = builder::read_only();
    assert_eq!(
        listing::plan(&planned(&draft)),
        "vertex array use leave reach keep\n\
         0 0 N - 00000001 00000002\n\
         1 0 R 1 00000001 00000002\n"
    );
    let report = |path: &[u16]| shown_without_counts(&draft, path);
    assert_eq!(report(&[0, 1, 2]), "1 2 1\n3 0 1 1 65535 0\n");
    assert_eq!(report(&[0, 1, 2, 3]), "1 1 0\n3 0 1 1 65535 0\n");
    assert_eq!(machine_count(&draft, &[0, 1, 2, 3]), 1);
}

/// The caller's copy of an in argument is live and current after a full path, whether it was live,
/// dead or current before; other copies are lost.
#[test]
fn the_callers_copy() {
    let draft = |actions: &[u8]| Draft::chain(IN, 3, 1, actions);
    let head = |actions: &[u8], length: usize| {
        let path: Vec<u16> = (0..length as u16).collect();
        let report = shown(&draft(actions), &path);
        String::from(report.lines().next().unwrap())
    };
    let dead = [remap(0), READ];
    assert_eq!(
        (head(&dead, 3).as_str(), head(&dead, 4).as_str()),
        ("1 1 0", "1 2 1")
    );
    let current = [READ];
    assert_eq!(
        (head(&current, 2).as_str(), head(&current, 3).as_str()),
        ("0 2 1", "0 2 1")
    );
    // Version 1 is still kept at the first label: another branch remaps to it.
    let mut live = draft(&[remap(0), READ, remap(1), READ]);
    live.edges.push((2, 5));
    live.edges.sort_unstable();
    let heads = |path: &[u16]| shown_without_counts(&live, path);
    assert_eq!(heads(&[0, 1, 2]), "1 3 0\n3 0 0 1 65535 0\n");
    assert_eq!(heads(&[0, 1, 2, 5]), "1 2 1\n3 0 0 1 65535 0\n");
}

/// Case 10: routine K, a call in a loop.
#[test]
fn case_10_a_call_in_a_loop() {
    let draft = builder::k();
    assert_eq!(
        listing::plan(&planned(&draft)),
        "vertex array use leave reach keep\n\
         0 0 N - 00000001 00000002\n\
         0 1 N - 00000001 00000003\n\
         1 0 W 1 00000001 00000002\n\
         1 1 R 1 00000001 00000003\n\
         3 0 R 0 00000002 00000003\n\
         3 1 R 0 00000002 00000003\n\
         5 0 W 0 00000001 00000001\n"
    );
    assert_eq!(
        shown(&draft, &[0, 1, 2, 3, 4, 1, 2, 3, 4, 5]),
        "3 1 0\n1 1 0\n\
         3 0 1 3 65535 3\n3 1 1 1 65535 0\n5 0 0 1 3 0\n5 1 0 1 65535 0\n\
         7 0 1 3 3 7\n7 1 1 1 65535 0\n9 0 0 1 7 0\n9 1 0 1 65535 0\n\
         1\n2\n2\n2\n1\n1\n"
    );
}
