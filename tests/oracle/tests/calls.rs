//! Calls with interfaces: expanded routines, answers and runs written out by hand.

use oracle::builder::{
    self, DEFINE, Draft, IN, INOUT, KILL, LOCAL, MODIFY, READ, call_in, call_inout, call_out,
    path_bytes, remap,
};
use oracle::calls::{Part, Place};
use oracle::generate::limits;
use oracle::generate::rng::Rng;
use oracle::listing;
use oracle::outcome::Outcome;
use oracle::plan::{LONGEST_PLAN, plan};
use oracle::run::{LONGEST_REPORT, run};

fn answer(draft: &Draft) -> (u64, u64, u64) {
    let answer = plan(&draft.bytes(), &mut vec![0; LONGEST_PLAN]);
    (answer.number, answer.first, answer.second)
}

fn run_answer(draft: &Draft, path: &[u16]) -> (u64, u64, u64) {
    let Outcome {
        number,
        first,
        second,
    } = run(
        &draft.bytes(),
        &path_bytes(path),
        &mut vec![0; LONGEST_REPORT],
    );
    (number, first, second)
}

fn planned(draft: &Draft) -> String {
    let mut out = vec![0; LONGEST_PLAN];
    let answer = plan(&draft.bytes(), &mut out);
    assert_eq!(answer.number, 0, "{answer:?}");
    listing::plan(&out[..answer.first as usize])
}

/// The lines of a report without the counts of edges.
fn ran(draft: &Draft, path: &[u16]) -> String {
    let mut out = vec![0; LONGEST_REPORT];
    let answer = run(&draft.bytes(), &path_bytes(path), &mut out);
    assert_eq!(answer.number, 0, "{answer:?}");
    let edges = draft.expanded().edges.len();
    let report = listing::report(&out[..answer.first as usize], draft.arrays.len(), edges);
    let lines = report.lines().filter(|line| line.contains(' '));
    lines.map(|line| format!("{line}\n")).collect()
}

/// The rows of the only array once the calls are expanded.
fn bytes(draft: &Draft) -> Vec<u8> {
    draft.expanded().rows.concat()
}

#[test]
fn three_vertices_for_a_call() {
    let draft = builder::call();
    let expanded = Draft::chain(
        INOUT,
        3,
        1,
        &[DEFINE, remap(2), remap(0), MODIFY, remap(2), READ],
    );
    assert_eq!(draft.expanded(), expanded);
    assert_eq!(planned(&draft), planned(&expanded));
    assert_eq!(
        planned(&draft),
        "vertex array use leave reach keep\n\
         0 0 D 1 00000002 00000002\n\
         2 0 N - 00000002 00000001\n\
         3 0 W 0 00000002 00000001\n\
         5 0 R 2 00000001 00000006\n\
         7 0 W 1 00000004 00000002\n"
    );
    let path: Vec<u16> = (0..8).collect();
    let records = "2 0 1 2 0 2\n5 0 0 3 2 5\n7 0 2 1 5 0\n";
    assert_eq!(ran(&draft, &path), format!("3 2 1\n{records}"));
    // Ends inside the call, and behind it.
    assert_eq!(ran(&draft, &path[..4]), "1 1 0\n2 0 1 2 0 2\n");
    assert_eq!(ran(&draft, &path[..5]), "1 1 0\n2 0 1 2 0 2\n5 0 0 3 2 5\n");
    assert_eq!(ran(&draft, &path[..6]), "2 4 2\n2 0 1 2 0 2\n5 0 0 3 2 5\n");
}

#[test]
fn places_in_file_order() {
    let place = |vertex, part| Place { vertex, part };
    let call = |vertex| [Part::Before, Part::Inside, Part::After].map(|part| place(vertex, part));
    let mut places = vec![
        place(0, Part::Whole),
        place(1, Part::Whole),
        place(2, Part::Whole),
    ];
    places.extend(call(3));
    places.extend([place(4, Part::Whole), place(5, Part::Whole)]);
    assert_eq!(builder::call().places(), places);
}

/// The intents, two calls in a row and edges back.
#[test]
fn calls_in_a_loop() {
    let expanded = builder::calls_in_a_loop().expanded();
    #[rustfmt::skip]
    let rows = [
        0,
        remap(1), DEFINE, remap(0),
        remap(2),
        remap(1), READ, remap(2),
        remap(2), MODIFY, remap(2),
        READ,
        0,
    ];
    assert_eq!(expanded.rows.concat(), rows);
    #[rustfmt::skip]
    let edges = [
        (0, 1), (1, 2), (2, 3), (3, 4), (4, 5), (5, 6), (6, 7), (7, 8),
        (8, 9), (9, 10), (10, 5), (10, 11), (11, 4), (11, 12),
    ];
    assert_eq!(expanded.edges, edges);
}

/// 00 at all three vertices for an array that the call does not pass.
#[test]
fn arrays_that_are_not_passed() {
    let draft = builder::call_beside_two_versions();
    let rows = [
        [0, 0],
        [0, remap(1)],
        [remap(0), 0],
        [READ, 0],
        [remap(1), 0],
        [0, 0],
    ];
    assert_eq!(draft.expanded().rows, rows);
    assert_eq!(answer(&draft).0, 0);
}

/// The initial version is named if no path gets there.
#[test]
fn calls_that_no_path_gets_to() {
    let draft = builder::unreached_call(call_in);
    #[rustfmt::skip]
    let rows = [
        0,
        remap(1),
        remap(0), READ, remap(1),
        remap(1), READ, remap(2),
        READ,
        0,
    ];
    assert_eq!(bytes(&draft), rows);
    assert_eq!(answer(&draft).0, 0);
    for intent in [call_out, call_inout] {
        assert_eq!(answer(&builder::unreached_call(intent)), (20, 3, 0));
    }
}

/// The call itself brings no version to what follows: it hands on what came.
#[test]
fn versions_behind_a_call() {
    let draft = Draft::one_array(
        INOUT,
        3,
        0,
        &[call_out(2), READ, call_in(1), READ],
        &[(0, 1), (0, 2), (1, 2), (2, 3), (2, 4), (3, 4), (4, 5)],
    );
    assert_eq!(answer(&draft).0, 0);
    assert_eq!(bytes(&draft)[3], remap(0));
    assert_eq!(bytes(&draft)[7], remap(0));
}

#[test]
fn ambiguous_calls() {
    assert_eq!(answer(&builder::ambiguous_call()), (21, 2, 1));
    // The lower vertex is named, though the other one comes first on the path, or last.
    for read in [2, 3] {
        let mut draft = builder::ambiguous_behind_a_call(read);
        assert_eq!(answer(&draft), (21, 2, 0));
        draft.rows[2] = vec![0];
        assert_eq!(answer(&draft), (21, 3, 0));
    }
    // Vertices of the file behind a call, which would be two more.
    let actions = [call_in(0), remap(1), call_out(0)];
    let mut draft = Draft::one_array(LOCAL, 2, 0, &actions, &[(0, 1), (1, 2), (1, 3), (2, 3)]);
    assert_eq!(answer(&draft), (21, 3, 0));
    // Any 20 before any 21.
    draft.arrays[0][0] = IN;
    assert_eq!(answer(&draft), (20, 3, 0));
    draft.rows[3] = vec![call_in(0)];
    assert_eq!(answer(&draft), (21, 3, 0));
}

/// Every action byte with 16 and with 32 versions, in a row of its own.
#[test]
fn every_action_byte() {
    for byte in 0..=255u8 {
        let numbers = match byte {
            0x00 | 0x10 | 0x20 | 0x30 | 0x80 => [0, 0],
            0x40..=0x4f | 0x60..=0x6f | 0xa0..=0xaf | 0xc0..=0xcf => [0, 0],
            0x50..=0x5f | 0x70..=0x7f | 0xb0..=0xbf | 0xd0..=0xdf => [17, 0],
            _ => [15, 15],
        };
        for (versions, number) in [16, 32].into_iter().zip(numbers) {
            let found = answer(&Draft::chain(LOCAL, versions, 3, &[byte]));
            assert_eq!(found.0, number, "{byte:02x}");
            assert!(number == 0 || found.1 == 23, "{byte:02x}");
        }
    }
}

#[test]
fn faults_of_call_bytes() {
    // Three arrays of two versions: the rows start at bytes 30, 33, 36 and 39.
    let answer = |vertex: usize, row: [u8; 3]| {
        let mut draft = Draft {
            arrays: vec![[LOCAL, 2, 0, 0]; 3],
            rows: vec![vec![0; 3]; 4],
            edges: vec![(0, 1), (1, 2), (2, 3)],
        };
        draft.rows[vertex] = row.to_vec();
        answer(&draft)
    };
    assert_eq!(answer(1, [call_in(1), 0, call_inout(1)]).0, 0);
    assert_eq!(answer(1, [call_in(1), READ, remap(1)]), (19, 34, 0));
    assert_eq!(answer(2, [0, remap(1), call_out(1)]), (19, 38, 0));
    assert_eq!(answer(2, [call_out(1), 0, remap(0)]), (19, 38, 0));
    assert_eq!(answer(1, [READ, 0, call_in(2)]), (17, 35, 0));
    assert_eq!(answer(1, [call_in(0), 0x81, 0]), (15, 34, 0));
    assert_eq!(answer(1, [call_in(0), KILL, 0]), (19, 34, 0));
    assert_eq!(answer(0, [0, call_in(1), 0]), (18, 31, 0));
    assert_eq!(answer(3, [call_inout(0), READ, 0]), (18, 39, 0));
    assert_eq!(answer(3, [call_inout(31), READ, 0]), (17, 39, 0));
}

/// 22 after 16 and before 20 and 21; its place is the count.
#[test]
fn too_many_vertices() {
    let mut actions = vec![call_in(1); 84];
    actions.extend([READ, READ]);
    let mut draft = Draft::chain(IN, 2, 0, &actions);
    assert_eq!(draft.expanded().rows.len(), 256);
    assert_eq!(answer(&draft).0, 0);
    draft.rows[85] = vec![call_out(1)];
    assert_eq!(answer(&draft), (22, 258, 0));
    draft.rows.remove(86);
    draft.edges.pop();
    assert_eq!(answer(&draft), (22, 257, 0));
    assert_eq!(run_answer(&draft, &[]), (22, 257, 0));
    draft.edges[3] = (3, 3);
    draft.edges[4] = (3, 3);
    let first_edge = 18 + 4 + 87;
    assert_eq!(answer(&draft), (16, first_edge + 16, 0));
}

#[test]
fn paths_name_expanded_vertices() {
    let draft = builder::call();
    assert_eq!(run_answer(&draft, &[0, 1, 2, 3, 5]), (32, 4, 0));
    assert_eq!(run_answer(&draft, &[0, 1, 2, 6]), (32, 3, 0));
    assert_eq!(run_answer(&draft, &[3]), (31, 0, 0));
    assert_eq!(run_answer(&draft, &[0, 1, 2, 3, 4, 5, 6, 7, 8]), (32, 8, 0));
    let around = Draft::one_array(LOCAL, 2, 0, &[call_out(1)], &[(0, 1), (1, 1), (1, 2)]);
    let path = |length: u16| -> Vec<u16> {
        let steps = (0..length - 1).map(|step| 1 + step % 3);
        [0].into_iter().chain(steps).collect()
    };
    assert_eq!(
        run_answer(&around, &path(4096)),
        (0, 8 + 10 * 1365 + 2 * 5, 0)
    );
    assert_eq!(run_answer(&around, &path(4097)), (30, 4097, 0));
}

#[test]
fn the_most_calls() {
    for seed in 0..5 {
        let draft = limits::most_calls(&mut Rng::new(seed));
        assert_eq!((draft.rows.len(), draft.edges.len()), (88, 1024));
        let expanded = draft.expanded();
        assert_eq!((expanded.rows.len(), expanded.edges.len()), (256, 1192));
        assert_eq!(answer(&draft).0, 0);
    }
}
