//! Rounds (request 5): numbers that are known, and what is asked of others.

use oracle::builder::{self, Draft};
use oracle::generate::limits;
use oracle::generate::rng::Rng;
use oracle::generate::routines::{self, Size};
use oracle::rounds::{LONGEST_ROUNDS, fault, rounds, rounds_by_paths, rounds_in};

fn numbers(draft: &Draft) -> Vec<u16> {
    let mut out = [0; LONGEST_ROUNDS];
    let answer = rounds(&draft.bytes(), &mut out);
    assert_eq!(answer.number, 0);
    let written = &out[..answer.first as usize];
    assert_eq!(fault(&draft.bytes(), written), None);
    let words = written.as_chunks::<2>().0;
    words.iter().map(|&word| u16::from_le_bytes(word)).collect()
}

/// What is wrong with these numbers of a routine.
fn wrong(draft: &Draft, numbers: &[u16]) -> Option<String> {
    let written: Vec<u8> = numbers
        .iter()
        .flat_map(|number| number.to_le_bytes())
        .collect();
    fault(&draft.bytes(), &written)
}

#[test]
fn numbers_that_are_told() {
    assert_eq!(numbers(&builder::p()), [2, 0, 2, 3]);
    assert_eq!(numbers(&limits::chain_both_ways()), [2, 0, 2, 255]);
}

#[test]
fn both_forms_give_the_same() {
    for draft in [builder::p(), builder::q(), builder::calls_in_a_loop()] {
        let (mut one, mut two) = ([0; LONGEST_ROUNDS], [0; LONGEST_ROUNDS]);
        let file = draft.bytes();
        let answers = (rounds(&file, &mut one), rounds_by_paths(&file, &mut two));
        assert_eq!((answers.0, one), (answers.1, two));
    }
}

/// A file with calls has six; the passes for reached vertices, of the file and of what it expands to,
/// are made only where a vertex needs it.
#[test]
fn six_numbers_with_calls() {
    let reached = |draft: &Draft| match numbers(draft)[..] {
        [of_file, _, _, of_expanded, _, _] => (of_file, of_expanded),
        _ => panic!("six passes"),
    };
    assert_eq!(reached(&builder::call()), (0, 0));
    let unreached = builder::unreached_call(builder::call_in);
    assert_eq!(reached(&unreached), (2, 2));
}

/// 0 where no pass is made; else 1 exactly if nothing is handed on; no more than if facts moved by one vertex a round; and, where
/// few edges matter, only what an order of them gives.
#[test]
fn numbers_that_no_order_gives() {
    let p = builder::p();
    assert_eq!(wrong(&p, &[2, 0, 2, 2]), None);
    assert_eq!(
        wrong(&p, &[1, 0, 2, 3]).unwrap(),
        "letters: 1 rounds, any order takes 2 to 2"
    );
    assert_eq!(
        wrong(&p, &[2, 2, 2, 3]).unwrap(),
        "reached vertices: 2 rounds, each vertex is entered from an earlier one"
    );
    assert!(wrong(&p, &[2, 0, 10, 3]).is_some());
    // Two vertices, and no edge: nothing is handed on.
    let still = Draft {
        arrays: vec![[builder::LOCAL, 1, 0, 0]],
        rows: vec![vec![0], vec![0]],
        edges: vec![],
    };
    assert_eq!(numbers(&still), [1, 1, 1, 1]);
    assert!(wrong(&still, &[2, 1, 1, 1]).is_some());
}

/// A chain of n vertices takes at most n rounds to be reached, whatever the order: those of the
/// n - 1 edges, and the last. It is numbered backwards between its ends, so that the pass is made.
#[test]
fn a_chain_in_every_order() {
    let edges = [(0, 4), (1, 5), (2, 1), (3, 2), (4, 3)];
    let chain = Draft::one_array(builder::LOCAL, 1, 0, &[0; 4], &edges);
    assert_eq!(chain.rows.len(), 6);
    let [letters, _, reaching, kept] = numbers(&chain)[..] else {
        panic!("four passes");
    };
    for reached in 0..9 {
        let is_right = wrong(&chain, &[letters, reached, reaching, kept]).is_none();
        assert_eq!(is_right, (2..=6).contains(&reached), "{reached}");
    }
}

/// Whatever order the edges are taken in, nothing is found wrong with its numbers.
#[test]
fn any_order_is_right() {
    let few = Size {
        vertices: 7,
        arrays: 3,
        versions: 3,
        calls: 30,
    };
    for index in 0..1500 {
        let mut rng = Rng::for_input(1, index);
        let size = match index % 3 {
            0 => Size::any(&mut rng),
            _ => few,
        };
        let file = routines::accepted(&mut rng, size).bytes();
        let mut out = [0; LONGEST_ROUNDS];
        let answer = rounds_in(
            &file,
            |edges| (1..edges.len()).for_each(|last| edges.swap(last, rng.below(last + 1))),
            &mut out,
        );
        assert_eq!(answer.number, 0);
        assert_eq!(fault(&file, &out[..answer.first as usize]), None, "{index}");
    }
}
