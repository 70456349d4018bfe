//! Faults of texts, by line and column.

use hpf::notation::{Fault, read};
use oracle::generate::rng::Rng;

fn fault(text: &str) -> Fault {
    read(text)
        .err()
        .unwrap_or_else(|| panic!("no fault:\n{text}"))
}

#[track_caller]
fn hold(text: &str, line: usize, column: usize, words: &str) {
    let fault = fault(text);
    assert_eq!((fault.line, fault.column), (line, column), "{fault}");
    assert!(fault.text.contains(words), "{fault}");
}

#[test]
fn marks() {
    hold("hpf", 1, 4, "`routine`, `directives` or `path` is expected");
    hold("hpf rotine\n", 1, 5, "`routine`, `directives` or `path`");
    hold("hpf routine x", 1, 13, "`x` does not belong here");
    hold("hpf ! routine", 1, 4, "`routine`");
}

#[test]
fn routines() {
    let routine = |lines: &str| format!("hpf routine\n! a remark\n\n{lines}");
    let hold = |lines: &str, line, column, words| hold(&routine(lines), line, column, words);
    hold("array", 4, 6, "a name is expected");
    hold("array 1 local 2", 4, 7, "a name is expected");
    hold(
        "array a locl 2",
        4,
        9,
        "`local`, `in`, `out` or `inout` is expected",
    );
    hold("array a local", 4, 14, "a number of versions is expected");
    hold(
        "array a local 256",
        4,
        15,
        "a number of versions is at most 255",
    );
    hold(
        "array a local 99999999999999999999999",
        4,
        15,
        "at most 255",
    );
    hold(
        "array a local 3 start 1",
        4,
        17,
        "`start` does not belong here",
    );
    hold("array a local 3 initial", 4, 24, "a version is expected");
    hold(
        "array a local 3\narray a in 2",
        5,
        7,
        "`a` is named already",
    );
    hold(
        "array a local 3\n0 -> 1\narray b in 2",
        6,
        1,
        "arrays stand before",
    );
    hold("array a local 3\n1", 5, 1, "vertex 0 is expected");
    hold(
        "array a local 3\n0 -> 1\nread a",
        6,
        1,
        "a vertex is expected",
    );
    hold("array a local 3\n0 reed a", 5, 3, "`read`, `define`");
    hold("array a local 3\n0 read b", 5, 8, "there is no array `b`");
    hold(
        "array a local 3\n0 read",
        5,
        7,
        "the name of an array is expected",
    );
    hold(
        "array a local 3\n0 read a define a",
        5,
        10,
        "`,` or `->` is expected",
    );
    hold(
        "array a local 3\n0 read a, define a",
        5,
        11,
        "`a` has an action here already",
    );
    hold("array a local 3\n0 read a,", 5, 10, "`read`, `define`");
    hold("array a local 3\n0 remap a", 5, 10, "a version is expected");
    hold(
        "array a local 3\n0 remap a 99",
        5,
        11,
        "a version is at most",
    );
    hold(
        "array a local 3\n0 call a 1 at",
        5,
        12,
        "`in`, `out` or `inout` is expected",
    );
    hold(
        "array a local 3\n0 call a 32 in",
        5,
        10,
        "a version is at most 31",
    );
    hold("array a local 3\n0 ->", 5, 5, "a vertex is expected");
    hold("array a local 3\n0 -> 1 1", 5, 8, "1 is there already");
    hold(
        "array a local 3\n0 -> 65536",
        5,
        6,
        "a vertex is at most 65535",
    );
    hold("array a local 3\n0 -> 1,", 5, 7, "a vertex is expected");
    hold("\tarray é local 3", 4, 8, "a name is expected");
    hold("array a local 3\n0 \u{fffd}", 5, 3, "is expected");
    let long = format!("array {} local 2", "a".repeat(64));
    hold(&long, 4, 7, "a name has at most 63 characters");
}

#[test]
fn programs() {
    let hold = |lines: &str, line, column, words| {
        hold(&format!("hpf directives\n{lines}"), line, column, words);
    };
    hold("template t block", 2, 12, "`(` is expected");
    hold(
        "template t (blok, *)",
        2,
        13,
        "`*`, `block` or `cyclic` is expected",
    );
    hold("template t (block *)", 2, 19, "`,` is expected");
    hold(
        "template t (cyclic(x), *)",
        2,
        20,
        "the size of a block is expected",
    );
    hold("template t (cyclic(65536), *)", 2, 20, "at most 65535");
    hold(
        "template t (*, *)\ntemplate t (*, *)",
        3,
        10,
        "`t` is named already",
    );
    hold("array a local with t", 2, 20, "there is no template `t`");
    hold(
        "array a local\ntemplate t (*, *)",
        2,
        14,
        "`with` is expected",
    );
    let start = "template t (*, *)\narray a local with t\n";
    let after = |line: &str| format!("{start}{line}");
    hold(&after("template u (*, *)"), 4, 1, "templates stand before");
    hold(&after("0\narray b in with t"), 5, 1, "arrays stand before");
    hold(&after("0 remap a 1"), 4, 3, "`realign`, `redistribute`");
    hold(&after("0 realign t with t"), 4, 11, "there is no array `t`");
    hold(
        &after("0 realign a with t straight"),
        4,
        20,
        "`,` or `->` is expected",
    );
    hold(
        &after("0 redistribute a (*, *)"),
        4,
        16,
        "there is no template `a`",
    );
}

#[test]
fn paths() {
    hold("hpf path 0 a", 1, 12, "a vertex is expected");
    hold("hpf path\n0 -1", 2, 3, "a vertex is expected");
    hold("hpf path\n0 70000", 2, 3, "a vertex is at most 65535");
    hold("hpf path 0 byte 256", 1, 17, "a byte is at most 255");
    hold(
        "hpf path 0 byte 2 1",
        1,
        19,
        "nothing follows the last byte",
    );
}

/// What the notation leaves open is the library's to judge.
#[test]
fn what_is_no_fault() {
    for text in [
        "hpf routine",
        "hpf routine\narray a in 99 initial 200\n0 read a -> 7 0 3\n1",
        "hpf routine\r\narray a local 3\r\n0 -> 1 ! the exit\r\n1\r\n",
        "hpf directives\ntemplate t (cyclic(0), cyclic)\n0",
        "hpf path",
        "hpf path 0 1 ! one\n 2",
    ] {
        assert!(read(text).is_ok(), "{text}");
    }
    let many: String = (0..9000).map(|vertex| format!("{vertex}\n")).collect();
    let arrays: String = (0..8).map(|at| format!("array a{at} in 1\n")).collect();
    hold(
        &format!("hpf routine\n{arrays}{many}"),
        1,
        5,
        "more arrays or vertices than bytes have room for",
    );
}

/// Texts with letters changed, left out or put in: read, or a fault within the text.
#[test]
fn whatever_is_written() {
    let texts = [
        "hpf routine\narray a inout 2\narray b in 2 initial 1\n0 -> 1\n\
         1 call a 1 inout, call b 1 in -> 2\n2 read a, remap b 0 -> 1 3\n3\n",
        "hpf directives\ntemplate t (block, cyclic(3))\narray a local with t exchanged\n0 -> 1\n\
         1 realign a with t -> 2\n2 redistribute t (*, cyclic) -> 3\n3 modify a -> 4\n4\n",
        "hpf path 0 1 2\n3 4 byte 7\n",
    ];
    let letters: Vec<char> = "ab01 ,->()*!\n\té\u{fffd}_9".chars().collect();
    let (mut read_well, mut faulty) = (0, 0);
    for index in 0..30_000 {
        let rng = &mut Rng::for_input(10, index);
        let mut text: Vec<char> = texts[rng.below(texts.len())].chars().collect();
        for _ in 0..rng.between(1, 4) {
            let at = rng.below(text.len());
            match rng.below(3) {
                0 => text[at] = rng.pick(&letters),
                1 => text.insert(at, rng.pick(&letters)),
                _ => drop(text.remove(at)),
            }
        }
        let text: String = text.into_iter().collect();
        match read(&text) {
            Ok(file) => {
                read_well += 1;
                let again = hpf::notation::text(&file).map(|text| read(&text));
                if let Some(again) = again {
                    assert_eq!(again.map(|file| file.bytes), Ok(file.bytes), "{text}");
                }
            }
            Err(fault) => {
                faulty += 1;
                let lines: Vec<&str> = text.lines().collect();
                let line = lines.get(fault.line - 1).copied().unwrap_or("");
                assert!(fault.column <= line.chars().count() + 1, "{fault}\n{text}");
            }
        }
    }
    assert!(read_well > 1_000 && faulty > 1_000, "{read_well} {faulty}");
}
