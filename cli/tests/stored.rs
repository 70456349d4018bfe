//! Every command on the routines with names and on the figures, against stored transcripts. With
//! HPF_STORE set they are written anew.

mod common;

use common::{fed, root, text};
use std::fmt::Write;
use std::fs;

/// The command lines that are tried on a routine and a path; both stand for their files.
const COMMANDS: [&[&str]; 14] = [
    &["text", "ROUTINE"],
    &["text", "PATH"],
    &["bytes", "ROUTINE"],
    &["bytes", "PATH"],
    &["convert", "--text", "ROUTINE"],
    &["plan", "ROUTINE"],
    &["plan", "--table", "ROUTINE"],
    &["run", "ROUTINE", "PATH"],
    &["run", "--table", "ROUTINE", "PATH"],
    &["watch", "ROUTINE", "PATH"],
    &["watch", "--machine", "ROUTINE", "PATH"],
    &["explain", "ROUTINE"],
    &["explain", "ROUTINE", "PATH"],
    &["dot", "ROUTINE"],
];

/// Bytes that are no text, in hexadecimal.
fn shown(output: &[u8]) -> String {
    match std::str::from_utf8(output) {
        Ok(text) if !text.contains('\0') => String::from(text),
        _ => {
            let line = |bytes: &[u8]| {
                let bytes: Vec<String> = bytes.iter().map(|byte| format!("{byte:02x}")).collect();
                bytes.join(" ") + "\n"
            };
            output.chunks(16).map(line).collect()
        }
    }
}

/// What all commands leave for a routine and a path.
fn transcript(routine: &str, path: &str) -> String {
    let mut transcript = String::new();
    for command in COMMANDS {
        let words: Vec<&str> = command
            .iter()
            .map(|word| match *word {
                "ROUTINE" => routine,
                "PATH" => path,
                word => word,
            })
            .collect();
        let output = fed(&words, &[]);
        let status = output.status.code().unwrap_or(-1);
        let printed = shown(&output.stdout);
        let fits = printed.lines().all(|line| line.len() <= 80);
        assert!(
            fits || ["text", "convert", "dot"].contains(&command[0]),
            "{printed}"
        );
        let _ = write!(
            transcript,
            "$ hpf {}\n{printed}{}[{status}]\n\n",
            words.join(" "),
            text(&output.stderr)
        );
    }
    transcript
}

/// Holds the transcript of a routine and a path to the one that is stored under a name.
fn hold(name: &str, routine: &str, path: &str) {
    let stored = root().join(format!("cli/tests/stored/{name}.txt"));
    let found = transcript(routine, path);
    if std::env::var_os("HPF_STORE").is_some() {
        fs::write(&stored, &found).expect("the transcript is written");
    }
    let due = fs::read_to_string(&stored).unwrap_or_default();
    if found != due {
        let differing = found.lines().zip(due.lines()).position(|(a, b)| a != b);
        panic!(
            "{} differs from line {differing:?} on:\n{found}",
            stored.display()
        );
    }
}

#[test]
fn routines() {
    for name in ["p", "q", "s", "t", "u", "k", "wide"] {
        let file = format!("examples/routines/{name}");
        hold(name, &format!("{file}.hpf"), &format!("{file}.path"));
    }
}

#[test]
fn figures() {
    for number in [1, 2, 3, 5, 6, 10, 13, 21] {
        let name = format!("figure-{number}");
        let directives = format!("examples/directives/{name}.hpfd");
        hold(&name, &directives, &format!("cli/tests/paths/{name}.path"));
    }
}

/// The plans of the figures are those that the planner is held to.
#[test]
fn plans_of_the_figures() {
    for number in [1, 2, 3, 5, 6, 10, 13, 21] {
        let figure = format!("examples/directives/figure-{number}");
        let due = fs::read(root().join(format!("{figure}.txt"))).expect("the figure's listing");
        let found = fed(&["plan", &format!("{figure}.hpfd")], &[]).stdout;
        assert_eq!(text(&found), text(&due));
    }
}

/// The README opens with what is printed for P, and shows what is explained of T.
#[test]
fn the_readme() {
    let readme = fs::read_to_string(root().join("README.md")).expect("the README");
    for words in [
        &[
            "watch",
            "examples/routines/p.hpf",
            "examples/routines/p.path",
        ][..],
        &["explain", "examples/routines/t.hpf"],
    ] {
        let printed = text(&fed(words, &[]).stdout);
        assert!(readme.contains(&format!("\n{printed}```\n")), "{printed}");
    }
}
