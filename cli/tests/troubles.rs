//! Trouble with files, arguments and the output: told on standard error, with status 2.

mod common;

use common::{command, fed, text};
use std::fs::File;
use std::io;
use std::process::{Command, Output, Stdio};

const P: &str = "examples/routines/p.hpf";
const PATH: &str = "examples/routines/p.path";

/// Nothing on standard output, these words on standard error, and status 2.
fn hold(output: &Output, words: &str) {
    let errors = text(&output.stderr);
    assert_eq!(output.status.code(), Some(2), "{errors}");
    assert!(
        errors.starts_with("hpf: ") && errors.contains(words),
        "{errors}"
    );
    assert_eq!(text(&output.stdout), "");
}

#[test]
fn arguments() {
    for (words, trouble) in [
        (vec![], "a command is missing"),
        (vec!["plane"], "there is no command plane"),
        (vec!["plan"], "a file is missing\nusage: hpf plan "),
        (vec!["run", P], "a file is missing"),
        (vec!["plan", P, P], "too many files"),
        (vec!["explain", P, PATH, P], "too many files"),
        (
            vec!["plan", "--tables", P],
            "hpf plan has no option --tables",
        ),
        (vec!["watch", "--table", P, PATH], "no option --table"),
        (vec!["explain", "--answer", "x"], "x is no number"),
        (vec!["explain", "--answer", "99"], "there is no refusal 99"),
        (vec!["run", "-", "-"], "standard input cannot be two files"),
        (vec!["run", P, P], "a path is asked for"),
        (vec!["plan", PATH], "a routine is asked for"),
    ] {
        hold(&fed(&words, b"hpf routine\n"), trouble);
    }
}

#[test]
fn files() {
    for name in ["plan", "text", "bytes", "explain", "dot", "convert"] {
        hold(
            &fed(&[name, "no/such/file"], &[]),
            "cannot read no/such/file: ",
        );
        hold(&fed(&[name, "examples"], &[]), "cannot read examples: ");
        hold(
            &fed(&[name, "/dev/zero"], &[]),
            "/dev/zero has more than 16 MiB",
        );
        hold(&fed(&[name, "--", "--help"], &[]), "cannot read --help: ");
    }
    hold(
        &fed(&["run", P, "no/such/file"], &[]),
        "cannot read no/such/file: ",
    );
    hold(
        &fed(&["watch", P, "examples"], &[]),
        "cannot read examples: ",
    );
}

#[test]
fn a_standard_input_that_cannot_be_read() {
    let folder = File::open(common::root()).expect("the folder opens");
    let output = command(&["plan", "-"]).stdin(folder).output();
    hold(
        &output.expect("the program ends"),
        "cannot read standard input: ",
    );
}

fn all_commands() -> Vec<Vec<&'static str>> {
    vec![
        vec!["--help"],
        vec!["--version"],
        vec!["plan", P],
        vec!["run", P, PATH],
        vec!["watch", P, PATH],
        vec!["text", P],
        vec!["bytes", P],
        vec!["convert", P],
        vec!["explain", P],
        vec!["dot", P],
        vec!["plan", "examples/routines/t.hpf"], // refused, and not written
    ]
}

#[test]
fn a_full_device() {
    for words in all_commands() {
        let full = File::options().write(true).open("/dev/full");
        let output = command(&words)
            .stdout(full.expect("a full device"))
            .stderr(Stdio::piped())
            .output()
            .expect("the program ends");
        let errors = text(&output.stderr);
        assert_eq!(output.status.code(), Some(2), "{words:?}");
        assert!(
            errors.contains("hpf: cannot write standard output: "),
            "{errors}"
        );
    }
}

#[test]
fn a_pipe_that_nobody_reads() {
    for words in all_commands() {
        let (reader, writer) = io::pipe().expect("a pipe");
        drop(reader);
        let output = command(&words)
            .stdout(writer)
            .stderr(Stdio::piped())
            .output()
            .expect("the program ends");
        let errors = text(&output.stderr);
        assert_eq!(output.status.code(), Some(2), "{words:?}");
        assert!(
            errors.contains("hpf: cannot write standard output: "),
            "{errors}"
        );
    }
}

#[test]
fn closed_streams() {
    let shell = |script: &str| {
        let program = env!("CARGO_BIN_EXE_hpf");
        let mut shell = Command::new("sh");
        shell
            .args(["-c", script, program])
            .current_dir(common::root());
        shell.output().expect("the program ends")
    };
    let output = shell(r#"exec "$0" plan examples/routines/p.hpf >&-"#);
    hold(&output, "cannot write standard output: it is closed");
    let output = shell(r#"exec "$0" plan - <&-"#);
    hold(&output, "cannot read standard input: it is closed");
    let output = shell(r#"exec "$0" plan no/such/file 2>&-"#);
    assert_eq!(output.status.code(), Some(2));
    let output = shell(r#"exec "$0" plan examples/routines/p.hpf <&- 2>&-"#);
    assert_eq!(output.status.code(), Some(0)); // neither is needed
}

/// A standard error that cannot be written either leaves the status.
#[test]
fn nothing_can_be_written() {
    let full = || {
        File::options()
            .write(true)
            .open("/dev/full")
            .expect("a full device")
    };
    let status = command(&["plan", "no/such/file"]).stderr(full()).status();
    assert_eq!(status.expect("the program ends").code(), Some(2));
    let mut plan = command(&["plan", P]);
    let status = plan.stdout(full()).stderr(full()).status();
    assert_eq!(status.expect("the program ends").code(), Some(2));
}

/// A refusal is the library's answer on standard output, its text on standard error, status 1.
#[test]
fn refusals() {
    for (words, input, numbers) in [
        (vec!["plan", "-"], &b""[..], "10 0 0\n"),
        (vec!["text", "-"], b"", "10 0 0\n"),
        (vec!["bytes", "-"], b"hpf routine\n", "12 8 0\n"),
        (vec!["text", "-"], b"HPFD", "40 4 0\n"),
        (vec!["dot", "examples/routines/t.hpf"], b"", "21 2 0\n"),
        (vec!["run", P, "-"], b"hpf path", "30 0 0\n"),
        (vec!["watch", P, "-"], b"hpf path 0 2", "32 1 0\n"),
        (
            vec!["convert", "examples/directives/figure-5.hpfd"],
            b"",
            "42 5 0\n",
        ),
    ] {
        let output = fed(&words, input);
        assert_eq!(text(&output.stdout), numbers, "{words:?}");
        assert!(text(&output.stderr).starts_with("hpf: refused: "));
        assert_eq!(output.status.code(), Some(1));
    }
}

/// Either form of a file, and standard input, give the same.
#[test]
fn forms() {
    for name in ["plan", "dot", "text", "bytes", "explain"] {
        let words = fed(&[name, P], &[]).stdout;
        let bytes = fed(&["bytes", P], &[]).stdout;
        let of_bytes = fed(&[name, "-"], &bytes);
        assert_eq!(of_bytes.status.code(), Some(0));
        // A text has a name for the array where bytes have its number.
        if name == "plan" || name == "text" || name == "bytes" {
            assert_eq!(text(&of_bytes.stdout), text(&words));
        }
    }
    let path = fed(&["bytes", PATH], &[]).stdout;
    let run = fed(&["run", P, PATH], &[]).stdout;
    assert_eq!(text(&fed(&["run", P, "-"], &path).stdout), text(&run));
    let long: Vec<u8> = std::iter::once(0)
        .chain((0..4095).map(|index| if index == 0 { 1 } else { 2 + (index - 1) % 5 }))
        .flat_map(u16::to_le_bytes)
        .collect();
    let output = fed(&["run", P, "-"], &long);
    assert_eq!(output.status.code(), Some(0)); // beyond the 512 vertices of the program
}

#[test]
fn help() {
    for words in [
        &["--help"][..],
        &["-h"],
        &["plan", "--help"],
        &["run", "-h"],
        &["watch", "--help"],
        &["explain", "--help"],
        &["dot", "--help"],
        &["text", "--help"],
        &["bytes", "--help"],
        &["convert", "--help"],
    ] {
        let output = fed(words, &[]);
        let said = text(&output.stdout);
        assert_eq!(output.status.code(), Some(0), "{words:?}");
        assert!(
            said.len() > 100 && said.lines().all(|line| line.len() <= 80),
            "{said}"
        );
        assert_eq!(text(&output.stderr), "");
    }
    let version = format!("hpf {}\n", env!("CARGO_PKG_VERSION"));
    assert_eq!(text(&fed(&["--version"], &[]).stdout), version);
}
