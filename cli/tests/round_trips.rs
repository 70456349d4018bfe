//! Bytes to text to bytes is the identity on every file that is accepted.

use hpf::files::{File, Form};
use hpf::notation;
use oracle::builder::{self, path_bytes};
use oracle::directives::figures;
use oracle::generate::directives;
use oracle::generate::rng::Rng;
use oracle::generate::{damage, limits, paths, routines};

/// The text of a file, and the file that it says.
fn there_and_back(form: Form, bytes: &[u8]) -> (String, File) {
    let file = File::of_bytes(form, bytes.to_vec());
    let text = notation::text(&file).expect("the file has a text");
    assert!(notation::is_text(text.as_bytes()));
    let back = notation::read(&text).unwrap_or_else(|fault| panic!("{fault}\n{text}"));
    (text, back)
}

fn hold(form: Form, bytes: &[u8]) {
    let (text, back) = there_and_back(form, bytes);
    assert_eq!(back.form, form);
    assert_eq!(back.bytes, bytes, "{text}");
    // A text with its names is printed as it is.
    assert_eq!(notation::text(&back), Some(text));
}

fn is_read(routine: &[u8]) -> bool {
    let answer = hpf_remap::plan(routine, &mut []);
    !answer.is_err_and(|refusal| hpf::explain::is_writers(refusal.number))
}

fn is_formed(directives: &[u8]) -> bool {
    let answer = hpf_remap::convert(directives, &mut []);
    !answer.is_err_and(|refusal| hpf::explain::is_writers(refusal.number))
}

#[test]
fn drawn_routines() {
    for index in 0..4_000 {
        let rng = &mut Rng::for_input(1, index);
        let size = routines::Size::any(rng);
        let draft = match index % 3 {
            0 => routines::any_graph(rng, size),
            1 => routines::program(rng, size),
            _ => routines::accepted(rng, size),
        };
        let file = draft.bytes();
        assert!(is_read(&file));
        hold(Form::Routine, &file);
    }
}

/// 20, 21 and 22 are no reader's: such files have texts, by which they are mended.
#[test]
fn refused_routines() {
    let mut read = 0;
    for number in damage::FILE_REFUSALS {
        for index in 0..100 {
            let rng = &mut Rng::for_input(number, index);
            let file = damage::refused(rng, number);
            assert_eq!(is_read(&file), number >= 20);
            if number >= 20 {
                read += 1;
                hold(Form::Routine, &file);
            }
        }
    }
    assert_eq!(read, 300);
}

#[test]
fn routines_at_the_limits() {
    let rng = &mut Rng::new(1);
    for draft in limits::at_limits(rng) {
        hold(Form::Routine, &draft.bytes());
    }
    for draft in [
        builder::p(),
        builder::q(),
        builder::s(),
        builder::t(),
        builder::u(),
        builder::k(),
    ] {
        hold(Form::Routine, &draft.bytes());
    }
}

/// Every byte of two rows, as far as it is accepted.
#[test]
fn all_actions() {
    let files = damage::all_of_two_rows().filter(|file| is_read(file));
    let count = files.inspect(|file| hold(Form::Routine, file)).count();
    assert!(count > 300, "{count}");
}

#[test]
fn drawn_directive_files() {
    for index in 0..4_000 {
        let rng = &mut Rng::for_input(2, index);
        let size = directives::Size::any(rng);
        let file = directives::program(rng, size).bytes();
        assert!(is_formed(&file));
        hold(Form::Directives, &file);
    }
}

#[test]
fn directive_files_at_the_limits() {
    let rng = &mut Rng::new(1);
    for program in directives::limits::large(rng) {
        hold(Form::Directives, &program.bytes());
    }
    for figure in figures::FIGURES {
        hold(Form::Directives, &figure.program().bytes());
    }
    for index in 0..500 {
        let rng = &mut Rng::for_input(3, index);
        let size = directives::Size::any(rng);
        let program = directives::program(rng, size);
        let file = directives::damage::any(rng, &program).file(&program);
        if is_formed(&file) {
            hold(Form::Directives, &file);
        }
    }
}

#[test]
fn drawn_paths() {
    for index in 0..4_000 {
        let rng = &mut Rng::for_input(4, index);
        let size = routines::Size::any(rng);
        let draft = routines::accepted(rng, size);
        let path = match index % 2 {
            0 => path_bytes(&paths::any(rng, &draft)),
            _ => paths::damaged(rng, &draft), // an odd last byte is kept
        };
        hold(Form::Path, &path);
    }
}

/// What comes from bytes by its mark goes back to the same bytes.
#[test]
fn marks() {
    let routine = builder::p().bytes();
    let directives = figures::FIGURE_10.program().bytes();
    let path = path_bytes(&[0, 1, 2]);
    for (bytes, form) in [
        (routine, Form::Routine),
        (directives, Form::Directives),
        (path, Form::Path),
    ] {
        let file = File::new(bytes.clone()).expect("bytes have no fault");
        assert_eq!((file.form, &file.bytes), (form, &bytes));
        let text = notation::text(&file).expect("the file has a text");
        let file = File::new(text.into_bytes()).expect("the text has no fault");
        assert_eq!((file.form, &file.bytes), (form, &bytes));
    }
}
