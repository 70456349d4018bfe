//! Every refusal is explained by a sentence, and the paths that a sentence names are right.

use hpf::arrivals::{self, Arrivals};
use hpf::directives::{Program, Statement};
use hpf::explain::explained;
use hpf::files::{File, Form};
use hpf::mappings::Search;
use hpf::routine::Routine;
use hpf_remap::formats::Action;
use hpf_remap::{Refusal, refusal};
use oracle::builder::{self, path_bytes};
use oracle::generate::directives::limits::{by_realigns, by_redistributes, by_ways};
use oracle::generate::rng::Rng;
use oracle::generate::{damage, directives, paths, routines};
use std::collections::BTreeSet;

/// What `hpf explain` prints, and whether the file is refused.
fn printed(form: Form, bytes: &[u8], path: Option<&[u8]>) -> (String, bool) {
    let file = File::of_bytes(form, bytes.to_vec());
    let path = path.map(|path| File::of_bytes(Form::Path, path.to_vec()));
    let ending = explained(&file, path.as_ref());
    let text = String::from_utf8(ending.output).expect("a text");
    (text, ending.refused)
}

/// The sentence about a refusal stands behind its three numbers, and fits a terminal but for what
/// cannot be broken.
fn hold(form: Form, bytes: &[u8], path: Option<&[u8]>, due: Refusal) -> String {
    let (text, refused) = printed(form, bytes, path);
    assert!(refused);
    let (numbers, sentence) = text.split_once('\n').expect("two lines");
    assert_eq!(numbers, due.to_string());
    assert!(sentence.len() > 30 && sentence.ends_with(".\n"), "{text}");
    assert!(
        text.lines().all(|line| line.chars().count() <= 80),
        "{text}"
    );
    String::from(sentence)
}

#[test]
fn routines_of_every_refusal() {
    for number in damage::FILE_REFUSALS {
        for index in 0..300 {
            let rng = &mut Rng::for_input(number, index);
            let file = damage::refused(rng, number);
            let due = hpf_remap::planned(&file).expect_err("it is refused");
            assert_eq!(due.number, number);
            let sentence = hold(Form::Routine, &file, None, due);
            if (refusal::WRONG_EDITION..=refusal::MIXED_ACTIONS).contains(&number) {
                let byte = format!("Byte {}: ", due.first);
                let length = number == refusal::WRONG_OFFSET && due.first == 18;
                assert!(sentence.starts_with(&byte) || length, "{sentence}");
            }
        }
    }
}

/// Directive files that are refused with this number; those of 41 are seldom drawn.
fn refused_directives(number: u64) -> Vec<Vec<u8>> {
    if number == refusal::TOO_MANY_MAPPINGS {
        let most = hpf_remap::formats::MOST_VERSIONS;
        return [by_redistributes, by_realigns, by_ways]
            .map(|with| with(most + 1).bytes())
            .into();
    }
    let drawn = |index| {
        let rng = &mut Rng::for_input(number, index);
        directives::refused(rng, number, directives::Size::small)
    };
    (0..100).map(drawn).collect()
}

#[test]
fn directive_files_of_every_refusal() {
    for number in directives::REFUSALS {
        for file in refused_directives(number) {
            let due = hpf_remap::converted(&file).expect_err("it is refused");
            assert_eq!(due.number, number);
            // A file without its mark is not known as a directive file.
            let (form, due) = match file.starts_with(b"HPFD") {
                true => (Form::Directives, due),
                false => (
                    Form::Routine,
                    hpf_remap::planned(&file).expect_err("no routine"),
                ),
            };
            hold(form, &file, None, due);
        }
    }
}

#[test]
fn paths_of_every_refusal() {
    let mut numbers = BTreeSet::new();
    for index in 0..2_000 {
        let rng = &mut Rng::for_input(6, index);
        let size = routines::Size::any(rng);
        let draft = routines::accepted(rng, size);
        let file = draft.bytes();
        let path = paths::damaged(rng, &draft);
        match hpf_remap::ran(&file, &path) {
            Ok(_) => assert!(!printed(Form::Routine, &file, Some(&path)).1),
            Err(due) => {
                numbers.insert(due.number);
                let sentence = hold(Form::Routine, &file, Some(&path), due);
                let index = format!("Index {} of the path", due.first);
                let step = due.number == refusal::NO_SUCH_EDGE;
                assert_eq!(sentence.starts_with(&index), step, "{sentence}");
            }
        }
    }
    assert_eq!(Vec::from_iter(numbers), [30, 31, 32]);
}

/// Bytes that are nothing in particular, and the files of every refusal with a byte changed.
#[test]
fn whatever_comes() {
    for index in 0..20_000 {
        let rng = &mut Rng::for_input(7, index);
        let (form, mut file) = match index % 4 {
            0 => (Form::Routine, damage::several_faults(rng)),
            1 => (Form::Routine, builder::k().bytes()),
            2 => {
                let size = directives::Size::small(rng);
                (Form::Directives, directives::program(rng, size).bytes())
            }
            _ => (Form::Directives, b"HPFD\x01\0\x16\0".to_vec()),
        };
        for _ in 0..rng.between(1, 3) {
            if !file.is_empty() {
                let at = rng.below(file.len());
                file[at] = rng.byte();
            }
        }
        file.truncate(rng.between(0, 2 * file.len()));
        printed(form, &file, Some(&[0, 0]));
    }
}

/// The library's 21 is where the search finds two versions first.
#[test]
fn the_search_agrees_with_the_library() {
    let mut ambiguous = 0;
    for index in 0..3_000 {
        let rng = &mut Rng::for_input(8, index);
        let size = routines::Size::any(rng);
        let file = routines::program(rng, size).bytes();
        let due = match hpf_remap::planned(&file) {
            Err(refusal) if refusal.number == refusal::AMBIGUOUS => {
                ambiguous += 1;
                Some((refusal.first as usize, refusal.second as usize))
            }
            Err(_) => continue,
            Ok(_) => None,
        };
        let routine = Routine::from_bytes(&file).expect("a routine");
        assert_eq!(arrivals::ambiguous(&routine), due);
        if let Some((vertex, array)) = due {
            hold_paths(&routine, vertex, array);
        }
    }
    assert!(ambiguous > 300, "{ambiguous}");
}

/// The paths follow edges, and bring the versions that they are said to.
fn hold_paths(routine: &Routine, vertex: usize, array: usize) {
    let arrivals = Arrivals::new(routine, array);
    let versions = arrivals.versions(vertex);
    assert!(versions.len() > 1);
    for version in versions {
        let path = arrivals.path(vertex, version);
        assert_eq!((path[0], path[path.len() - 1]), (0, vertex));
        let mut brought = routine.arrays[array].initial;
        for pair in path.windows(2) {
            assert!(routine.edges.contains(&(pair[0] as u16, pair[1] as u16)));
            if let Action::Remap(target) = routine.rows[pair[0]][array] {
                brought = target;
            }
        }
        assert_eq!(brought, version);
    }
}

/// Of a directive file that is refused with 41, 42 or 21, the search finds the mappings.
#[test]
fn mappings_agree_with_the_library() {
    for number in [
        refusal::TOO_MANY_MAPPINGS,
        refusal::TWO_MAPPINGS,
        refusal::AMBIGUOUS,
    ] {
        for file in refused_directives(number) {
            let due = hpf_remap::converted(&file).expect_err("it is refused");
            let program = Program::from_bytes(&file).expect("a program");
            let (vertex, array) = match number {
                refusal::TOO_MANY_MAPPINGS => (0, due.first as usize),
                _ => (due.first as usize, due.second as usize),
            };
            let search = Search::new(&program, array);
            assert!(search.is_complete);
            let found = match number {
                refusal::TOO_MANY_MAPPINGS => {
                    assert!(search.count() > hpf_remap::formats::MOST_VERSIONS);
                    continue;
                }
                refusal::TWO_MAPPINGS => search.leaving(vertex),
                _ => {
                    let statement = &program.vertices[vertex];
                    assert!(matches!(statement, Statement::References(_)));
                    search.coming(vertex)
                }
            };
            assert!(found.len() > 1);
            for (_, path) in found {
                assert_eq!((path[0], path[path.len() - 1]), (0, vertex));
                let edge = |pair: &[usize]| (pair[0] as u16, pair[1] as u16);
                assert!(
                    path.windows(2)
                        .all(|pair| program.edges.contains(&edge(pair)))
                );
            }
        }
    }
}

/// The numbers of the library's caller, and all others, without a file.
#[test]
fn numbers_alone() {
    for (number, text) in refusal::TEXTS {
        let refusal = Refusal {
            number,
            first: 7,
            second: 3,
        };
        let ending = hpf::explain::answer(refusal).expect("it is known");
        let said = String::from_utf8(ending.output).expect("a text");
        let said = said.replace('\n', " ");
        assert!(said.starts_with(&format!("{number}: {text}: ")), "{said}");
        assert!(said.contains('7'));
    }
}

/// An accepted file is told with the sizes of plan and report.
#[test]
fn accepted() {
    let (routine, path) = (builder::p().bytes(), path_bytes(&[0, 1, 2]));
    let plan = hpf_remap::planned(&routine).expect("a plan").len();
    let report = hpf_remap::ran(&routine, &path).expect("a report").len();
    let (text, refused) = printed(Form::Routine, &routine, Some(&path));
    assert!(!refused);
    let due = format!(
        "The routine is accepted. The plan has {plan} bytes.\n\
         The path is accepted. The report has {report} bytes.\n"
    );
    assert_eq!(text, due);
}
