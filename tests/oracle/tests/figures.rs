//! Figures of source document 003 as directive files: what they are converted to, what the paper
//! says of their plans and runs, and that examples/directives has these files.

use oracle::builder::{Draft, path_bytes, remap};
use oracle::directives::convert::{convert, convert_by_states};
use oracle::directives::figures::{
    FIGURE_1, FIGURE_2, FIGURE_3, FIGURE_5, FIGURE_6, FIGURE_10, FIGURE_13, FIGURE_21, FIGURES,
    FOLDER, Figure,
};
use oracle::directives::{Program, file, sets};
use oracle::outcome::Outcome;
use oracle::plan::plan;
use oracle::routine::Routine;
use oracle::run::{ENTRY, run};
use oracle::{listing, machine};
use std::collections::BTreeMap;
use std::fs;
use std::path::Path;

const ROOM: usize = 10_000;

fn answer(figure: &Figure) -> (u64, u64, u64) {
    let Outcome {
        number,
        first,
        second,
    } = convert(&figure.program().bytes(), &mut vec![0; ROOM]);
    (number, first, second)
}

/// The parts of an accepted figure's routine.
fn converted(figure: &Figure) -> Draft {
    let mut out = vec![0; ROOM];
    let answer = convert(&figure.program().bytes(), &mut out);
    assert_eq!(answer.number, 0, "{answer:?}");
    Draft::from_bytes(&out[..answer.first as usize]).expect("a converted routine is well formed")
}

/// The mappings of the versions of each array, in words.
fn versions(figure: &Figure) -> Vec<Vec<String>> {
    let conversion = sets::conversion(&figure.program()).expect("the figure is accepted");
    let names = conversion.versions.iter();
    names
        .map(|versions| versions.iter().map(ToString::to_string).collect())
        .collect()
}

/// The planner's lines for the converted routine, without the heading.
fn lines(figure: &Figure) -> Vec<String> {
    let mut out = vec![0; ROOM];
    let answer = plan(&converted(figure).bytes(), &mut out);
    assert_eq!(answer.number, 0, "{answer:?}");
    let text = listing::plan(&out[..answer.first as usize]);
    text.lines().skip(1).map(String::from).collect()
}

/// The versions in which an array is used after planning: those of its kept labels.
fn used(figure: &Figure, array: usize) -> Vec<usize> {
    let mut used: Vec<usize> = lines(figure)
        .iter()
        .map(|line| line.split(' ').collect::<Vec<_>>())
        .filter(|fields| fields[1] == array.to_string() && fields[3] != "-")
        .map(|fields| fields[3].parse().expect("a version"))
        .collect();
    used.sort_unstable();
    used.dedup();
    used
}

/// The copies of each array along a path through the converted routine: by the plan, and by copying
/// at every remapping.
fn copies(figure: &Figure, path: &[u16]) -> Vec<(usize, usize)> {
    let file = converted(figure).bytes();
    let mut out = vec![0; ROOM];
    let answer = run(&file, &path_bytes(path), &mut out);
    assert_eq!(answer.number, 0, "{answer:?}");
    let routine = Routine::parse(&file).expect("a converted routine is well formed");
    let arrays: Vec<_> = routine.arrays().collect();
    let path: Vec<usize> = path.iter().map(|&vertex| vertex.into()).collect();
    let (machines, _) = machine::run(&arrays, routine.action_bytes(), &path);
    let counts = out.chunks_exact(ENTRY).zip(machines);
    counts
        .map(|(entry, machine)| (usize::from(entry[0]), machine.count))
        .collect()
}

/// The files in examples/directives are those of the figures, beside a document.
#[test]
fn figures_are_examples() {
    let expected: BTreeMap<_, _> = FIGURES.iter().flat_map(Figure::files).collect();
    let mut found = BTreeMap::new();
    for entry in fs::read_dir(FOLDER).expect("the folder is there") {
        let path = entry.expect("the folder is read").path();
        let name = path.file_name().expect("a file has a name");
        let bytes = fs::read(&path).expect("the file is read");
        found.insert(name.to_string_lossy().into_owned(), bytes);
    }
    assert!(found.remove("README.md").is_some());
    let again = "cargo run --release -p oracle --example figures writes the files";
    assert_eq!(found, expected, "{again}");
}

/// The documents show what the programs print.
#[test]
fn documents_show_the_examples() {
    let folder = Path::new(FOLDER);
    let document = |path: &str| fs::read_to_string(folder.join(path)).expect("a document");
    for figure in FIGURES {
        let printed = document(&format!("figure-{}.txt", figure.number));
        let shown = format!("```\n{printed}```\n");
        assert!(document("README.md").contains(&shown), "{printed}");
        if figure.number == FIGURE_10.number {
            assert!(document("../../README.md").contains(&shown), "{printed}");
        }
    }
}

/// The text of a figure says what its file does, and both forms of the meaning answer alike.
#[test]
fn figures_are_files() {
    for figure in FIGURES {
        let program = figure.program();
        let bytes = program.bytes();
        assert_eq!(file::parse(&bytes).as_ref(), Ok(&program));
        assert_eq!(
            Program::from_text(&program.to_string()).as_ref(),
            Ok(&program)
        );
        let (mut out, mut other) = (vec![0; ROOM], vec![0; ROOM]);
        let answer = convert(&bytes, &mut out);
        let by_states = convert_by_states(&bytes, 1000, &mut other);
        assert_eq!(by_states, Some(answer), "figure {}", figure.number);
        assert_eq!(out, other, "figure {}", figure.number);
    }
}

/// "It could be remapped at once from (block,*) to (*,cyclic)": the realign's label is dropped.
#[test]
fn figure_1() {
    assert_eq!(
        versions(&FIGURE_1),
        [
            vec!["(block,*)", "(*,block)", "(*,cyclic(1))"],
            vec!["(block,*)", "(cyclic(1),*)"]
        ]
    );
    let draft = converted(&FIGURE_1);
    assert_eq!(draft.arrays, [[0, 3, 0, 0], [0, 2, 0, 0]]);
    assert_eq!(draft.rows[2], [remap(1), 0]);
    assert_eq!(draft.rows[3], [remap(2), remap(1)]);
    assert_eq!(
        lines(&FIGURE_1),
        [
            "0 0 D 0 00000000 00000001",
            "0 1 D 0 00000000 00000001",
            "2 0 N - 00000001 00000004",
            "3 0 R 2 00000001 00000004",
            "3 1 R 1 00000001 00000002"
        ]
    );
    assert_eq!(copies(&FIGURE_1, &[0, 1, 2, 3, 4, 5]), [(1, 2), (1, 1)]);
}

/// "Both C remappings are useless because the redistribution restores its initial mapping": none of
/// them copies.
#[test]
fn figure_2() {
    assert_eq!(
        versions(&FIGURE_2),
        [["(block,*)", "(*,block)"], ["(block,*)", "(*,block)"]]
    );
    let draft = converted(&FIGURE_2);
    assert_eq!(draft.rows[2], [remap(1), 0]);
    assert_eq!(draft.rows[3], [remap(0), remap(1)]);
    assert_eq!(copies(&FIGURE_2, &[0, 1, 2, 3, 4, 5]), [(0, 2), (1, 1)]);
}

/// "Enforces the remapping of all five aligned arrays, although only two of them are used
/// afterwards": the labels of the other three are dropped.
#[test]
fn figure_3() {
    let draft = converted(&FIGURE_3);
    assert_eq!(draft.arrays, [[0, 2, 0, 0]; 5]);
    assert_eq!(draft.rows[2], [remap(1); 5]);
    let at_redistribute: Vec<String> = lines(&FIGURE_3)
        .iter()
        .filter(|line| line.starts_with("2 "))
        .map(|line| line[2..7].to_string())
        .collect();
    assert_eq!(
        at_redistribute,
        ["0 R 1", "1 N -", "2 N -", "3 R 1", "4 N -"]
    );
    assert_eq!(
        copies(&FIGURE_3, &[0, 1, 2, 3, 4]),
        [(1, 1), (0, 1), (0, 1), (1, 1), (0, 1)]
    );
}

/// "A mapping is modified by the redistribute if the realign was executed before at runtime".
#[test]
fn figure_5() {
    assert_eq!(answer(&FIGURE_5), (42, 5, 0));
    // It is not enough that T2 keeps its spread: the other way leaves A as T1 is spread.
    let text = FIGURE_5.text.replace("T2 (cyclic,*)", "T2 (cyclic(2),*)");
    let kept = Figure {
        text: &text,
        ..FIGURE_5
    };
    assert_eq!(answer(&kept), (42, 5, 0));
}

/// With T1 spread as T2 is redistributed A is left in one mapping on both ways.
#[test]
fn figure_5_with_one_mapping_left() {
    let text = FIGURE_5.text.replace("T1 (block,*)", "T1 (cyclic(2),*)");
    let accepted = Figure {
        text: &text,
        ..FIGURE_5
    };
    assert_eq!(versions(&accepted), [["(cyclic(2),*)", "(cyclic(1),*)"]]);
    let rows = converted(&accepted).rows;
    assert_eq!((&rows[3], &rows[5]), (&vec![remap(1)], &vec![remap(0)]));
}

/// "The mapping ambiguity is solved before any reference to A"; with one before that it is not.
#[test]
fn figure_6() {
    assert_eq!(
        versions(&FIGURE_6),
        [["(block,*)", "(cyclic(1),*)", "(cyclic(10),*)"]]
    );
    let rows = converted(&FIGURE_6).rows;
    assert_eq!((&rows[3], &rows[6]), (&vec![remap(1)], &vec![remap(2)]));
    assert_eq!(used(&FIGURE_6, 0), [0, 1, 2]);

    let text = FIGURE_6.text.replace("\n5 ->", "\n5 read A ->");
    let referred = Figure {
        text: &text,
        ..FIGURE_6
    };
    assert_eq!(answer(&referred), (21, 5, 0));
}

/// "A may be used with all possible mappings {0, 1, 2, 3}, but array B is only used with {0, 1} and
/// array C with {0, 3}".
#[test]
fn figure_10() {
    let mappings = ["(block,*)", "(cyclic(1),*)", "(block,block)", "(*,block)"];
    assert_eq!(versions(&FIGURE_10), [mappings; 3]);
    let draft = converted(&FIGURE_10);
    assert_eq!(draft.arrays, [[3, 4, 0, 0], [0, 4, 0, 0], [0, 4, 0, 0]]);
    for (vertex, version) in [(3, 1), (5, 2), (8, 0), (10, 3)] {
        assert_eq!(draft.rows[vertex], [remap(version); 3]);
    }
    assert_eq!(used(&FIGURE_10, 0), [0, 1, 2, 3]);
    assert_eq!(used(&FIGURE_10, 1), [0, 1]);
    assert_eq!(used(&FIGURE_10, 2), [0, 3]);
    // Without an iteration C is never made, and B not after the branch.
    assert_eq!(
        copies(&FIGURE_10, &[0, 1, 2, 5, 6, 7, 12]),
        [(1, 2), (0, 1), (0, 1)]
    );
    // In the second iteration version 3 of A is still live.
    let twice = [0, 1, 2, 5, 6, 7, 8, 9, 10, 11, 7, 8, 9, 10, 11, 7, 12];
    assert_eq!(copies(&FIGURE_10, &twice), [(4, 6), (0, 5), (2, 5)]);
}

/// "Depending on the execution path in the program, array copy A_0 may reach remapping statement 3
/// live or not."
#[test]
fn figure_13() {
    assert_eq!(
        versions(&FIGURE_13),
        [["(block,*)", "(cyclic(1),*)", "(cyclic(2),*)"]]
    );
    let rows = converted(&FIGURE_13).rows;
    assert_eq!(rows[3], [remap(1)]);
    assert_eq!(rows[5], [remap(2)]);
    assert_eq!(rows[7], [remap(0)]);
    assert_eq!(copies(&FIGURE_13, &[0, 1, 2, 3, 4, 7, 8]), [(2, 2)]);
    assert_eq!(copies(&FIGURE_13, &[0, 1, 2, 5, 6, 7, 8]), [(1, 2)]);
}

/// "Array A is remapped at the redistribute to (block,*) or (*,block) depending on the execution of
/// the realign."
#[test]
fn figure_21() {
    assert_eq!(answer(&FIGURE_21), (42, 3, 0));
}
