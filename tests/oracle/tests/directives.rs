//! What directive files mean: both forms agree, and the request's sentence holds along paths.

use oracle::builder::{Draft, READ, remap};
use oracle::directives::convert::{Conversion, convert, convert_by_states};
use oracle::directives::meaning::State;
use oracle::directives::{Program, Statement, file, sets, states};
use oracle::generate::directives::{self, NAMED, REFUSALS, REMAPS_NOTHING, Size, limits};
use oracle::generate::paths;
use oracle::generate::rng::Rng;
use oracle::outcome::Outcome;
use oracle::routine::Action;
use std::collections::BTreeMap;

const SEED: u64 = 4;

/// So many states are followed.
const MOST: usize = 20_000;

fn places(outcome: Outcome) -> (u64, u64, u64) {
    (outcome.number, outcome.first, outcome.second)
}

/// What a conversion without room answers: 1 says that the file is accepted.
fn answer(program: &Program) -> (u64, u64, u64) {
    places(convert(&program.bytes(), &mut []))
}

fn from_text(text: &str) -> Program {
    Program::from_text(text).unwrap_or_else(|line| panic!("{line}"))
}

/// Both forms give the same answer and the same bytes. Says which number, or none where there are
/// too many states.
fn agree(name: &str, program: &Program) -> Option<u64> {
    let file = program.bytes();
    let (mut by_sets, mut by_states) = (vec![0x5a; 7_000], vec![0x5a; 7_000]);
    let expected = convert_by_states(&file, MOST, &mut by_states)?;
    assert_eq!(convert(&file, &mut by_sets), expected, "{name}\n{program}");
    assert_eq!(by_sets, by_states, "{name}\n{program}");
    assert_eq!(
        states::conversion(program, MOST),
        Some(sets::conversion(program)),
        "{name}\n{program}"
    );
    Some(expected.number)
}

/// A program of one of the kinds that the tests draw, some of them made acceptable.
fn drawn(rng: &mut Rng, small: bool) -> Program {
    let size = match small {
        true => Size::small(rng),
        false => Size::any(rng),
    };
    let mut program = match rng.below(10) {
        0..=3 => directives::program(rng, size),
        4 | 5 => directives::chain(rng, size, 40),
        _ => {
            let figure = rng.pick(&NAMED);
            directives::varied(rng, &figure)
        }
    };
    if rng.chance(40) {
        directives::make_acceptable(rng, &mut program);
    }
    program
}

/// How often each answer was given; none where there are too many states.
type Answers = BTreeMap<Option<u64>, usize>;

/// Each answer has so many of a hundred files at least.
fn assert_shares(answers: &Answers, least: &[(u64, usize)]) {
    println!("{answers:?}");
    let all: usize = answers.values().sum();
    for &(answer, least) in least {
        let count = answers.get(&Some(answer)).copied().unwrap_or(0);
        assert!(100 * count >= least * all, "{answer}: {answers:?}");
    }
    let left_out = answers.get(&None).copied().unwrap_or(0);
    assert!(100 * left_out <= all, "{answers:?}");
}

#[test]
fn both_forms_agree() {
    let mut answers = Answers::new();
    for index in 0..20_000 {
        let program = drawn(&mut Rng::for_input(SEED, index), true);
        let answer = agree(&format!("seed {SEED}, index {index}"), &program);
        *answers.entry(answer).or_default() += 1;
    }
    assert_shares(&answers, &[(0, 70), (42, 10), (21, 2)]);
}

/// With few paths also larger programs have few states, and more than 32 mappings.
#[test]
fn both_forms_agree_on_chains() {
    let seed = SEED + 1;
    let mut answers = Answers::new();
    for index in 0..4_000 {
        let mut rng = Rng::for_input(seed, index);
        let size = Size {
            vertices: rng.between(20, 200),
            templates: rng.between(1, 2),
            arrays: rng.between(1, 8),
            spreads: rng.between(10, 60),
        };
        let gaps = rng.below(4);
        let program = match rng.below(4) {
            0 => directives::many_mappings(&mut rng),
            _ => directives::chain(&mut rng, size, gaps),
        };
        let answer = agree(&format!("seed {seed}, index {index}"), &program);
        *answers.entry(answer).or_default() += 1;
    }
    assert_shares(&answers, &[(0, 20), (41, 3), (42, 10), (20, 5), (21, 3)]);
}

/// The number of states is bounded: sixteen mappings of each of eight templates are too many.
#[test]
fn too_many_states() {
    let program = limits::largest();
    assert_eq!(states::conversion(&program, MOST), None);
    assert!(sets::conversion(&program).is_ok());
    let smallest = limits::smallest();
    assert_eq!(states::conversion(&smallest, 0), None);
    assert!(states::conversion(&smallest, 1).is_some());
}

/// Walks a path through a program and its converted routine side by side. At each vertex each
/// array has the mapping of the version of its last label; gives the references among them.
fn walk(program: &Program, conversion: &Conversion, path: &[u16]) -> Result<usize, String> {
    let mut state = State::initial(program);
    let mut named = vec![0; program.arrays.len()];
    let mut references = 0;
    for (step, &vertex) in path.iter().enumerate() {
        let vertex = usize::from(vertex);
        let row = &conversion.rows[vertex];
        for (array, &byte) in row.iter().enumerate() {
            let mapping = conversion.versions[array][named[array]];
            if mapping != state.mapping(array) {
                return Err(format!(
                    "step {step}, array {array}: {} and not {mapping}",
                    state.mapping(array)
                ));
            }
            references += usize::from(Action::is_reference(byte));
        }
        if let Statement::References(kept) = &program.vertices[vertex]
            && kept != row
        {
            return Err(format!("step {step}: references are not kept"));
        }
        for (version, &byte) in named.iter_mut().zip(row) {
            if Action::is_remap(byte) {
                *version = usize::from(byte - remap(0));
            }
        }
        state = state.after(&program.vertices[vertex]);
    }
    Ok(references)
}

/// Walks some paths through a program that 41 and 42 accept; gives the references on each.
fn walks(name: &str, rng: &mut Rng, program: &Program) -> Vec<usize> {
    let Ok(conversion) = sets::conversion(program) else {
        return Vec::new();
    };
    let routine = conversion.routine(program);
    let mut one = || {
        let path = paths::any(rng, &routine);
        walk(program, &conversion, &path)
            .unwrap_or_else(|fault| panic!("{name}: {fault}\n{program}{path:?}"))
    };
    vec![one(), one(), one()]
}

/// "At each reference on a path from the entry the mapping that the directives give is that of the
/// version which the converted routine names", also in routines that 20 and 21 refuse.
#[test]
fn references_have_their_mappings() {
    let seed = SEED + 2;
    let mut references = Vec::new();
    for index in 0..8_000 {
        let mut rng = Rng::for_input(seed, index);
        let program = drawn(&mut rng, false);
        references.extend(walks(
            &format!("seed {seed}, index {index}"),
            &mut rng,
            &program,
        ));
    }
    let (walked, met) = (references.len(), references.iter().sum::<usize>());
    println!("{walked} paths, {met} references");
    assert!(walked > 10_000 && met > 200_000);
}

#[test]
fn large_programs() {
    let mut rng = Rng::new(SEED);
    let mut references = walks("largest", &mut rng, &limits::largest());
    for (index, program) in limits::large(&mut rng).into_iter().enumerate() {
        let file = program.bytes();
        assert_eq!(file::parse(&file).as_ref(), Ok(&program));
        if index % 2 == 1 {
            assert_eq!(answer(&program).0, 1, "large {index}");
        }
        references.extend(walks(&format!("large {index}"), &mut rng, &program));
    }
    let (walked, met) = (references.len(), references.iter().sum::<usize>());
    println!("{walked} paths, {met} references");
    assert!(walked >= 21 && met > 1_000);
}

/// The converted file has the program's kinds, vertices and edges; versions differ, begin with the
/// initial mapping, and follow the vertices that give them first.
#[test]
fn converted_files() {
    for index in 0..1_500 {
        let mut rng = Rng::for_input(SEED + 3, index);
        let size = Size::any(&mut rng);
        let program = directives::accepted(&mut rng, size);
        let mut out = vec![0; 7_000];
        let answer = convert(&program.bytes(), &mut out);
        assert_eq!(answer.number, 0, "{program}");
        let routine = Draft::from_bytes(&out[..answer.first as usize]).expect("it is well formed");
        let conversion = sets::conversion(&program).expect("it is accepted");
        assert_eq!(routine.edges, program.edges);
        assert_eq!(routine.rows, conversion.rows);
        for (array, versions) in conversion.versions.iter().enumerate() {
            let kind = program.arrays[array].kind;
            assert_eq!(routine.arrays[array], [kind, versions.len() as u8, 0, 0]);
            assert_eq!(versions[0], program.initial(array));
            let mut next = 1;
            for row in &routine.rows {
                if Action::is_remap(row[array]) {
                    let version = usize::from(row[array] - remap(0));
                    assert!(version <= next, "{program}");
                    next = next.max(version + 1);
                }
            }
            assert_eq!(next, versions.len(), "{program}");
            for (version, mapping) in versions.iter().enumerate() {
                assert!(!versions[..version].contains(mapping), "{program}");
            }
        }
    }
}

/// What an accepted program shows of the rules.
#[derive(Clone, Copy, PartialEq, Eq, PartialOrd, Ord, Debug)]
enum Shown {
    /// A directive remaps an array.
    Remaps,
    /// Without exchanges it would be converted differently.
    Exchange,
    /// A redistribute that remaps nothing, and without which it would be converted differently.
    RemapsNothing,
    /// A redistribute remaps an array that some path brings aligned with another template.
    AlignedElsewhere,
    /// A redistribute meets an array straight and exchanged.
    StraightAndExchanged,
    /// A label names version 0.
    BackToInitial,
    /// A directive that no path reaches.
    Unreached,
}

fn shown(program: &Program, conversion: &Conversion) -> Vec<Shown> {
    let mut shown = Vec::new();
    let mut add = |what, holds: bool| {
        if holds {
            shown.push(what);
        }
    };
    let labels = |test: &dyn Fn(u8) -> bool| conversion.rows.iter().flatten().any(|&b| test(b));
    add(Shown::Remaps, labels(&Action::is_remap));
    add(Shown::BackToInitial, labels(&|byte| byte == remap(0)));
    let differs = |other: &Program| sets::conversion(other).as_ref() != Ok(conversion);

    let mut straight = program.clone();
    for array in &mut straight.arrays {
        array.alignment.exchanged = false;
    }
    for statement in &mut straight.vertices {
        if let Statement::Realign(_, alignment) = statement {
            alignment.exchanged = false;
        }
    }
    add(Shown::Exchange, differs(&straight));

    let brought = states::brought(program, MOST).unwrap_or_default();
    let directives = program.vertices.iter().enumerate();
    for (vertex, statement) in directives.filter(|(_, statement)| statement.is_directive()) {
        let Some(states) = brought.get(vertex) else {
            continue;
        };
        add(Shown::Unreached, states.is_empty());
        let Statement::Redistribute(template, _) = *statement else {
            continue;
        };
        if conversion.rows[vertex].iter().all(|&byte| byte == 0) && !states.is_empty() {
            let mut without = program.clone();
            without.vertices[vertex] = program.nothing();
            add(Shown::RemapsNothing, differs(&without));
        }
        for array in 0..program.arrays.len() {
            let meets = |test: &dyn Fn(&State) -> bool| states.iter().any(test);
            let remapped = |state: &State| state.is_remapped(statement, array);
            let exchanged = |state: &State| state.alignment(array).exchanged;
            let is_remapped = meets(&remapped);
            add(
                Shown::AlignedElsewhere,
                is_remapped && meets(&|state| state.alignment(array).template != template),
            );
            add(
                Shown::StraightAndExchanged,
                meets(&|state| remapped(state) && exchanged(state))
                    && meets(&|state| remapped(state) && !exchanged(state)),
            );
        }
    }
    shown.sort_unstable();
    shown.dedup();
    shown
}

/// Accepted programs show what matters often enough.
#[test]
fn shares_of_accepted_programs() {
    let mut counts: BTreeMap<Shown, usize> = BTreeMap::new();
    let mut accepted = 0;
    for index in 0..6_000 {
        let mut rng = Rng::for_input(SEED + 4, index);
        let program = drawn(&mut rng, true);
        if answer(&program).0 != 1 {
            continue;
        }
        let conversion = sets::conversion(&program).expect("it is accepted");
        accepted += 1;
        for what in shown(&program, &conversion) {
            *counts.entry(what).or_default() += 1;
        }
    }
    println!("{accepted} accepted: {counts:?}");
    for (what, least) in [
        (Shown::Remaps, 70),
        (Shown::Exchange, 35),
        (Shown::RemapsNothing, 5),
        (Shown::AlignedElsewhere, 7),
        (Shown::StraightAndExchanged, 3),
        (Shown::BackToInitial, 50),
        (Shown::Unreached, 3),
    ] {
        let count = counts.get(&what).copied().unwrap_or(0);
        assert!(100 * count >= least * accepted, "{what:?}: {counts:?}");
    }
}

#[test]
fn refusals_have_their_number() {
    for number in REFUSALS {
        for index in 0..100 {
            let file = directives::refused(&mut Rng::for_input(number, index), number, Size::any);
            assert_eq!(convert(&file, &mut []).number, number);
        }
    }
}

/// 32 mappings are accepted and 33 refused, at the array that has them.
#[test]
fn mappings_at_the_limit() {
    for program in [limits::by_redistributes, limits::by_realigns] {
        for mappings in [16, 17, 31, 32] {
            assert_eq!(agree("accepted", &program(mappings)), Some(0));
        }
        assert_eq!(answer(&program(33)), (41, 7, 0));
        assert_eq!(agree("33 mappings", &program(33)), Some(41));
    }
    // One realign gives all but the first: 41 goes before 42.
    assert_eq!(answer(&limits::by_ways(2)).0, 1);
    assert_eq!(answer(&limits::by_ways(3)), (42, 3, 0));
    assert_eq!(answer(&limits::by_ways(32)), (42, 32, 0));
    assert_eq!(answer(&limits::by_ways(33)), (41, 0, 0));
    // A mapping that no path gives does not count.
    let program = limits::with_unreached(limits::by_redistributes(32));
    assert_eq!(answer(&program).0, 1);
    assert_eq!(agree("unreached", &program), Some(0));
    assert_eq!(agree("largest", &limits::smallest()), Some(0));
}

/// 41 and 42 go before 20, 20 before 21, 21 before 1, whatever their vertices.
#[test]
fn refusals_in_order() {
    let text = "
template T (block,*)
template U (cyclic,*)
array A in with T
array B local with T
0 -> 1 2
1 realign A with T exchanged -> 2
2 read A -> 3
3 modify A -> 4 5
4 realign B with T exchanged -> 5
5 redistribute T (*,block) -> 6
6 read B -> 7
7
";
    assert_eq!(answer(&from_text(text)), (42, 5, 0));
    let changed = text.replace("5 redistribute T (*,block)", "5 redistribute U (*,block)");
    assert_eq!(answer(&from_text(&changed)), (20, 3, 0));
    let changed = changed.replace("3 modify A", "3 read A");
    assert_eq!(answer(&from_text(&changed)), (21, 2, 0));
    let changed = changed.replace("0 -> 1 2", "0 -> 1");
    assert_eq!(answer(&from_text(&changed)), (21, 6, 1));
    let changed = changed.replace("4 realign B with T exchanged", "4");
    let program = from_text(&changed);
    let needed = 18 + 2 * 4 + 8 * 2 + 4 * program.edges.len();
    assert_eq!(answer(&program), (1, needed as u64, 0));
    let mut out = vec![0x5a; needed - 1];
    assert_eq!(convert(&program.bytes(), &mut out).number, 1);
    assert_eq!(out, vec![0x5a; needed - 1]);
    let mut out = vec![0x5a; needed];
    let answer = places(convert(&program.bytes(), &mut out));
    assert_eq!(answer, (0, needed as u64, 0));
}

/// 42 is given for the lowest vertex, then the lowest array, and without any reference.
#[test]
fn the_place_of_42() {
    let text = "
template T (block,*)
array A local with T exchanged
array B local with T
array C local with T
0 -> 1 2
1 realign B with T exchanged -> 2
2 -> 3 4
3 realign C with T exchanged -> 4
4 redistribute T (*,cyclic) -> 5
5 redistribute T (*,cyclic) -> 6
6
";
    assert_eq!(answer(&from_text(text)), (42, 4, 1));
    let changed = text.replace("1 realign B with T exchanged", "1");
    assert_eq!(answer(&from_text(&changed)), (42, 4, 2));
    // A mapping that is the same after an exchange is one.
    let changed = text.replace("(*,cyclic)", "(cyclic,cyclic)");
    assert_eq!(answer(&from_text(&changed)).0, 1);
}

/// 42 looks at all paths: also at the one that brings the array aligned with another template.
#[test]
fn aligned_elsewhere() {
    let text = "
template T (block,*)
template U (cyclic,*)
array A local with T
0 -> 1 2
1 realign A with U -> 2
2 redistribute T (*,block) -> 3
3 read A -> 4
4
";
    assert_eq!(answer(&from_text(text)), (42, 2, 0));
    let changed = text.replace("T (*,block)", "T (cyclic,*)");
    assert_eq!(answer(&from_text(&changed)).0, 1);
}

/// A redistribute that remaps nothing is a row of 00, but a later realign finds its spread.
#[test]
fn redistributes_that_remap_nothing() {
    let program = REMAPS_NOTHING.program();
    let conversion = sets::conversion(&program).expect("it is accepted");
    let words = |array: usize| -> Vec<String> {
        let versions = conversion.versions[array].iter();
        versions.map(ToString::to_string).collect()
    };
    assert_eq!(words(0), ["(block,*)", "(*,block)", "(block,block)"]);
    assert_eq!(words(1), ["(block,*)", "(block,block)"]);
    let rows = &conversion.rows;
    assert_eq!([&rows[2], &rows[4]], [&vec![0, 0]; 2]);
    assert_eq!(rows[5], [remap(1), 0]);
    assert_eq!(rows[7], [remap(2), 0]);
    assert_eq!(rows[8], [0, remap(1)]);
    assert_eq!(agree("remaps nothing", &program), Some(0));
    // One way passes the redistribute, the other does not: the realign gives two mappings.
    let text = REMAPS_NOTHING
        .text
        .replace("3 -> 4 5", "3 -> 4 5\n")
        .replace(
            "4 redistribute T2 (*,block)",
            "4 redistribute T2 (*,cyclic)",
        );
    assert_eq!(answer(&from_text(&text)), (42, 5, 0));
}

/// Block is not cyclic, cyclic(b) goes by b, and the template does not matter.
#[test]
fn mappings_as_written() {
    let text = "
template T (block,*)
template U (cyclic(65535),*)
array A local with T
0 -> 1
1 redistribute T (cyclic,*) -> 2
2 redistribute T (cyclic(65535),*) -> 3
3 realign A with U -> 4
4 redistribute U (cyclic(65534),*) -> 5
5 redistribute U (block,*) -> 6
6 realign A with T exchanged -> 7
7 redistribute T (*,block) -> 8
8
";
    let rows = sets::conversion(&from_text(text))
        .expect("it is accepted")
        .rows;
    let bytes: Vec<u8> = rows.concat();
    let remaps = [1, 2, 2, 3, 0, 4, 0].map(remap);
    assert_eq!(bytes[1..8], remaps);
}

/// Directives that no path reaches are rows of 00 and give nothing; changes of in arguments count
/// there all the same.
#[test]
fn unreached_directives() {
    let text = "
template T (block,*)
array A in with T
0 -> 4
1 redistribute T (cyclic,*) -> 2
2 realign A with T exchanged -> 3
3 read A -> 4
4
";
    let conversion = sets::conversion(&from_text(text)).expect("it is accepted");
    assert_eq!(conversion.versions[0].len(), 1);
    assert_eq!(conversion.rows.concat(), [0, 0, 0, READ, 0]);
    let changed = text.replace("3 read A", "3 define A");
    assert_eq!(answer(&from_text(&changed)), (20, 3, 0));
    assert_eq!(file::parse(&from_text(text).bytes()), Ok(from_text(text)));
}
