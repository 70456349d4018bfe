//! Faults of a converter.

use super::{FEW, converter, outcome, records_in};
use crate::check::Difference;
use crate::drive::compare_conversions;
use crate::library::{Convert, Input, Library, ORACLE, converted};
use oracle::builder::{Draft, remap};
use oracle::directives::convert::convert;
use oracle::directives::meaning::State;
use oracle::directives::{Alignment, Dimension, Mapping, Program, Statement, file, sets, states};
use oracle::outcome::Outcome;
use oracle::record::RECORD;
use oracle::routine::Action;

/// So many states are followed by a faulty converter.
const MOST: usize = 1000;

/// What is made of a program that was changed; a file that is refused by 40 stays so.
fn changed(directives: &[u8], out: &mut [u8], change: impl Fn(&mut Program)) -> Outcome {
    let Ok(mut program) = file::parse(directives) else {
        return convert(directives, out);
    };
    change(&mut program);
    convert(&program.bytes(), out)
}

/// Writes a routine that was changed after its conversion; refusals stay as they are.
fn rewritten(directives: &[u8], out: &mut [u8], change: impl Fn(&Program, &mut Draft)) -> Outcome {
    let answer = convert(directives, out);
    if answer.number == 0 {
        let routine = &mut out[..answer.first as usize];
        let program = file::parse(directives).unwrap();
        let mut draft = Draft::from_bytes(routine).unwrap();
        change(&program, &mut draft);
        routine.copy_from_slice(&draft.bytes());
    }
    answer
}

/// Whether some path from the entry gets to each vertex.
fn reached(program: &Program) -> Vec<bool> {
    let mut reached = vec![false; program.vertices.len()];
    reached[0] = true;
    for _ in &program.vertices {
        for &(from, to) in &program.edges {
            reached[usize::from(to)] |= reached[usize::from(from)];
        }
    }
    reached
}

/// A fault is found by a small program with so many directives at most.
fn directives(faulty: Convert, most: usize) -> Program {
    let (mismatch, program) = converter(faulty);
    let program = program.expect("the file is well formed");
    let directives = program
        .vertices
        .iter()
        .filter(|vertex| vertex.is_directive());
    assert!(directives.count() <= most, "{mismatch}");
    assert!(program.vertices.len() <= 7, "{mismatch}");
    program
}

/// No fault, to show that the others are found for what was changed.
#[test]
fn nothing_changed() {
    let library = Library {
        convert: |directives, out| match convert(directives, &mut []).number {
            1 => rewritten(directives, out, |_, _| {}),
            _ => changed(directives, out, |_| {}),
        },
        ..ORACLE
    };
    if let Err(mismatch) = compare_conversions(&library, FEW) {
        panic!("{mismatch}");
    }
}

/// The exchange of an align, or of a realign, is forgotten.
#[test]
fn no_exchange() {
    fn at_align(directives: &[u8], out: &mut [u8]) -> Outcome {
        changed(directives, out, |program| {
            for array in &mut program.arrays {
                array.alignment.exchanged = false;
            }
        })
    }
    fn at_realign(directives: &[u8], out: &mut [u8]) -> Outcome {
        changed(directives, out, |program| {
            for statement in &mut program.vertices {
                if let Statement::Realign(_, alignment) = statement {
                    alignment.exchanged = false;
                }
            }
        })
    }
    let program = directives(at_align, 1);
    assert!(program.arrays[0].alignment.exchanged);
    let program = directives(at_realign, 1);
    assert!(matches!(
        program.vertices[1],
        Statement::Realign(
            _,
            Alignment {
                exchanged: true,
                ..
            }
        )
    ));
}

/// A redistribute spreads an exchanged array as a straight one.
#[test]
fn no_exchange_at_a_redistribute() {
    fn faulty(directives: &[u8], out: &mut [u8]) -> Outcome {
        changed(directives, out, |program| {
            let is_realign = |vertex: &Statement| matches!(vertex, Statement::Realign(..));
            if program.vertices.iter().any(is_realign) || program.arrays.len() > 1 {
                return;
            }
            let alignment = program.arrays[0].alignment;
            for statement in &mut program.vertices {
                if let Statement::Redistribute(template, spread) = statement
                    && alignment == Alignment::exchanged(*template)
                {
                    *spread = spread.exchanged();
                }
            }
        })
    }
    directives(faulty, 1);
}

/// A directive that no path gets to gives a version.
#[test]
fn a_version_of_no_path() {
    fn faulty(directives: &[u8], out: &mut [u8]) -> Outcome {
        rewritten(directives, out, |program, draft| {
            let reached = reached(program);
            for (vertex, statement) in program.vertices.iter().enumerate() {
                if let Statement::Realign(array, alignment) = *statement
                    && !reached[vertex]
                    && draft.arrays[array][1] == 1
                    && alignment.mapping(program.templates[alignment.template])
                        != program.initial(array)
                {
                    draft.arrays[array][1] = 2;
                }
            }
        })
    }
    let program = directives(faulty, 1);
    assert!(reached(&program).contains(&false));
}

/// A directive that no path gets to remaps its array all the same, to version 0.
#[test]
fn a_label_of_no_path() {
    fn faulty(directives: &[u8], out: &mut [u8]) -> Outcome {
        rewritten(directives, out, |program, draft| {
            let reached = reached(program);
            for (vertex, statement) in program.vertices.iter().enumerate() {
                if let Statement::Realign(array, _) = *statement
                    && !reached[vertex]
                {
                    draft.rows[vertex][array] = remap(0);
                }
            }
        })
    }
    directives(faulty, 1);
}

/// Versions are numbered as a search from the entry meets them, not by vertex.
#[test]
fn versions_by_path() {
    fn faulty(directives: &[u8], out: &mut [u8]) -> Outcome {
        rewritten(directives, out, |program, draft| {
            let successors = program.successors();
            let (mut open, mut met) = (vec![0], Vec::new());
            while let Some(vertex) = open.pop() {
                if !met.contains(&vertex) {
                    met.push(vertex);
                    open.extend(&successors[vertex]);
                }
            }
            for array in 0..program.arrays.len() {
                let mut order = vec![remap(0)];
                for &vertex in &met {
                    let byte = draft.rows[vertex][array];
                    if Action::is_remap(byte) && !order.contains(&byte) {
                        order.push(byte);
                    }
                }
                for row in &mut draft.rows {
                    if let Some(version) = order.iter().position(|&byte| byte == row[array]) {
                        row[array] = remap(version as u8);
                    }
                }
            }
        })
    }
    directives(faulty, 2);
}

/// The lowest vertex and array with a directive that remaps the array and can leave it in two
/// mappings: `choose` is shown the directive with the states that it meets and the mappings that
/// these leave. None where there are too many states.
fn left_in_two(
    program: &Program,
    choose: impl Fn(&Statement, &[State], Vec<Mapping>) -> Vec<Mapping>,
) -> Option<(u64, u64)> {
    let brought = states::brought(program, MOST)?;
    for (vertex, statement) in program.vertices.iter().enumerate() {
        for array in 0..program.arrays.len() {
            let states = &brought[vertex];
            let after = |state: &State| state.after(statement).mapping(array);
            let left = choose(statement, states, states.iter().map(after).collect());
            let is_remapped = |state: &State| state.is_remapped(statement, array);
            if states.iter().any(is_remapped) && left.iter().any(|&mapping| mapping != left[0]) {
                return Some((vertex as u64, array as u64));
            }
        }
    }
    None
}

/// 42 looks only at the paths that bring the array aligned with the redistributed template.
#[test]
fn ambiguous_on_aligned_paths_alone() {
    fn faulty(directives: &[u8], out: &mut [u8]) -> Outcome {
        let answer = convert(directives, out);
        if answer.number != 42 {
            return answer;
        }
        let program = file::parse(directives).unwrap();
        let (vertex, array) = (answer.first as usize, answer.second as usize);
        let aligned = |statement: &Statement, states: &[State], left: Vec<Mapping>| {
            let pairs = states.iter().zip(left);
            let aligned = pairs.filter(|(state, _)| state.is_remapped(statement, array));
            aligned.map(|(_, mapping)| mapping).collect()
        };
        match left_in_two(&program, aligned) {
            Some(_) => answer,
            None => changed(directives, out, |program| {
                program.vertices[vertex] = program.nothing();
            }),
        }
    }
    let (mismatch, program) = converter(faulty);
    assert_eq!(mismatch.fault.expected.outcome.number, 42);
    let program = program.unwrap();
    assert_eq!(program.templates.len(), 2, "{mismatch}");
    assert!(program.vertices.len() <= 4, "{mismatch}");
}

/// 42 looks at the versions that come, whatever the template that each comes with.
#[test]
fn ambiguous_by_unpaired_versions() {
    fn faulty(directives: &[u8], out: &mut [u8]) -> Outcome {
        let answer = convert(directives, out);
        let Ok(program) = file::parse(directives) else {
            return answer;
        };
        if answer.number > 1 || program.arrays.len() > 1 {
            return answer;
        }
        let unpaired = |statement: &Statement, states: &[State], mut left: Vec<Mapping>| {
            if states.iter().any(|state| !state.is_remapped(statement, 0)) {
                left.extend(states.iter().map(|state| state.mapping(0)));
            }
            left
        };
        let ambiguous = left_in_two(&program, unpaired);
        ambiguous.map_or(answer, |(vertex, array)| outcome(42, vertex, array))
    }
    let (mismatch, program) = converter(faulty);
    assert_eq!(mismatch.fault.found.outcome.number, 42);
    let program = program.unwrap();
    assert_eq!(program.templates.len(), 2, "{mismatch}");
    assert!(program.vertices.len() <= 5, "{mismatch}");
}

/// What an edge to a lower vertex brings is not looked at, or what comes from a high vertex.
#[test]
fn facts_that_do_not_come() {
    fn no_loops(directives: &[u8], out: &mut [u8]) -> Outcome {
        let Ok(program) = file::parse(directives) else {
            return convert(directives, out);
        };
        let mut forwards = program.clone();
        forwards.edges.retain(|(from, to)| from < to);
        match (convert(directives, &mut []), sets::conversion(&forwards)) {
            (Outcome { number: 1, .. }, Ok(conversion)) => {
                let routine = conversion.routine(&program).bytes();
                if out.len() < routine.len() {
                    return outcome(1, routine.len() as u64, 0);
                }
                out[..routine.len()].copy_from_slice(&routine);
                Outcome::written(routine.len())
            }
            _ => convert(directives, out),
        }
    }
    fn low_vertices(directives: &[u8], out: &mut [u8]) -> Outcome {
        changed(directives, out, |program| {
            let nothing = program.nothing();
            let high = program.vertices.iter_mut().skip(128);
            for statement in high.filter(|statement| statement.is_directive()) {
                *statement = nothing.clone();
            }
        })
    }
    directives(no_loops, 2);
    let (mismatch, program) = converter(low_vertices);
    assert!(program.unwrap().vertices.len() >= 129, "{mismatch}");
}

/// A redistribute that remaps nothing is passed over, so that a later realign finds an old spread.
#[test]
fn a_redistribute_forgotten() {
    fn faulty(directives: &[u8], out: &mut [u8]) -> Outcome {
        changed(directives, out, |program| {
            let Ok(conversion) = sets::conversion(program) else {
                return;
            };
            for (vertex, row) in conversion.rows.iter().enumerate() {
                if program.vertices[vertex].is_directive() && row.iter().all(|&byte| byte == 0) {
                    program.vertices[vertex] = program.nothing();
                }
            }
        })
    }
    let program = directives(faulty, 2);
    assert!(matches!(program.vertices[1], Statement::Redistribute(..)));
}

/// A redistribute remaps the arrays that are aligned with its template at the entry.
#[test]
fn aligned_at_the_entry_alone() {
    fn faulty(directives: &[u8], out: &mut [u8]) -> Outcome {
        rewritten(directives, out, |program, draft| {
            for (statement, row) in program.vertices.iter().zip(&mut draft.rows) {
                if let Statement::Redistribute(template, _) = *statement {
                    for (byte, array) in row.iter_mut().zip(&program.arrays) {
                        if array.alignment.template != template {
                            *byte = 0;
                        }
                    }
                }
            }
        })
    }
    directives(faulty, 2);
}

/// A directive that leaves the mapping as it was is no remapping.
#[test]
fn no_remapping_to_the_same() {
    fn faulty(directives: &[u8], out: &mut [u8]) -> Outcome {
        rewritten(directives, out, |_, draft| {
            for array in 0..draft.arrays.len() {
                if draft.arrays[array][1] == 1 {
                    for row in &mut draft.rows {
                        row[array] = match Action::is_remap(row[array]) {
                            true => 0,
                            false => row[array],
                        };
                    }
                }
            }
        })
    }
    directives(faulty, 1);
}

/// Block is taken for cyclic(1); cyclic(b) by the low byte of b; dimensions by their kinds alone.
#[test]
fn mappings_not_as_written() {
    fn with(directives: &[u8], out: &mut [u8], other: fn(Dimension) -> Dimension) -> Outcome {
        changed(directives, out, |program| {
            let change = |spread: &mut Mapping| *spread = Mapping(other(spread.0), other(spread.1));
            program.templates.iter_mut().for_each(change);
            for statement in &mut program.vertices {
                if let Statement::Redistribute(_, spread) = statement {
                    change(spread);
                }
            }
        })
    }
    fn block_as_cyclic(directives: &[u8], out: &mut [u8]) -> Outcome {
        with(directives, out, |dimension| match dimension {
            Dimension::Block => Dimension::Cyclic(1),
            other => other,
        })
    }
    fn low_byte(directives: &[u8], out: &mut [u8]) -> Outcome {
        with(directives, out, |dimension| match dimension {
            Dimension::Cyclic(size) => Dimension::Cyclic(size & 255 | 256),
            other => other,
        })
    }
    fn kind_alone(directives: &[u8], out: &mut [u8]) -> Outcome {
        with(directives, out, |dimension| match dimension {
            Dimension::Cyclic(_) => Dimension::Cyclic(1),
            other => other,
        })
    }
    for faulty in [block_as_cyclic as Convert, low_byte, kind_alone] {
        directives(faulty, 3);
    }
}

/// 41 is given for 32 mappings, not for 33, for 17, or for 32 and one that no path gives.
#[test]
fn the_limit_of_mappings() {
    /// The first array of an accepted file that has so many mappings.
    fn full(directives: &[u8], mappings: u8) -> Option<u64> {
        let routine = converted(&ORACLE, directives).ok()?;
        let arrays = Draft::from_bytes(&routine)?.arrays;
        let full = arrays.iter().position(|array| array[1] == mappings);
        full.map(|array| array as u64)
    }
    fn with<const MAPPINGS: u8>(directives: &[u8], out: &mut [u8]) -> Outcome {
        match full(directives, MAPPINGS) {
            Some(array) => outcome(41, array, 0),
            None => convert(directives, out),
        }
    }
    fn with_unreached(directives: &[u8], out: &mut [u8]) -> Outcome {
        match (full(directives, 32), file::parse(directives)) {
            (Some(array), Ok(program)) if reached(&program).contains(&false) => {
                outcome(41, array, 0)
            }
            _ => convert(directives, out),
        }
    }
    fn not_for_33(directives: &[u8], out: &mut [u8]) -> Outcome {
        let answer = convert(directives, out);
        if answer.number != 41 {
            return answer;
        }
        let without_last = changed(directives, out, |program| {
            let is_directive = |vertex: &Statement| vertex.is_directive();
            let last = program.vertices.iter().rposition(is_directive);
            program.vertices[last.unwrap()] = program.nothing();
        });
        match without_last.number {
            41 => answer,
            _ => without_last,
        }
    }
    for faulty in [
        with::<32> as Convert,
        with::<17>,
        with_unreached,
        not_for_33,
    ] {
        let (mismatch, _) = converter(faulty);
        let fault = &mismatch.fault;
        assert_eq!(fault.difference, Difference::Outcome);
        let numbers = [fault.expected.outcome.number, fault.found.outcome.number];
        assert!(numbers.contains(&41), "{mismatch}");
    }
}

/// 42 goes before 41; 20 before 42; 21 before 20.
#[test]
fn refusals_in_another_order() {
    fn second(directives: &[u8], out: &mut [u8], first: u64, other: u64) -> Outcome {
        let answer = convert(directives, out);
        if answer.number != first {
            return answer;
        }
        // What is refused is taken out, as long as that number is given.
        let mut program = file::parse(directives).unwrap();
        let mut next = answer;
        while next.number == first {
            match first {
                20 => {
                    let (vertex, array) = (next.first as usize, next.second as usize);
                    if let Statement::References(row) = &mut program.vertices[vertex] {
                        row[array] = 0x10;
                    }
                }
                _ => program.vertices[next.first as usize] = program.nothing(),
            }
            next = convert(&program.bytes(), &mut []);
        }
        if next.number == other { next } else { answer }
    }
    fn before_41(directives: &[u8], out: &mut [u8]) -> Outcome {
        let answer = convert(directives, out);
        if answer.number != 41 {
            return answer;
        }
        let program = file::parse(directives).unwrap();
        let ambiguous = left_in_two(&program, |_, _, mappings| mappings);
        ambiguous.map_or(answer, |(vertex, array)| outcome(42, vertex, array))
    }
    fn before_42(directives: &[u8], out: &mut [u8]) -> Outcome {
        second(directives, out, 42, 20)
    }
    fn before_20(directives: &[u8], out: &mut [u8]) -> Outcome {
        second(directives, out, 20, 21)
    }
    for (faulty, number, vertices) in [
        (before_41 as Convert, 41, 24),
        (before_42, 42, 6),
        (before_20, 20, 6),
    ] {
        let (mismatch, program) = converter(faulty);
        assert_eq!(mismatch.fault.expected.outcome.number, number);
        assert!(program.unwrap().vertices.len() <= vertices, "{mismatch}");
    }
}

/// 42 names the last array, or 41 does.
#[test]
fn another_array() {
    fn last_of_42(directives: &[u8], out: &mut [u8]) -> Outcome {
        let mut answer = convert(directives, out);
        if answer.number == 42 {
            let program = file::parse(directives).unwrap();
            answer.second = program.arrays.len() as u64 - 1;
        }
        answer
    }
    fn last_of_41(directives: &[u8], out: &mut [u8]) -> Outcome {
        let mut answer = convert(directives, out);
        if answer.number == 41 {
            let program = file::parse(directives).unwrap();
            answer.first = program.arrays.len() as u64 - 1;
        }
        answer
    }
    for faulty in [last_of_42 as Convert, last_of_41] {
        let (mismatch, program) = converter(faulty);
        assert_eq!(mismatch.fault.difference, Difference::Outcome);
        assert_eq!(program.unwrap().arrays.len(), 2, "{mismatch}");
    }
}

/// 40 names the last byte of a file that ends early; the high byte of a number; a wrong edge and
/// not its end that is wrong.
#[test]
fn the_place_of_40() {
    fn with(directives: &[u8], out: &mut [u8], other: fn(u64, usize) -> u64) -> Outcome {
        let mut answer = convert(directives, out);
        if answer.number == 40 {
            answer.first = other(answer.first, directives.len());
        }
        answer
    }
    fn last_byte(directives: &[u8], out: &mut [u8]) -> Outcome {
        with(directives, out, |place, length| {
            place.min((length as u64).saturating_sub(1))
        })
    }
    fn high_byte(directives: &[u8], out: &mut [u8]) -> Outcome {
        with(directives, out, |place, length| match place {
            4 if length >= 6 => 5,
            _ => place,
        })
    }
    fn whole_edge(directives: &[u8], out: &mut [u8]) -> Outcome {
        let first = directives
            .get(18..20)
            .map_or(0, |word| u16::from_le_bytes([word[0], word[1]]));
        let mut answer = convert(directives, out);
        let first = u64::from(first);
        if answer.number == 40 && first > 22 && answer.first > first {
            answer.first -= (answer.first - first) % 4;
        }
        answer
    }
    for faulty in [last_byte as Convert, high_byte, whole_edge] {
        let (mismatch, program) = converter(faulty);
        assert_eq!(mismatch.fault.difference, Difference::Outcome);
        assert_eq!(mismatch.fault.expected.outcome.number, 40);
        assert_eq!(program, None);
    }
}

/// What 40 refuses is accepted: a byte too many, a block with a size, a reference beside a
/// directive, an edge that comes twice.
#[test]
fn malformed_and_accepted() {
    fn longer(directives: &[u8], out: &mut [u8]) -> Outcome {
        match convert(directives, &mut []) {
            Outcome {
                number: 40, first, ..
            } if first > 22 && first < directives.len() as u64 => {
                let shorter = convert(&directives[..first as usize], &mut []);
                match shorter.number {
                    40 => convert(directives, out),
                    _ => convert(&directives[..first as usize], out),
                }
            }
            _ => convert(directives, out),
        }
    }
    /// The wrong field is made 0, and what follows is then right.
    fn cleared(directives: &[u8], out: &mut [u8], place: fn(&[u8], usize) -> bool) -> Outcome {
        let answer = convert(directives, out);
        let at = answer.first as usize;
        if answer.number != 40 || at >= directives.len() || !place(directives, at) {
            return answer;
        }
        let mut other = directives.to_vec();
        other[at] = 0;
        convert(&other, out)
    }
    fn block_with_size(directives: &[u8], out: &mut [u8]) -> Outcome {
        cleared(directives, out, |file, at| at == 24 && file[22] == 1)
    }
    fn reference_beside(directives: &[u8], out: &mut [u8]) -> Outcome {
        cleared(directives, out, |file, at| {
            at > 60 && Action::is_reference(file[at])
        })
    }
    fn edge_twice(directives: &[u8], out: &mut [u8]) -> Outcome {
        let answer = convert(directives, out);
        let at = answer.first as usize;
        let twice = |at: usize| {
            let edges = directives.get(at..at + 4);
            edges.is_some() && edges == directives.get(at - 4..at)
        };
        if answer.number == 40 && at > 60 && twice(at) {
            let mut once = directives.to_vec();
            once.drain(at..at + 4);
            once[20] = once[20].wrapping_sub(1);
            return convert(&once, out);
        }
        answer
    }
    for faulty in [
        longer as Convert,
        block_with_size,
        reference_beside,
        edge_twice,
    ] {
        let (mismatch, _) = converter(faulty);
        assert_eq!(mismatch.fault.difference, Difference::Outcome);
        assert_eq!(mismatch.fault.expected.outcome.number, 40, "{mismatch}");
    }
}

/// Kinds, references and edges get lost.
#[test]
fn not_handed_on() {
    fn kinds(directives: &[u8], out: &mut [u8]) -> Outcome {
        rewritten(directives, out, |_, draft| {
            draft.arrays.iter_mut().for_each(|record| record[0] &= 1);
        })
    }
    fn references(directives: &[u8], out: &mut [u8]) -> Outcome {
        rewritten(directives, out, |_, draft| {
            let rows = draft.rows.iter_mut().flatten();
            rows.filter(|byte| **byte == 0x30)
                .for_each(|byte| *byte = 0x20);
        })
    }
    fn edges(directives: &[u8], out: &mut [u8]) -> Outcome {
        rewritten(directives, out, |_, draft| {
            let edges = draft.edges.iter_mut();
            edges.for_each(|(from, to)| (*from, *to) = (*from & 127, *to & 127));
        })
    }
    for (faulty, vertices) in [(kinds as Convert, 2), (references, 3), (edges, 200)] {
        let (mismatch, program) = converter(faulty);
        assert!(matches!(mismatch.fault.difference, Difference::Written(_)));
        assert!(program.unwrap().vertices.len() <= vertices, "{mismatch}");
    }
}

/// A byte is written although the file is refused, beyond the routine, or in a short buffer.
#[test]
fn bytes_that_are_not_to_be_written() {
    fn on_refusal(directives: &[u8], out: &mut [u8]) -> Outcome {
        let answer = convert(directives, out);
        if answer.number == 42 && !out.is_empty() {
            out[0] = b'H';
        }
        answer
    }
    fn beyond(directives: &[u8], out: &mut [u8]) -> Outcome {
        let answer = convert(directives, out);
        if answer.number == 0
            && let Some(byte) = out.get_mut(answer.first as usize)
        {
            *byte = 0;
        }
        answer
    }
    fn too_short(directives: &[u8], out: &mut [u8]) -> Outcome {
        let answer = convert(directives, out);
        if answer.number == 1 {
            let routine = converted(&ORACLE, directives).unwrap();
            out.copy_from_slice(&routine[..out.len()]);
        }
        answer
    }
    let found = |faulty| converter(faulty).0.fault.difference.clone();
    assert_eq!(found(on_refusal), Difference::Refused(0));
    assert!(matches!(found(beyond), Difference::Beyond(24)));
    assert_eq!(found(too_short), Difference::Refused(0));
}

/// A buffer that is exactly long enough is refused, or the needed length is one too low.
#[test]
fn the_needed_length() {
    fn exact(directives: &[u8], out: &mut [u8]) -> Outcome {
        let length = out.len().saturating_sub(1);
        convert(directives, &mut out[..length])
    }
    fn one_too_low(directives: &[u8], out: &mut [u8]) -> Outcome {
        let mut answer = convert(directives, out);
        if answer.number == 1 {
            answer.first -= 1;
        }
        answer
    }
    for faulty in [exact as Convert, one_too_low] {
        let (mismatch, program) = converter(faulty);
        assert_eq!(mismatch.fault.difference, Difference::Outcome);
        assert_eq!(program.unwrap().vertices.len(), 2, "{mismatch}");
    }
}

/// A right conversion that is run wrongly: references of array 0 behind a label tell version 0. It
/// is the mapping that is wrong there.
#[test]
fn a_reference_in_another_mapping() {
    let library = Library {
        run: |file, path, out| {
            let answer = oracle::run::run(file, path, out);
            if answer.number == 0 {
                let records = &mut out[records_in(file, answer.first)];
                for record in records.chunks_exact_mut(RECORD) {
                    record[3] = 0;
                }
            }
            answer
        },
        ..ORACLE
    };
    let mismatch = compare_conversions(&library, FEW).expect_err("the fault is not found");
    let Difference::Mappings(reason) = &mismatch.fault.difference else {
        panic!("{mismatch}");
    };
    assert!(reason.contains("version 0, due "), "{mismatch}");
    let Input::ConvertAndRun { directives, path } = &mismatch.input else {
        panic!("{mismatch}");
    };
    let program = file::parse(directives).unwrap();
    assert!(program.vertices.len() <= 4, "{mismatch}");
    assert!(path.len() <= 6, "{mismatch}");
}
