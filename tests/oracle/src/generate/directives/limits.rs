//! Directive files at each limit, and one beyond.

use crate::builder::{INOUT, LOCAL, READ};
use crate::directives::file::MAX_TEMPLATES;
use crate::directives::{Alignment, Array, Dimension, Mapping, Program, Statement};
use crate::generate::directives::{Size, make_acceptable, on_graph};
use crate::generate::limits as routines;
use crate::generate::rng::Rng;
use crate::routine::{MAX_ARRAYS, MAX_EDGES, MAX_VERSIONS, MAX_VERTICES};

/// Spreads that differ from each other and from each other exchanged.
fn spread(index: usize) -> Mapping {
    Mapping(Dimension::Cyclic(index as u16 + 1), Dimension::Block)
}

fn local(alignment: Alignment) -> Array {
    Array {
        kind: LOCAL,
        alignment,
    }
}

/// A program without a vertex but entry and exit, and without an edge.
pub fn smallest() -> Program {
    let mut program = Program {
        templates: vec![Mapping(Dimension::NotSpread, Dimension::NotSpread)],
        arrays: vec![local(Alignment::straight(0))],
        vertices: Vec::new(),
        edges: Vec::new(),
    };
    program.vertices = vec![program.nothing(); 2];
    program
}

/// Statements one after the other, from the entry to the exit.
pub fn chain(templates: Vec<Mapping>, arrays: Vec<Array>, statements: Vec<Statement>) -> Program {
    let mut program = Program {
        templates,
        arrays,
        vertices: Vec::new(),
        edges: Vec::new(),
    };
    program.vertices.push(program.nothing());
    program.vertices.extend(statements);
    program.vertices.push(program.nothing());
    let exit = program.vertices.len() as u16 - 1;
    program.edges = (0..exit).map(|vertex| (vertex, vertex + 1)).collect();
    program
}

/// Every count at its limit, mappings too, and accepted.
pub fn largest() -> Program {
    largest_of(MAX_VERSIONS)
}

/// Every count but that of mappings at its limit, and accepted. The first four arrays are redistributed, each with a
/// template of its own, the others are realigned with the other templates, straight and exchanged.
/// Every fifth vertex changes the spread of a template that nothing is aligned with.
pub fn largest_of(mappings: usize) -> Program {
    let graph = routines::largest_plan();
    let half = MAX_ARRAYS / 2;
    let mut program = Program {
        templates: (0..MAX_TEMPLATES).map(spread).collect(),
        arrays: (0..MAX_ARRAYS)
            .map(|array| Array {
                kind: INOUT,
                alignment: Alignment {
                    template: array.min(MAX_TEMPLATES - 2),
                    exchanged: array % 2 == 1,
                },
            })
            .collect(),
        vertices: Vec::new(),
        edges: graph.edges,
    };
    program.vertices = vec![program.nothing(); MAX_VERTICES];
    for vertex in 1..MAX_VERTICES - 1 {
        let turn = vertex / 5;
        program.vertices[vertex] = match vertex % 5 {
            0 => Statement::Redistribute(MAX_TEMPLATES - 1, spread(turn % 30)),
            1 | 2 => Statement::Redistribute(turn % half, spread(vertex % mappings)),
            3 => Statement::Realign(
                half + turn % half,
                Alignment {
                    template: half + turn % 3,
                    exchanged: vertex % 2 == 0,
                },
            ),
            _ => program.nothing(),
        };
    }
    program
}

/// A directive at every vertex, redistributes and realigns in turn, of so many templates and arrays:
/// each array is realigned with each template, straight and exchanged. All spreads are the same,
/// also after an exchange, so that every graph is accepted.
fn everywhere(count: usize, edges: Vec<(u16, u16)>) -> Program {
    let spread = Mapping(Dimension::Block, Dimension::Block);
    let mut program = Program {
        templates: vec![spread; MAX_TEMPLATES],
        arrays: vec![local(Alignment::straight(0)); MAX_ARRAYS],
        vertices: Vec::new(),
        edges,
    };
    program.vertices = vec![program.nothing(); MAX_VERTICES];
    for vertex in 1..MAX_VERTICES - 1 {
        let turn = vertex / 2;
        let alignment = Alignment {
            template: turn / count % count,
            exchanged: turn / (count * count) % 2 == 1,
        };
        program.vertices[vertex] = match vertex % 2 {
            0 => Statement::Redistribute(turn % count, spread),
            _ => Statement::Realign(turn % count, alignment),
        };
    }
    program
}

/// Every count at its limit, and a directive at every vertex.
pub fn directives_everywhere() -> Program {
    everywhere(MAX_TEMPLATES, routines::largest_plan().edges)
}

/// The last template is redistributed and the last array realigned at the highest vertices alone,
/// and a chain of all vertices against their numbers leads from there to vertex 1: facts travel one
/// vertex a sweep.
pub fn directives_against_numbers() -> Program {
    let last = MAX_TEMPLATES - 1;
    let mut program = everywhere(last, routines::chain_both_ways().edges);
    let highest = MAX_VERTICES - 2;
    program.vertices[highest] = Statement::Realign(MAX_ARRAYS - 1, Alignment::exchanged(last));
    program.vertices[highest - 1] = Statement::Redistribute(last, program.templates[last]);
    program.vertices[1] = Statement::Realign(0, Alignment::straight(last));
    program
}

/// A chain with room for all mappings of the last array; the others are never remapped.
fn last_of_all(templates: Vec<Mapping>, mut statements: Vec<Statement>) -> Program {
    let last = MAX_ARRAYS - 1;
    let mut arrays = vec![local(Alignment::straight(1)); last];
    arrays.push(local(Alignment::straight(0)));
    let mut row = vec![0; MAX_ARRAYS];
    row[last] = READ;
    statements.push(Statement::References(row));
    chain(templates, arrays, statements)
}

/// The last array has so many mappings, by redistributes; the first of them comes again.
pub fn by_redistributes(mappings: usize) -> Program {
    let again = [spread(0), spread(1)];
    let spreads = (1..mappings).map(spread).chain(again);
    last_of_all(
        vec![spread(0); 2],
        spreads
            .map(|spread| Statement::Redistribute(0, spread))
            .collect(),
    )
}

/// The last array has so many mappings, up to 16 by realigns with eight templates, straight and
/// exchanged, further ones by redistributes.
pub fn by_realigns(mappings: usize) -> Program {
    let last = MAX_ARRAYS - 1;
    let realigns = (1..mappings.min(2 * MAX_TEMPLATES)).map(|index| {
        let alignment = Alignment {
            template: index / 2,
            exchanged: index % 2 == 1,
        };
        Statement::Realign(last, alignment)
    });
    let further = (2 * MAX_TEMPLATES..mappings)
        .map(|index| Statement::Redistribute(MAX_TEMPLATES - 1, spread(index)));
    let templates: Vec<Mapping> = (0..MAX_TEMPLATES).map(spread).collect();
    last_of_all(templates, realigns.chain(further).collect())
}

/// The only array has so many mappings; all but the first are given by one realign, whose template
/// was spread on as many ways. None of those ways remaps anything.
pub fn by_ways(mappings: usize) -> Program {
    let ways = mappings - 1;
    let mut statements: Vec<Statement> = (1..mappings)
        .map(|way| Statement::Redistribute(1, spread(way)))
        .collect();
    statements.push(Statement::Realign(0, Alignment::straight(1)));
    let arrays = vec![local(Alignment::straight(0))];
    let mut program = chain(vec![spread(0); 2], arrays, statements);
    let join = ways as u16 + 1;
    program.edges = (1..join).map(|way| (0, way)).collect();
    program.edges.extend((1..join).map(|way| (way, join)));
    program.edges.push((join, join + 1));
    program
}

/// A program with a mapping more, given where no path gets.
pub fn with_unreached(mut program: Program) -> Program {
    let exit = program.vertices.len() - 1;
    program
        .vertices
        .insert(exit, Statement::Redistribute(0, spread(1000)));
    for (_, to) in &mut program.edges {
        *to += u16::from(usize::from(*to) == exit);
    }
    program.edges.push((exit as u16, exit as u16 + 1));
    program
}

/// Programs of the largest size as they are drawn, and made acceptable: on chains against the
/// numbers, and with as many edges as allowed.
pub fn large(rng: &mut Rng) -> Vec<Program> {
    let graphs = [
        routines::backward_chain(rng, MAX_VERSIONS),
        routines::zigzag_chain(rng, MAX_VERSIONS),
        routines::chain_from_entry(),
        routines::chain_both_ways(),
        routines::dense(rng, MAX_VERSIONS),
        routines::largest_plan(),
    ];
    let mut programs = Vec::new();
    for graph in graphs {
        let mut program = on_graph(rng, Size::LARGEST, MAX_VERTICES, graph.edges);
        programs.push(program.clone());
        make_acceptable(rng, &mut program);
        programs.push(program);
    }
    programs
}

/// Programs with one count beyond its limit, or one too few, and the byte of that count.
pub fn beyond() -> Vec<(Program, usize)> {
    let plain = by_redistributes(3);
    let with = |place: usize, change: &dyn Fn(&mut Program)| {
        let mut program = plain.clone();
        change(&mut program);
        (program, place)
    };
    let rows = |program: &mut Program, arrays: usize, vertices: usize| {
        program.arrays.resize(arrays, local(Alignment::straight(0)));
        program.vertices = vec![program.nothing(); vertices];
        program.edges.clear();
    };
    vec![
        with(8, &|program| program.templates.clear()),
        with(8, &|program| {
            program.templates.resize(MAX_TEMPLATES + 1, spread(0));
        }),
        with(12, &|program| rows(program, 0, 2)),
        with(12, &|program| rows(program, MAX_ARRAYS + 1, 2)),
        with(16, &|program| rows(program, 1, 0)),
        with(16, &|program| rows(program, 1, 1)),
        with(16, &|program| rows(program, 1, MAX_VERTICES + 1)),
        with(20, &|program| {
            rows(program, 1, MAX_VERTICES);
            let all = (0..255).flat_map(|from| (1..=255).map(move |to| (from, to)));
            program.edges = all.take(MAX_EDGES + 1).collect();
        }),
    ]
}
