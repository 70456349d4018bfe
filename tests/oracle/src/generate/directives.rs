//! Random directive files: as drawn, made acceptable, and variations of named ones.

pub mod damage;
pub mod limits;

use super::rng::Rng;
use super::routines;
use crate::builder::{DEFINE, IN, INOUT, KILL, LOCAL, MODIFY, READ};
use crate::directives::convert::convert;
use crate::directives::figures::{FIGURE_5, FIGURE_21, Figure};
use crate::directives::file::MAX_TEMPLATES;
use crate::directives::{Alignment, Array, Dimension, Mapping, Program, Statement};
use crate::routine::{MAX_ARRAYS, MAX_VERTICES};

/// How large a program may become.
#[derive(Clone, Copy, Debug)]
pub struct Size {
    pub vertices: usize,
    pub templates: usize,
    pub arrays: usize,
    /// How many spreads its templates have: with exchanges twice as many mappings.
    pub spreads: usize,
}

impl Size {
    pub const LARGEST: Size = Size {
        vertices: MAX_VERTICES,
        templates: MAX_TEMPLATES,
        arrays: MAX_ARRAYS,
        spreads: 8,
    };

    /// Small enough for whole states.
    pub fn small(rng: &mut Rng) -> Size {
        Size {
            vertices: rng.between(3, 12),
            templates: rng.between(1, 3),
            arrays: rng.between(1, 3),
            spreads: rng.between(2, 4),
        }
    }

    /// Mostly small, sometimes up to the limits.
    pub fn any(rng: &mut Rng) -> Size {
        let (vertices, templates, arrays) = match rng.below(20) {
            0..=9 => return Size::small(rng),
            10..=15 => (rng.between(8, 40), rng.between(1, 4), rng.between(1, 4)),
            16..=18 => (rng.between(30, 150), rng.between(1, 8), rng.between(1, 8)),
            _ => return Size::LARGEST,
        };
        Size {
            vertices,
            templates,
            arrays,
            spreads: rng.between(2, 9),
        }
    }
}

fn dimension(rng: &mut Rng) -> Dimension {
    match rng.below(8) {
        0 | 1 => Dimension::NotSpread,
        2 | 3 => Dimension::Block,
        4 => Dimension::Cyclic(1),
        5 => Dimension::Cyclic(65_535),
        6 => Dimension::Cyclic(rng.pick(&[2, 255, 256, 257])),
        _ => Dimension::Cyclic(rng.between(1, 65_535) as u16),
    }
}

/// So many spreads: some are others exchanged, some are symmetric.
fn spreads(rng: &mut Rng, count: usize) -> Vec<Mapping> {
    let mut spreads: Vec<Mapping> = Vec::new();
    while spreads.len() < count {
        let first = dimension(rng);
        spreads.push(match rng.below(5) {
            0 => Mapping(first, first),
            1 | 2 if !spreads.is_empty() => rng.pick(&spreads).exchanged(),
            _ => Mapping(first, dimension(rng)),
        });
    }
    spreads
}

fn alignment(rng: &mut Rng, templates: usize) -> Alignment {
    Alignment {
        template: rng.below(templates),
        exchanged: rng.chance(40),
    }
}

/// References of some arrays; an in argument is seldom changed.
fn references(rng: &mut Rng, arrays: &[Array]) -> Statement {
    let always = rng.below(arrays.len());
    let row = arrays.iter().enumerate().map(|(array, record)| {
        if array != always && !rng.chance(40) {
            0
        } else if record.kind == IN && !rng.chance(1) {
            READ
        } else {
            routines::any_reference(rng)
        }
    });
    Statement::References(row.collect())
}

fn directive(rng: &mut Rng, program: &Program, spreads: &[Mapping]) -> Statement {
    let templates = program.templates.len();
    if rng.chance(50) {
        Statement::Realign(rng.below(program.arrays.len()), alignment(rng, templates))
    } else {
        Statement::Redistribute(rng.below(templates), rng.pick(spreads))
    }
}

fn statement(rng: &mut Rng, program: &Program, spreads: &[Mapping]) -> Statement {
    match rng.below(20) {
        0..=2 => program.nothing(),
        3..=10 => references(rng, &program.arrays),
        _ => directive(rng, program, spreads),
    }
}

/// Any statements at so many vertices, with these edges.
pub fn on_graph(rng: &mut Rng, size: Size, vertices: usize, edges: Vec<(u16, u16)>) -> Program {
    let spreads = spreads(rng, size.spreads);
    let mut program = Program {
        templates: (0..size.templates).map(|_| rng.pick(&spreads)).collect(),
        arrays: (0..size.arrays)
            .map(|_| Array {
                kind: rng.between(0, usize::from(INOUT)) as u8,
                alignment: alignment(rng, size.templates),
            })
            .collect(),
        vertices: Vec::new(),
        edges,
    };
    program.vertices = vec![program.nothing(); vertices];
    for vertex in 1..vertices - 1 {
        program.vertices[vertex] = statement(rng, &program, &spreads);
    }
    program
}

/// Any statements on a graph like a program's, or on any graph.
pub fn program(rng: &mut Rng, size: Size) -> Program {
    let shape = routines::Size {
        vertices: size.vertices,
        ..routines::Size::LARGEST
    };
    let shape = match rng.below(10) {
        0..=5 => routines::program(rng, shape),
        6 | 7 => routines::graph(rng, shape, size.vertices + size.vertices / 2, true),
        _ => routines::any_graph(rng, shape),
    };
    on_graph(rng, size, shape.rows.len(), shape.edges)
}

/// A chain of as many vertices as allowed, on which in so many of a hundred places a vertex can be
/// passed over.
pub fn chain(rng: &mut Rng, size: Size, gaps: usize) -> Program {
    let exit = size.vertices as u16 - 1;
    let mut edges = Vec::new();
    for vertex in 0..exit {
        edges.push((vertex, vertex + 1));
        if vertex + 2 <= exit && rng.chance(gaps) {
            edges.push((vertex, vertex + 2));
        }
    }
    on_graph(rng, size, size.vertices, edges)
}

/// A chain whose arrays have many mappings, often 17 to 32 and sometimes more.
pub fn many_mappings(rng: &mut Rng) -> Program {
    let size = Size {
        vertices: rng.between(30, 110),
        templates: rng.between(1, 2),
        arrays: rng.between(1, 2),
        spreads: 1,
    };
    let mut program = chain(rng, size, 0);
    let spread = |size| Mapping(Dimension::Cyclic(size), Dimension::Block);
    let spreads: Vec<Mapping> = (1..=50).map(spread).collect();
    for vertex in 1..size.vertices - 1 {
        program.vertices[vertex] = match rng.below(4) {
            0 => references(rng, &program.arrays),
            _ => directive(rng, &program, &spreads),
        };
    }
    program
}

/// Takes what 41, 42, 20 and 21 refuse out of a program, one statement after the other; at first
/// something else may stand there instead.
pub fn make_acceptable(rng: &mut Rng, program: &mut Program) {
    for attempt in 0.. {
        let answer = convert(&program.bytes(), &mut []);
        let (vertex, array) = (answer.first as usize, answer.second as usize);
        let replaces = attempt < 200;
        match answer.number {
            1 => return,
            41 => {
                let is_directive = |&vertex: &usize| program.vertices[vertex].is_directive();
                let directives: Vec<usize> =
                    (0..program.vertices.len()).filter(is_directive).collect();
                program.vertices[rng.pick(&directives)] = program.nothing();
            }
            42 if replaces => program.vertices[vertex] = instead(rng, program, vertex, array),
            21 if replaces && rng.chance(30) => {
                let alignment = alignment(rng, program.templates.len());
                program.vertices[vertex] = Statement::Realign(array, alignment);
            }
            20 => {
                if let Statement::References(row) = &mut program.vertices[vertex] {
                    row[array] = READ;
                }
            }
            _ => program.vertices[vertex] = program.nothing(),
        }
    }
}

/// Something else for a directive that can leave an array in two mappings.
fn instead(rng: &mut Rng, program: &Program, vertex: usize, array: usize) -> Statement {
    let templates = program.templates.len();
    match program.vertices[vertex] {
        Statement::Redistribute(template, _) if rng.chance(60) => {
            let spread = rng.pick(&program.templates);
            let other = match rng.below(3) {
                0 => spread,
                1 => spread.exchanged(),
                _ => Mapping(spread.0, spread.0),
            };
            Statement::Redistribute(template, other)
        }
        _ if rng.chance(40) => Statement::Realign(array, alignment(rng, templates)),
        _ if rng.chance(50) => references(rng, &program.arrays),
        _ => program.nothing(),
    }
}

/// A program of any shape that is accepted.
pub fn accepted(rng: &mut Rng, size: Size) -> Program {
    let mut program = program(rng, size);
    make_acceptable(rng, &mut program);
    program
}

/// Redistributes that remap nothing, before a realign that finds the spread that they left.
pub const REMAPS_NOTHING: Figure = Figure {
    number: 0,
    text: "
template T1 (block,*)
template T2 (cyclic,*)
array A local with T1
array B local with T1
0 -> 1
1 define A define B -> 2
2 redistribute T2 (*,block) -> 3
3 -> 4 5
4 redistribute T2 (*,block) -> 5
5 realign A with T2 -> 6
6 read A modify B -> 7
7 redistribute T2 (block,block) -> 8
8 realign B with T2 exchanged -> 9
9 read A read B -> 10
10
",
};

/// The example of docs/DIRECTIVES.md.
pub const EXAMPLE: Figure = Figure {
    number: 0,
    text: "
template T (block,*)
array A local with T
0 -> 1
1 define A -> 2
2 redistribute T (cyclic(3),*) -> 3
3 read A -> 4
4
",
};

/// Each statement, reference and kind of spread.
pub const EVERY_STATEMENT: Figure = Figure {
    number: 0,
    text: "
template T (block,*)
template U (cyclic,cyclic(65535))
array A local with T
array B inout with U exchanged
0 -> 1
1 define A read B -> 2 3
2 realign B with T exchanged -> 4
3 redistribute U (block,cyclic(256)) -> 5
4 modify A kill B -> 5
5
",
};

/// Texts whose joins and orders matter.
pub const NAMED: [Figure; 3] = [FIGURE_5, FIGURE_21, REMAPS_NOTHING];

/// A named program with other spreads, alignments and references, and perhaps a further statement
/// in a row that has none.
pub fn varied(rng: &mut Rng, figure: &Figure) -> Program {
    let mut program = figure.program();
    let count = rng.between(2, 4);
    let spreads = spreads(rng, count);
    for template in &mut program.templates {
        *template = rng.pick(&spreads);
    }
    for array in &mut program.arrays {
        array.kind = rng.between(0, usize::from(INOUT)) as u8;
        array.alignment.exchanged = rng.chance(40);
    }
    for vertex in 1..program.vertices.len() - 1 {
        program.vertices[vertex] = match program.vertices[vertex] {
            Statement::Realign(array, Alignment { template, .. }) => {
                let exchanged = rng.chance(40);
                let alignment = Alignment {
                    template,
                    exchanged,
                };
                Statement::Realign(array, alignment)
            }
            Statement::Redistribute(template, _) => {
                Statement::Redistribute(template, rng.pick(&spreads))
            }
            _ if rng.chance(10) => statement(rng, &program, &spreads),
            _ => references(rng, &program.arrays),
        };
    }
    program
}

/// Every program of one array, two templates and two directives or reads between entry and exit,
/// on every graph of four vertices. One template is spread as the other exchanged.
pub fn all_of_four_vertices() -> impl Iterator<Item = Program> {
    let rows = Mapping(Dimension::Block, Dimension::NotSpread);
    let other = Mapping(Dimension::Cyclic(1), Dimension::NotSpread);
    let statements = [
        Statement::References(vec![READ]),
        Statement::Realign(0, Alignment::exchanged(0)),
        Statement::Realign(0, Alignment::straight(1)),
        Statement::Realign(0, Alignment::exchanged(1)),
        Statement::Redistribute(0, rows.exchanged()),
        Statement::Redistribute(0, other),
        Statement::Redistribute(1, other),
    ];
    let all = statements.len();
    (0..all * all << 9).map(move |index| {
        let (pair, graph) = (index >> 9, index & 0x1ff);
        let edges = (0..9).filter(|edge| graph >> edge & 1 == 1);
        let nothing = Statement::References(vec![0]);
        let (first, second) = (&statements[pair / all], &statements[pair % all]);
        Program {
            templates: vec![rows, rows.exchanged()],
            arrays: vec![Array {
                kind: LOCAL,
                alignment: Alignment::straight(0),
            }],
            vertices: vec![nothing.clone(), first.clone(), second.clone(), nothing],
            edges: edges
                .map(|edge| (edge as u16 / 3, edge as u16 % 3 + 1))
                .collect(),
        }
    })
}

/// The refusals that a directive file can meet.
pub const REFUSALS: [u64; 5] = [40, 41, 42, 20, 21];

/// A directive file of one of the drawn sizes that is refused with this number of `REFUSALS`.
pub fn refused(rng: &mut Rng, number: u64, any_size: fn(&mut Rng) -> Size) -> Vec<u8> {
    loop {
        let mut size = any_size(rng);
        if number == 41 {
            size.vertices = size.vertices.max(100);
            size.templates = size.templates.min(2);
            size.spreads = 120;
        }
        let mut program = program(rng, size);
        if number == 40 {
            return damage::any(rng, &program).file(&program);
        }
        if [20, 21].contains(&number) {
            make_acceptable(rng, &mut program);
            add_references(rng, &mut program);
        }
        let file = program.bytes();
        if convert(&file, &mut []).number == number {
            return file;
        }
    }
}

/// References in rows that are not directives, of in arguments also changes.
fn add_references(rng: &mut Rng, program: &mut Program) {
    for vertex in 1..program.vertices.len() - 1 {
        if let Statement::References(row) = &mut program.vertices[vertex]
            && rng.chance(50)
        {
            let array = rng.below(row.len());
            row[array] = rng.pick(&[READ, READ, READ, DEFINE, MODIFY, KILL]);
        }
    }
}
