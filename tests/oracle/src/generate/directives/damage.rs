//! Directive files with one field that is wrong, each with the place that 40 has to give.

use crate::builder::{KILL, READ};
use crate::directives::file::{ARRAY, EDGE, HEAD, MAX_TEMPLATES, TEMPLATE, VERTEX};
use crate::directives::{Dimension, Mapping, Program, Statement};
use crate::generate::rng::Rng;
use crate::routine::{MAX_ARRAYS, MAX_EDGES, MAX_VERTICES};

/// Bytes that are no reference: unknown ones about references, remaps, calls.
const NO_REFERENCES: [u8; 12] = [
    0x01, 0x0f, 0x11, 0x3f, 0x40, 0x50, 0x60, 0x7f, 0x81, 0x90, 0xc0, 0xff,
];

/// A fault: bytes that are written over a file that is right, and the field that is then wrong.
#[derive(Clone, Debug)]
pub struct Fault {
    pub at: usize,
    pub bytes: Vec<u8>,
    /// The first byte of the wrong field.
    pub place: usize,
    /// The end of that field: a file that ends before gives its length.
    pub end: usize,
}

impl Fault {
    /// The file with this fault.
    pub fn file(&self, program: &Program) -> Vec<u8> {
        let mut file = program.bytes();
        self.apply(&mut file);
        file
    }

    pub fn apply(&self, file: &mut Vec<u8>) {
        let end = self.at + self.bytes.len();
        file.resize(file.len().max(end), 0);
        file[self.at..end].copy_from_slice(&self.bytes);
    }

    /// The place that 40 gives where the file ends after so many bytes.
    pub fn place_within(&self, length: usize) -> usize {
        if self.end <= length {
            self.place
        } else {
            length
        }
    }
}

/// The faults of one file.
struct Faults(Vec<Fault>);

impl Faults {
    fn add(&mut self, at: usize, bytes: &[u8], place: usize, width: usize) {
        self.0.push(Fault {
            at,
            bytes: bytes.to_vec(),
            place,
            end: place + width,
        });
    }

    /// A field of one byte with values that are wrong.
    fn byte(&mut self, at: usize, values: &[u8]) {
        for &value in values {
            self.add(at, &[value], at, 1);
        }
    }

    /// A field of two bytes with values that are wrong.
    fn word(&mut self, at: usize, values: &[usize]) {
        for &value in values {
            self.add(at, &(value as u16).to_le_bytes(), at, 2);
        }
    }

    /// A dimension that is spread so.
    fn dimension(&mut self, at: usize, dimension: Dimension) {
        self.byte(at, &[3, 255]);
        self.byte(at + 1, &[1, 2, 255]);
        if let Dimension::Cyclic(_) = dimension {
            self.word(at + 2, &[0]);
            self.add(at, &[0], at + 2, 2);
            self.add(at, &[1], at + 2, 2);
        } else {
            self.word(at + 2, &[1, 256, 65_535]);
            self.add(at, &[2], at + 2, 2);
        }
    }

    fn mapping(&mut self, at: usize, mapping: Mapping) {
        self.dimension(at, mapping.0);
        self.dimension(at + 4, mapping.1);
    }

    /// A spread where there has to be none.
    fn no_mapping(&mut self, at: usize) {
        for at in [at, at + 4] {
            self.byte(at, &[1, 2, 255]);
            self.byte(at + 1, &[1, 255]);
            self.word(at + 2, &[1, 256, 65_535]);
        }
    }

    fn head(&mut self, program: &Program) {
        for letter in 0..4 {
            self.byte(letter, &[0, b'R', 255]);
        }
        self.word(4, &[0, 2, 257]);
        let counts = [
            (program.templates.len(), 1, MAX_TEMPLATES, TEMPLATE),
            (program.arrays.len(), 1, MAX_ARRAYS, ARRAY),
            (
                program.vertices.len(),
                2,
                MAX_VERTICES,
                VERTEX + program.arrays.len(),
            ),
            (program.edges.len(), 0, MAX_EDGES, EDGE),
        ];
        let mut offset = HEAD;
        for (index, (count, low, high, width)) in counts.into_iter().enumerate() {
            let at = 6 + 4 * index;
            self.word(at, &[offset - 1, offset + 1, offset ^ 256, 0]);
            if low > 0 {
                self.word(at + 2, &[0, low - 1]);
            }
            self.word(at + 2, &[high + 1, 65_535]);
            // A count within its limits moves the next body, or the end of the file.
            let end = offset + width * count;
            let moved = |other: usize| match index {
                3 if other < count => (end - EDGE, 1),
                3 => (end, 1),
                _ => (at + 4, 2),
            };
            for other in [count.wrapping_sub(1), count + 1] {
                if (low..=high).contains(&other) {
                    let (place, width) = moved(other);
                    self.add(at + 2, &(other as u16).to_le_bytes(), place, width);
                }
            }
            offset = end;
        }
    }

    fn references(&mut self, at: usize, row: &[u8]) {
        for place in at..at + row.len() {
            self.byte(place, &NO_REFERENCES);
        }
        if let Some(first) = row.iter().position(|&byte| byte != 0) {
            let vertex = at - VERTEX;
            self.add(vertex, &[1], at + first, 1);
            self.add(vertex, &[2], at + first, 1);
        }
    }

    fn no_references(&mut self, at: usize, arrays: usize) {
        for place in at..at + arrays {
            self.byte(place, &[READ, KILL, 0x01, 0x40]);
        }
    }

    fn vertex(&mut self, at: usize, program: &Program, statement: &Statement) {
        let (templates, arrays) = (program.templates.len(), program.arrays.len());
        self.byte(at, &[3, 255]);
        match statement {
            Statement::References(row) => {
                (at + 1..at + 4).for_each(|place| self.byte(place, &[1, 255]));
                self.no_mapping(at + 4);
                self.references(at + VERTEX, row);
            }
            Statement::Realign(array, alignment) => {
                self.byte(at + 1, &[arrays as u8, 255]);
                self.byte(at + 2, &[templates as u8, 255]);
                self.byte(at + 3, &[2, 255]);
                self.no_mapping(at + 4);
                self.no_references(at + VERTEX, arrays);
                let parts = [*array, alignment.template, alignment.exchanged.into()];
                if let Some(first) = parts.iter().position(|&part| part != 0) {
                    self.add(at, &[0], at + 1 + first, 1);
                }
            }
            Statement::Redistribute(_, mapping) => {
                self.byte(at + 1, &[templates as u8, 255]);
                (at + 2..at + 4).for_each(|place| self.byte(place, &[1, 255]));
                self.mapping(at + 4, *mapping);
                self.no_references(at + VERTEX, arrays);
            }
        }
    }

    /// Entry or exit.
    fn terminal(&mut self, at: usize, arrays: usize) {
        (at..at + 4).for_each(|place| self.byte(place, &[1, 2, 255]));
        self.no_mapping(at + 4);
        self.no_references(at + VERTEX, arrays);
    }

    fn edges(&mut self, first: usize, program: &Program) {
        let vertices = program.vertices.len();
        for (index, pair) in program.edges.iter().enumerate() {
            let at = first + EDGE * index;
            self.word(at, &[vertices - 1, vertices, pair.0 as usize + 256, 65_535]);
            self.word(at + 2, &[0, vertices, pair.1 as usize + 256, 65_535]);
            if index == 0 {
                continue;
            }
            let (from, to) = program.edges[index - 1];
            let edge = |from: u16, to: u16| [from.to_le_bytes(), to.to_le_bytes()].concat();
            // The edge before it again, one below that, and one that is wrong besides.
            self.add(at, &edge(from, to), at, 4);
            if to > 1 {
                self.add(at, &edge(from, to - 1), at, 4);
            }
            self.add(at, &edge(from, 0), at + 2, 2);
            self.add(at, &edge(vertices as u16, to), at, 2);
        }
    }
}

/// Every fault of one field that is tried.
pub fn faults(program: &Program) -> Vec<Fault> {
    let mut faults = Faults(Vec::new());
    let (templates, arrays) = (program.templates.len(), program.arrays.len());
    faults.head(program);
    let mut at = HEAD;
    for &mapping in &program.templates {
        faults.mapping(at, mapping);
        at += TEMPLATE;
    }
    for _ in &program.arrays {
        faults.byte(at, &[4, 255]);
        faults.byte(at + 1, &[templates as u8, 255]);
        faults.byte(at + 2, &[2, 255]);
        faults.byte(at + 3, &[1, 255]);
        at += ARRAY;
    }
    for (vertex, statement) in program.vertices.iter().enumerate() {
        if vertex == 0 || vertex + 1 == program.vertices.len() {
            faults.terminal(at, arrays);
        } else {
            faults.vertex(at, program, statement);
        }
        at += VERTEX + arrays;
    }
    faults.edges(at, program);
    at += EDGE * program.edges.len();
    for byte in [0, 255] {
        faults.add(at, &[byte], at, 1);
    }
    faults.0
}

/// One of the faults.
pub fn any(rng: &mut Rng, program: &Program) -> Fault {
    let mut faults = faults(program);
    faults.swap_remove(rng.below(faults.len()))
}
