//! Figures of source document 003 as directive files.
//!
//! The figures leave out what does not matter to them. Where it matters here, it was put so:
//! - An array that is distributed, or that others are aligned with, is a template and an array of
//!   one name, aligned straight.
//! - One dimension is the first of two; the second is not spread.
//! - Arrays are local unless the figure has an intent.
//! - References of no told kind, `... A ...`, are modifies before a remapping, reads at the end.
//! - A branch and a loop's head are vertices, with the references of their conditions.

use super::Program;
use super::convert::convert;
use crate::listing;
use crate::outcome::Outcome;
use crate::plan::{LONGEST_PLAN, plan};
use crate::routine::LONGEST_FILE;

/// The folder of the figures' files: examples/directives of the repository.
pub const FOLDER: &str = concat!(env!("CARGO_MANIFEST_DIR"), "/../../examples/directives");

/// A figure: its number, and its text.
#[derive(Clone, Copy, Debug)]
pub struct Figure<'a> {
    pub number: usize,
    pub text: &'a str,
}

impl Figure<'_> {
    pub fn program(&self) -> Program {
        Program::from_text(self.text).expect("figures are understood")
    }

    /// Its files by name: `hpfd` has the directives, `hpfr` the routine that they become, `txt` the
    /// planner's lines for it. A refused figure has no routine, and in `txt` the converter's line.
    pub fn files(&self) -> Vec<(String, Vec<u8>)> {
        let name = |ending| format!("figure-{}.{ending}", self.number);
        let directives = self.program().bytes();
        let mut files = Vec::new();
        let text = match written(convert, &directives, LONGEST_FILE) {
            Ok(routine) => {
                let plan = written(plan, &routine, LONGEST_PLAN).expect("it is converted");
                files.push((name("hpfr"), routine));
                listing::plan(&plan)
            }
            Err(refusal) => listing::refusal(refusal),
        };
        files.push((name("hpfd"), directives));
        files.push((name("txt"), text.into_bytes()));
        files
    }
}

/// What a call writes, or its refusal.
fn written(
    call: fn(&[u8], &mut [u8]) -> Outcome,
    input: &[u8],
    room: usize,
) -> Result<Vec<u8>, Outcome> {
    let mut out = vec![0; room];
    let outcome = call(input, &mut out);
    if outcome.number != 0 {
        return Err(outcome);
    }
    out.truncate(outcome.first as usize);
    Ok(out)
}

/// "Possible direct A remapping". A and B are written before the directives and read after them.
pub const FIGURE_1: Figure = Figure {
    number: 1,
    text: "
template B (block,*)
array A local with B
array B local with B
0 -> 1
1 define A define B -> 2
2 realign A with B exchanged -> 3
3 redistribute B (cyclic,*) -> 4
4 read A read B -> 5
5
",
};

/// "Useless C remappings". C and B are written before the directives and read after them.
pub const FIGURE_2: Figure = Figure {
    number: 2,
    text: "
template B (block,*)
array C local with B
array B local with B
0 -> 1
1 define C define B -> 2
2 realign C with B exchanged -> 3
3 redistribute B (*,block) -> 4
4 read C read B -> 5
5
",
};

/// "Aligned array remappings".
pub const FIGURE_3: Figure = Figure {
    number: 3,
    text: "
template T (block,*)
array A local with T
array B local with T
array C local with T
array D local with T
array E local with T
0 -> 1
1 modify A modify B modify C modify D modify E -> 2
2 redistribute T (cyclic,*) -> 3
3 read A read D -> 4
4
",
};

/// "Ambiguity of remappings". The figure has no spreads: T1 and T2 are spread differently, and T2
/// is redistributed to a third spread.
pub const FIGURE_5: Figure = Figure {
    number: 5,
    text: "
template T1 (block,*)
template T2 (cyclic,*)
array A local with T1
0 -> 1
1 modify A -> 2
2 -> 3 5
3 realign A with T2 -> 4
4 modify A -> 5
5 redistribute T2 (cyclic(2),*) -> 6
6 read A -> 7
7
",
};

/// "Other ambiguity of remappings". Vertex 5 is the part without reference to A.
pub const FIGURE_6: Figure = Figure {
    number: 6,
    text: "
template A (block,*)
array A local with A
0 -> 1
1 modify A -> 2
2 -> 3 5
3 redistribute A (cyclic,*) -> 4
4 modify A -> 5
5 -> 6
6 redistribute A (cyclic(10),*) -> 7
7 read A -> 8
8
",
};

/// The code example, an ADI with two remappings in its loop. `A written, A read` is a modify, `B
/// written` and `C written` are defines; m and p are scalars and have no mapping. Vertex 2 is the
/// condition, 7 the loop's head, which can leave at once.
pub const FIGURE_10: Figure = Figure {
    number: 10,
    text: "
template A (block,*)
array A inout with A
array B local with A
array C local with A
0 -> 1
1 read A define B -> 2
2 read B -> 3 5
3 redistribute A (cyclic,*) -> 4
4 modify A read B -> 7
5 redistribute A (block,block) -> 6
6 read A -> 7
7 -> 8 12
8 redistribute A (block,*) -> 9
9 read A define C -> 10
10 redistribute A (*,block) -> 11
11 modify A read C -> 7
12
",
};

/// "Flow dependent live copy". `A written` is a modify, as the text says of it.
pub const FIGURE_13: Figure = Figure {
    number: 13,
    text: "
template A (block,*)
array A local with A
0 -> 1
1 read A -> 2
2 -> 3 5
3 redistribute A (cyclic,*) -> 4
4 modify A -> 7
5 redistribute A (cyclic(2),*) -> 6
6 read A -> 7
7 redistribute A (block,*) -> 8
8 read A -> 9
9
",
};

/// "Several leaving mappings".
pub const FIGURE_21: Figure = Figure {
    number: 21,
    text: "
template T (*,block)
array A local with T
0 -> 1
1 -> 2 3
2 realign A with T exchanged -> 3
3 redistribute T (block,*) -> 4
4
",
};

pub const FIGURES: [Figure; 8] = [
    FIGURE_1, FIGURE_2, FIGURE_3, FIGURE_5, FIGURE_6, FIGURE_10, FIGURE_13, FIGURE_21,
];
