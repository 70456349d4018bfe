//! What the drawn directive files show.

use super::Drawn;
use oracle::builder::{Draft, KILL, remap};
use oracle::directives::{Program, Statement, file, sets};
use oracle::outcome::Outcome;
use oracle::record::RECORD;
use oracle::routine::Action;
use oracle::run::Parts;

/// In larger files not every statement is tried for what it matters.
const FEW_VERTICES: usize = 16;

impl Drawn {
    pub(super) fn count_conversion(&mut self, file: &[u8], answer: Outcome, routine: &[u8]) {
        self.one("conversions drawn: accepted", answer.number == 0);
        for (name, number) in [
            ("conversions drawn: refused by 40", 40),
            ("conversions drawn: refused by 41", 41),
            ("conversions drawn: refused by 42", 42),
            ("conversions drawn: refused by 20", 20),
            ("conversions drawn: refused by 21", 21),
        ] {
            self.one(name, answer.number == number);
        }
        if let (Ok(program), Some(draft)) = (file::parse(file), Draft::from_bytes(routine)) {
            self.count_remappings(&program, &draft);
            if program.vertices.len() <= FEW_VERTICES {
                self.count_what_matters(&program, &draft);
            }
        }
    }

    fn count_remappings(&mut self, program: &Program, draft: &Draft) {
        let is_remap = |byte: &&u8| Action::is_remap(**byte);
        let labels = || draft.rows.iter().flatten().filter(is_remap);
        let two = |row: &Vec<u8>| row.iter().filter(is_remap).count() > 1;
        self.one(
            "accepted conversions: with a remapping",
            labels().next().is_some(),
        );
        let home = labels().any(|&byte| byte == remap(0));
        self.one("  back to version 0", home);
        self.one("  of two arrays at once", draft.rows.iter().any(two));
        let reached = reached(program);
        let directives = program.vertices.iter().zip(reached);
        let mut unreached = directives.filter(|(statement, reached)| {
            let is_directive = statement.is_directive();
            is_directive && !reached
        });
        let some = unreached.next().is_some();
        self.one("  a directive that no path gets to", some);
        let mut bytes = draft.rows.iter().flatten();
        self.one("  with a kill", bytes.any(|&byte| byte == KILL));
        let many = draft.arrays.iter().any(|record| record[1] > 16);
        self.one("  of 17 mappings or more", many);
    }

    fn count_what_matters(&mut self, program: &Program, draft: &Draft) {
        let differs = |other: &Program| {
            let other = sets::conversion(other).map(|conversion| conversion.routine(program));
            other.as_ref() != Ok(draft)
        };
        self.one("  exchanges matter", differs(&straight(program)));
        let matters = |vertex: usize| {
            let mut without = program.clone();
            without.vertices[vertex] = program.nothing();
            differs(&without)
        };
        let remaps_nothing = |&vertex: &usize| {
            let statement = &program.vertices[vertex];
            matches!(statement, Statement::Redistribute(..))
                && draft.rows[vertex].iter().all(|&byte| byte == 0)
        };
        let mut redistributes = (0..program.vertices.len()).filter(remaps_nothing);
        self.one(
            "  a redistribute that remaps nothing matters",
            redistributes.any(matters),
        );
    }

    pub(super) fn count_converted_run(&mut self, file: &[u8], answer: Outcome, report: &[u8]) {
        self.one("converted runs: accepted", answer.number == 0);
        if let Ok(program) = file::parse(file)
            && answer.number == 0
        {
            let parts = Parts::split(report, program.arrays.len(), program.edges.len());
            let records = parts.expect("an accepted run has a report").records;
            let records = || records.chunks_exact(RECORD);
            let other = records().any(|record| record[3] > 0);
            self.one("  a reference in another version than 0", other);
            let kill = records().any(|record| record[4] == 4);
            self.one("  a kill in the report", kill);
            let above = records().any(|record| record[3] > 15);
            self.one("  a reference in a version above 15", above);
        }
    }
}

/// The program without exchanges.
fn straight(program: &Program) -> Program {
    let mut straight = program.clone();
    for array in &mut straight.arrays {
        array.alignment.exchanged = false;
    }
    for statement in &mut straight.vertices {
        if let Statement::Realign(_, alignment) = statement {
            alignment.exchanged = false;
        }
    }
    straight
}

/// The vertices that some path from the entry gets to.
fn reached(program: &Program) -> Vec<bool> {
    let successors = program.successors();
    let mut reached = vec![false; successors.len()];
    let mut open = vec![0];
    while let Some(vertex) = open.pop() {
        if !reached[vertex] {
            reached[vertex] = true;
            open.extend(&successors[vertex]);
        }
    }
    reached
}
