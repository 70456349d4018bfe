//! What the directives mean along one path.

use super::{Alignment, Mapping, Program, Statement};

/// What a path has brought: the last spread of each template and the last alignment of each array.
#[derive(Clone, Debug, PartialEq, Eq, Hash)]
pub struct State {
    spreads: Vec<Mapping>,
    alignments: Vec<Alignment>,
}

impl State {
    /// As `distribute` and `align` say.
    pub fn initial(program: &Program) -> State {
        State {
            spreads: program.templates.clone(),
            alignments: program.arrays.iter().map(|array| array.alignment).collect(),
        }
    }

    pub fn alignment(&self, array: usize) -> Alignment {
        self.alignments[array]
    }

    /// The mapping that the directives have given to an array.
    pub fn mapping(&self, array: usize) -> Mapping {
        let alignment = self.alignments[array];
        alignment.mapping(self.spreads[alignment.template])
    }

    /// Whether a statement would remap an array here.
    pub fn is_remapped(&self, statement: &Statement, array: usize) -> bool {
        match *statement {
            Statement::References(_) => false,
            Statement::Realign(realigned, _) => realigned == array,
            Statement::Redistribute(template, _) => self.alignments[array].template == template,
        }
    }

    /// The state after a statement. A redistribute is felt even if no array is aligned with its
    /// template: a later realign finds the new spread.
    pub fn after(&self, statement: &Statement) -> State {
        let mut state = self.clone();
        match *statement {
            Statement::References(_) => {}
            Statement::Realign(array, alignment) => state.alignments[array] = alignment,
            Statement::Redistribute(template, spread) => state.spreads[template] = spread,
        }
        state
    }
}
