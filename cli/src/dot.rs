//! The expanded routine with its labels, for Graphviz.

use crate::arrivals::Arrivals;
use crate::layout::versions;
use crate::notation::Names;
use crate::routine::{Event, Part, Phase, Routine};
use hpf_remap::formats::Letter;
use hpf_remap::{Label, Plan};
use std::fmt::Write;

/// The routine, and what comes to its calls.
struct Drawn<'a> {
    routine: &'a Routine,
    names: &'a Names,
    /// By array.
    arrivals: Vec<Arrivals>,
}

impl Drawn<'_> {
    /// The version of the label behind a call: the one that comes to the call, or the initial one
    /// if none does.
    fn back(&self, vertex: usize, array: usize) -> u8 {
        let coming = self.arrivals[array].versions(vertex);
        let initial = self.routine.arrays[array].initial;
        coming.first().copied().unwrap_or(initial)
    }

    /// The actions of a vertex, a line each.
    fn actions(&self, part: Part) -> String {
        let mut text = String::new();
        for array in 0..self.routine.arrays.len() {
            let name = self.names.array(array);
            let version = match self.routine.event(part, array) {
                Event::Nothing => continue,
                Event::Label(_) if is_end(self.routine, part) => continue,
                Event::Reference(reference) => {
                    let _ = write!(text, "\\n{reference} {name}");
                    continue;
                }
                Event::Label(version) | Event::Pass(version) => version,
                Event::Back => self.back(part.vertex, array),
            };
            let _ = write!(text, "\\nremap {name} {version}");
        }
        text
    }
}

fn is_end(routine: &Routine, part: Part) -> bool {
    part.vertex == 0 || part.vertex + 1 == routine.rows.len()
}

/// A vertex's number, and which vertex it is.
fn title(routine: &Routine, number: usize, part: Part) -> String {
    match part.phase {
        Phase::Whole if number == 0 => format!("{number} entry"),
        Phase::Whole if is_end(routine, part) => format!("{number} exit"),
        Phase::Whole => number.to_string(),
        Phase::Pass => format!("{number} before call {}", part.vertex),
        Phase::Inside => format!("{number} call {}", part.vertex),
        Phase::Back => format!("{number} after call {}", part.vertex),
    }
}

fn set(of: u32) -> String {
    let versions: Vec<String> = versions(of).map(|version| version.to_string()).collect();
    match versions.is_empty() {
        true => String::from("none"),
        false => versions.join(", "),
    }
}

/// A label as a note, dashed if it is dropped.
fn note(label: &Label, names: &Names) -> String {
    let (vertex, array) = (label.vertex, label.array);
    let style = match label.letter {
        Letter::N => ", style=dashed",
        Letter::D | Letter::R | Letter::W => "",
    };
    let leaving = match label.leaving {
        Some(version) => version.to_string(),
        None => String::from("none"),
    };
    let (name, letter, reaching) = (names.array(array), label.letter, set(label.reaching));
    format!(
        "  l{vertex}_{array} [shape=note{style}, \
         label=\"{name}: {letter}\\nreaching {reaching}\\nleaving {leaving}\"];\n"
    )
}

/// The labels of a vertex: notes in a row beside it.
fn notes(vertex: usize, labels: &[Label], names: &Names) -> String {
    if labels.is_empty() {
        return String::new();
    }
    let notes: String = labels.iter().map(|label| note(label, names)).collect();
    let row: String = labels
        .iter()
        .map(|label| format!(" -> l{vertex}_{}", label.array))
        .collect();
    format!("{notes}  {{ rank=same; v{vertex}{row} [style=dotted, arrowhead=none]; }}\n")
}

/// The graph.
pub fn graph(plan: &Plan, routine: &Routine, names: &Names) -> String {
    let arrays = 0..routine.arrays.len();
    let drawn = Drawn {
        routine,
        names,
        arrivals: arrays.map(|array| Arrivals::new(routine, array)).collect(),
    };
    let mut text = String::from("digraph routine {\n  node [shape=box, fontname=monospace];\n");
    for (number, &part) in routine.parts().iter().enumerate() {
        let title = title(routine, number, part);
        let actions = drawn.actions(part);
        let _ = writeln!(text, "  v{number} [label=\"{title}{actions}\"];");
    }
    for (from, to) in routine.expanded_edges() {
        let _ = writeln!(text, "  v{from} -> v{to};");
    }
    for vertex in 0..plan.vertices() {
        let labels: Vec<Label> = plan.labels_at(vertex).collect();
        text += &notes(vertex, &labels, names);
    }
    text + "}\n"
}
