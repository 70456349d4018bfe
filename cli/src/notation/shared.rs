//! What routines and directive files have in common: kinds, references and next vertices.

use super::line::{Fault, Line};
use crate::routine::Edge;
use hpf_remap::formats::{Action, Kind, Reference};
use std::fmt::Write;

/// So many arrays or templates can be named: their numbers are bytes.
const MOST_NAMED: usize = 256;

pub fn room_for(line: &mut Line, named: usize) -> Result<(), Fault> {
    match named < MOST_NAMED {
        true => Ok(()),
        false => Err(line.here().fault("there are 256 of these already")),
    }
}

pub fn kind(line: &mut Line) -> Result<Kind, Fault> {
    match line.one_of(&Kind::ALL) {
        Some(kind) => Ok(kind),
        None => line.expected("`local`, `in`, `out` or `inout`"),
    }
}

/// The number of a vertex, which is this one.
pub fn vertex(line: &mut Line, due: usize) -> Result<u16, Fault> {
    let here = line.here();
    let number = line.two_bytes("a vertex")?;
    match usize::from(number) == due {
        true => Ok(number),
        false => Err(here.fault(format!("vertex {due} is expected"))),
    }
}

/// Fills a row with actions, which `action` takes from the line.
pub fn actions(
    line: &mut Line,
    names: &[String],
    action: impl Fn(&mut Line) -> Result<(usize, Action), Fault>,
) -> Result<Vec<Action>, Fault> {
    let mut row = vec![Action::Nothing; names.len()];
    if matches!(line.peek(), None | Some("->")) {
        return Ok(row);
    }
    loop {
        let here = line.here();
        let (array, action) = action(line)?;
        if row[array] != Action::Nothing {
            let name = &names[array];
            return Err(here.fault(format!("`{name}` has an action here already")));
        }
        row[array] = action;
        if !line.has(",") {
            return Ok(row);
        }
    }
}

/// `read a` and so on.
pub fn reference(line: &mut Line, names: &[String]) -> Result<Option<(usize, Action)>, Fault> {
    let Some(reference) = line.one_of(&Reference::ALL) else {
        return Ok(None);
    };
    let array = line.known(names, "an array")?;
    Ok(Some((array, Action::Reference(reference))))
}

/// The rest of a vertex's line: the vertices that may come next.
pub fn successors(line: &mut Line, from: u16, edges: &mut Vec<Edge>) -> Result<(), Fault> {
    if line.peek().is_none() {
        return Ok(());
    }
    if !line.has("->") {
        return line.expected("`,` or `->`");
    }
    let first = edges.len();
    loop {
        let here = line.here();
        let edge = (from, line.two_bytes("a vertex")?);
        if edges[first..].contains(&edge) {
            return Err(here.fault(format!("{} is there already", edge.1)));
        }
        edges.push(edge);
        if line.peek().is_none() {
            break;
        }
    }
    edges[first..].sort_unstable();
    Ok(())
}

/// The words of an action, behind those before it.
pub fn write_action(text: &mut String, action: Action, name: &str) {
    let _ = match action {
        Action::Nothing => Ok(()),
        Action::Reference(reference) => write!(text, " {reference} {name},"),
        Action::Remap(version) => write!(text, " remap {name} {version},"),
        Action::Call(intent, version) => write!(text, " call {name} {version} {intent},"),
    };
}

/// The words of a row's actions.
pub fn row_text(row: &[Action], names: &[String]) -> String {
    let mut text = String::new();
    for (&action, name) in row.iter().zip(names) {
        write_action(&mut text, action, name);
    }
    text.pop(); // the last comma
    text
}

/// The lines of the vertices, of which `statements` have what stands before the arrow.
pub fn vertices_text(statements: impl Iterator<Item = String>, edges: &[Edge]) -> String {
    let mut text = String::new();
    for (vertex, statement) in statements.enumerate() {
        let next: Vec<String> = edges
            .iter()
            .filter(|(from, _)| usize::from(*from) == vertex)
            .map(|(_, to)| to.to_string())
            .collect();
        let arrow = if next.is_empty() { "" } else { " -> " };
        let _ = writeln!(text, "{vertex}{statement}{arrow}{}", next.join(" "));
    }
    text
}
