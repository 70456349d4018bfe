//! Routines in words.

use super::line::{Fault, Line};
use super::shared::{
    actions, kind, reference, room_for, row_text, successors, vertex, vertices_text,
};
use super::{Names, Places};
use crate::routine::{Array, Routine};
use hpf_remap::formats::{Action, CALL_VERSIONS, Intent, MOST_VERSIONS};
use std::fmt::Write;

/// The routine behind the mark.
pub fn read<'t>(lines: impl Iterator<Item = Line<'t>>) -> Result<(Routine, Names, Places), Fault> {
    let mut routine = Routine::default();
    let (mut names, mut places) = (Names::default(), Places::default());
    for mut line in lines {
        let here = line.here();
        if line.has("array") {
            if !routine.rows.is_empty() {
                return Err(here.fault("arrays stand before the vertices"));
            }
            room_for(&mut line, names.arrays.len())?;
            names.arrays.push(line.new_name(&names.arrays)?);
            routine.arrays.push(array(&mut line)?);
            places.arrays.push(line.number());
        } else {
            let from = vertex(&mut line, routine.rows.len())?;
            let row = actions(&mut line, &names.arrays, |line| action(line, &names.arrays))?;
            routine.rows.push(row);
            successors(&mut line, from, &mut routine.edges)?;
            places.vertices.push(line.number());
        }
        line.end()?;
    }
    Ok((routine, names, places))
}

/// What follows an array's name.
fn array(line: &mut Line) -> Result<Array, Fault> {
    let kind = kind(line)?;
    let versions = line.byte("a number of versions")?;
    let initial = match line.has("initial") {
        true => line.byte("a version")?,
        false => 0,
    };
    Ok(Array {
        kind,
        versions,
        initial,
    })
}

fn action(line: &mut Line, names: &[String]) -> Result<(usize, Action), Fault> {
    if let Some(found) = reference(line, names)? {
        return Ok(found);
    }
    if line.has("remap") {
        let array = line.known(names, "an array")?;
        let version = line.up_to(MOST_VERSIONS - 1, "a version")?;
        return Ok((array, Action::Remap(version as u8)));
    }
    if line.has("call") {
        let array = line.known(names, "an array")?;
        let version = line.up_to(usize::from(CALL_VERSIONS) - 1, "a version")?;
        return match line.one_of(&Intent::ALL) {
            Some(intent) => Ok((array, Action::Call(intent, version as u8))),
            None => line.expected("`in`, `out` or `inout`"),
        };
    }
    line.expected("`read`, `define`, `modify`, `kill`, `remap`, `call` or `->`")
}

/// The text behind the first word of the mark.
pub fn text(routine: &Routine, names: &Names) -> String {
    let mut text = String::from("routine\n");
    for (array, name) in routine.arrays.iter().zip(&names.arrays) {
        let _ = write!(text, "array {name} {} {}", array.kind, array.versions);
        if array.initial != 0 {
            let _ = write!(text, " initial {}", array.initial);
        }
        text.push('\n');
    }
    let rows = routine.rows.iter().map(|row| row_text(row, &names.arrays));
    text + &vertices_text(rows, &routine.edges)
}
