//! Directive files in words.

use super::line::{Fault, Line};
use super::shared::{
    actions, kind, reference, room_for, row_text, successors, vertex, vertices_text,
};
use super::{Names, Places};
use crate::directives::{Alignment, Array, Dimension, Program, Spread, Statement};
use hpf_remap::formats::Action;
use std::fmt::Write;

/// The directive file behind the mark.
pub fn read<'t>(lines: impl Iterator<Item = Line<'t>>) -> Result<(Program, Names, Places), Fault> {
    let mut program = Program::default();
    let (mut names, mut places) = (Names::default(), Places::default());
    for mut line in lines {
        let here = line.here();
        if line.has("template") {
            if !program.arrays.is_empty() || !program.vertices.is_empty() {
                return Err(here.fault("templates stand before arrays and vertices"));
            }
            room_for(&mut line, names.templates.len())?;
            names.templates.push(line.new_name(&names.templates)?);
            program.templates.push(spread(&mut line)?);
            places.templates.push(line.number());
        } else if line.has("array") {
            if !program.vertices.is_empty() {
                return Err(here.fault("arrays stand before the vertices"));
            }
            room_for(&mut line, names.arrays.len())?;
            names.arrays.push(line.new_name(&names.arrays)?);
            program.arrays.push(Array {
                kind: kind(&mut line)?,
                alignment: alignment(&mut line, &names)?,
            });
            places.arrays.push(line.number());
        } else {
            let from = vertex(&mut line, program.vertices.len())?;
            program.vertices.push(statement(&mut line, &names)?);
            successors(&mut line, from, &mut program.edges)?;
            places.vertices.push(line.number());
        }
        line.end()?;
    }
    Ok((program, names, places))
}

/// `with t`, and perhaps `exchanged`.
fn alignment(line: &mut Line, names: &Names) -> Result<Alignment, Fault> {
    line.word("with")?;
    Ok(Alignment {
        template: line.known(&names.templates, "a template")? as u8,
        exchanged: line.has("exchanged"),
    })
}

/// `(block, *)` and so on.
fn spread(line: &mut Line) -> Result<Spread, Fault> {
    line.word("(")?;
    let first = dimension(line)?;
    line.word(",")?;
    let second = dimension(line)?;
    line.word(")")?;
    Ok(Spread(first, second))
}

fn dimension(line: &mut Line) -> Result<Dimension, Fault> {
    if line.has("*") {
        return Ok(Dimension::NotSpread);
    }
    if line.has("block") {
        return Ok(Dimension::Block);
    }
    if !line.has("cyclic") {
        return line.expected("`*`, `block` or `cyclic`");
    }
    if !line.has("(") {
        return Ok(Dimension::Cyclic(1));
    }
    let size = line.two_bytes("the size of a block")?;
    line.word(")")?;
    Ok(Dimension::Cyclic(size))
}

fn statement(line: &mut Line, names: &Names) -> Result<Statement, Fault> {
    if line.has("realign") {
        let array = line.known(&names.arrays, "an array")? as u8;
        return Ok(Statement::Realign(array, alignment(line, names)?));
    }
    if line.has("redistribute") {
        let template = line.known(&names.templates, "a template")? as u8;
        return Ok(Statement::Redistribute(template, spread(line)?));
    }
    let row = actions(line, &names.arrays, |line| action(line, &names.arrays))?;
    Ok(Statement::References(row))
}

fn action(line: &mut Line, names: &[String]) -> Result<(usize, Action), Fault> {
    match reference(line, names)? {
        Some(found) => Ok(found),
        None => {
            line.expected("`read`, `define`, `modify`, `kill`, `realign`, `redistribute` or `->`")
        }
    }
}

fn alignment_text(alignment: Alignment, names: &Names) -> String {
    let exchanged = if alignment.exchanged {
        " exchanged"
    } else {
        ""
    };
    let template = names.template(usize::from(alignment.template));
    format!("with {template}{exchanged}")
}

/// The words of a statement, behind a blank if there are any.
pub fn statement_text(statement: &Statement, names: &Names) -> String {
    match statement {
        Statement::References(row) => row_text(row, &names.arrays),
        Statement::Realign(array, alignment) => {
            let array = names.array(usize::from(*array));
            format!(" realign {array} {}", alignment_text(*alignment, names))
        }
        Statement::Redistribute(template, spread) => {
            let template = names.template(usize::from(*template));
            format!(" redistribute {template} {spread}")
        }
    }
}

/// The text behind the first word of the mark.
pub fn text(program: &Program, names: &Names) -> String {
    let mut text = String::from("directives\n");
    for (spread, name) in program.templates.iter().zip(&names.templates) {
        let _ = writeln!(text, "template {name} {spread}");
    }
    for (Array { kind, alignment }, name) in program.arrays.iter().zip(&names.arrays) {
        let _ = writeln!(
            text,
            "array {name} {kind} {}",
            alignment_text(*alignment, names)
        );
    }
    let statements = program.vertices.iter();
    let statements = statements.map(|statement| statement_text(statement, names));
    text + &vertices_text(statements, &program.edges)
}
