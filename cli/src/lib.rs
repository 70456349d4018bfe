//! The front end of the library: reads files, asks the library, and shows what it answers.
//! Everything that decides is in the library, package `hpf-remap`.

pub mod accepted;
pub mod arguments;
pub mod arrivals;
pub mod directives;
pub mod dot;
pub mod ending;
pub mod explain;
pub mod files;
pub mod layout;
pub mod listing;
pub mod machine;
pub mod mappings;
pub mod notation;
pub mod routine;
pub mod rows;
pub mod watch;

pub use accepted::Accepted;
use accepted::routine_of;
use arguments::{Asked, Command};
use ending::{Ending, Stop};
use files::{File, Files, Form};
use hpf_remap::Refusal;
use std::ffi::OsString;
use std::process::ExitCode;

/// Whether the standard streams can be used.
#[derive(Clone, Copy, Debug)]
pub struct Standard {
    pub input_is_open: bool,
    pub output_is_open: bool,
}

/// Carries out a command line, without the program's name.
pub fn main(words: impl IntoIterator<Item = OsString>, standard: Standard) -> ExitCode {
    let answer = arguments::read(words).and_then(|asked| match asked {
        Asked::Said(text) => Ok(Ending::done(text)),
        Asked::Command(command) => carried_out(&command, Files::new(standard)),
    });
    ending::end(answer, standard)
}

fn carried_out(command: &Command, mut files: Files) -> Result<Ending, Stop> {
    match command {
        Command::Plan { routine, table } => plan(files.routine(routine)?, *table),
        Command::Run {
            routine,
            path,
            table,
        } => run(files.routine(routine)?, &files.path(path)?, *table),
        Command::Watch {
            routine,
            path,
            machine,
        } => watch(files.routine(routine)?, &files.path(path)?, *machine),
        Command::Convert { file, text } => convert(files.routine(file)?, *text),
        Command::Text { file } => text(&files.any(file)?),
        Command::Bytes { file } => bytes(files.any(file)?),
        Command::Explain { routine, path } => {
            let source = files.routine(routine)?;
            let path = path.as_ref().map(|path| files.path(path)).transpose()?;
            Ok(explain::explained(&source, path.as_ref()))
        }
        Command::Answer(refusal) => explain::answer(*refusal),
        Command::Dot { routine } => dot(files.routine(routine)?),
    }
}

fn plan(file: File, table: bool) -> Result<Ending, Stop> {
    let accepted = Accepted::new(file)?;
    let plan = accepted.plan()?;
    Ok(Ending::done(match table {
        true => listing::plan_table(&plan, &accepted.names),
        false => listing::plan(&plan),
    }))
}

fn run(file: File, path: &File, table: bool) -> Result<Ending, Stop> {
    let accepted = Accepted::new(file)?;
    let report = hpf_remap::ran(&accepted.bytes, &path.bytes)?;
    let report = accepted.report(&report)?;
    Ok(Ending::done(match table {
        true => listing::report_table(&report, &accepted.routine, &accepted.names),
        false => listing::report(&report),
    }))
}

fn watch(file: File, path: &File, machine: bool) -> Result<Ending, Stop> {
    let accepted = Accepted::new(file)?;
    let watched = watch::followed(&accepted, &path.bytes)?;
    Ok(Ending::done(rows::shown(&watched, &accepted, machine)))
}

fn dot(file: File) -> Result<Ending, Stop> {
    let accepted = Accepted::new(file)?;
    Ok(Ending::done(dot::graph(
        &accepted.plan()?,
        &accepted.routine,
        &accepted.names,
    )))
}

/// A routine as it is, a directive file converted: in bytes, or in words.
fn convert(file: File, as_text: bool) -> Result<Ending, Stop> {
    let converted = File {
        bytes: routine_of(&file)?,
        form: Form::Routine,
        ..file
    };
    match as_text {
        true => text(&converted),
        false => bytes(converted),
    }
}

/// The first refusal of a file's writer, by the library. What its programmer did is not asked.
fn malformed(file: &File) -> Option<Refusal> {
    let written = match file.form {
        Form::Routine => hpf_remap::plan(&file.bytes, &mut []),
        Form::Directives => hpf_remap::convert(&file.bytes, &mut []),
        Form::Path => return None,
    };
    written
        .err()
        .filter(|refusal| explain::is_writers(refusal.number))
}

fn text(file: &File) -> Result<Ending, Stop> {
    match malformed(file) {
        Some(refusal) => Err(Stop::Refused(refusal)),
        None => {
            let text = notation::text(file).ok_or(Stop::unread("file"))?;
            Ok(Ending::done(text))
        }
    }
}

fn bytes(file: File) -> Result<Ending, Stop> {
    match malformed(&file) {
        Some(refusal) => Err(Stop::Refused(refusal)),
        None => Ok(Ending::done(file.bytes)),
    }
}
