//! Files and standard input, in bytes or in words.

use crate::Standard;
use crate::ending::Stop;
use crate::notation::{self, Names, Places};
use hpf_remap::formats::DIRECTIVES_MARK;
use std::ffi::OsStr;
use std::io::{self, Read};
use std::path::Path;

/// More than any file of these formats has, comments included.
const MOST_BYTES: u64 = 16 << 20;

/// What a file has.
#[derive(Clone, Copy, Debug, PartialEq, Eq)]
pub enum Form {
    Routine,
    Directives,
    Path,
}

impl Form {
    pub fn noun(self) -> &'static str {
        match self {
            Form::Routine => "routine",
            Form::Directives => "directive file",
            Form::Path => "path",
        }
    }
}

/// A file's bytes; if it is a text, with what they do not have.
#[derive(Clone, Debug)]
pub struct File {
    pub form: Form,
    pub bytes: Vec<u8>,
    pub names: Names,
    pub places: Option<Places>,
}

impl File {
    /// A file of bytes.
    pub fn of_bytes(form: Form, bytes: Vec<u8>) -> File {
        File {
            form,
            bytes,
            names: Names::default(),
            places: None,
        }
    }

    /// Whatever the contents are: a text by its mark, bytes by theirs.
    pub fn new(contents: Vec<u8>) -> Result<File, notation::Fault> {
        if notation::is_text(&contents) {
            return notation::read(&String::from_utf8_lossy(&contents));
        }
        let form = if contents.starts_with(&DIRECTIVES_MARK) {
            Form::Directives
        } else if contents.starts_with(&[0, 0]) {
            Form::Path // its first vertex is the entry
        } else {
            Form::Routine
        };
        Ok(File::of_bytes(form, contents))
    }
}

/// The files that a command is given.
pub struct Files {
    input_is_open: bool,
    input_is_read: bool,
}

impl Files {
    pub fn new(standard: Standard) -> Files {
        Files {
            input_is_open: standard.input_is_open,
            input_is_read: false,
        }
    }

    fn contents(&mut self, name: &OsStr) -> Result<Vec<u8>, Stop> {
        let shown = shown(name);
        let cannot = |error| Stop::Trouble(format!("cannot read {shown}: {error}"));
        let read = if name != "-" {
            std::fs::File::open(Path::new(name)).and_then(all)
        } else if self.input_is_read {
            let text = String::from("standard input cannot be two files");
            return Err(Stop::Trouble(text));
        } else if !self.input_is_open {
            Err(io::Error::other("it is closed"))
        } else {
            self.input_is_read = true;
            all(io::stdin().lock())
        };
        let contents = read.map_err(cannot)?;
        if contents.len() as u64 > MOST_BYTES {
            let text = format!("{shown} has more than {} MiB", MOST_BYTES >> 20);
            return Err(Stop::Trouble(text));
        }
        Ok(contents)
    }

    /// A file of any form.
    pub fn any(&mut self, name: &OsStr) -> Result<File, Stop> {
        let contents = self.contents(name)?;
        let placed = |fault| Stop::Trouble(format!("{}:{fault}", shown(name)));
        File::new(contents).map_err(placed)
    }

    /// A routine, or directives that become one. Bytes that are neither are a routine of a wrong
    /// mark, which the library refuses.
    pub fn routine(&mut self, name: &OsStr) -> Result<File, Stop> {
        let file = self.any(name)?;
        match (file.form, &file.places) {
            (Form::Path, Some(_)) => Err(unwanted(name, "a routine", "a path")),
            (Form::Path, None) => Ok(File::of_bytes(Form::Routine, file.bytes)),
            _ => Ok(file),
        }
    }

    /// A path. Bytes are one, whatever they are.
    pub fn path(&mut self, name: &OsStr) -> Result<File, Stop> {
        let file = self.any(name)?;
        match (file.form, &file.places) {
            (Form::Path, _) => Ok(file),
            (form, Some(_)) => Err(unwanted(name, "a path", &format!("a {}", form.noun()))),
            (_, None) => Ok(File::of_bytes(Form::Path, file.bytes)),
        }
    }
}

fn all(file: impl Read) -> io::Result<Vec<u8>> {
    let mut contents = Vec::new();
    file.take(MOST_BYTES + 1).read_to_end(&mut contents)?;
    Ok(contents)
}

fn shown(name: &OsStr) -> String {
    match name == "-" {
        true => String::from("standard input"),
        false => Path::new(name).display().to_string(),
    }
}

fn unwanted(name: &OsStr, wanted: &str, found: &str) -> Stop {
    let name = shown(name);
    Stop::Trouble(format!(
        "{name}: {wanted} is asked for, and this is {found}"
    ))
}
