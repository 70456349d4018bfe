//! Refusals in sentences: what was found, where, and what was allowed. The three numbers are the
//! library's; the sentence is made of the file at the places that they name.

mod path;
mod program;
mod routine;

use crate::ending::{Ending, Stop};
use crate::files::{File, Form};
use crate::layout;
use crate::notation::{Names, Places};
use hpf_remap::formats::word_at;
use hpf_remap::{Refusal, refusal};

/// Whether the writer of a routine or directive file is at fault.
pub fn is_writers(number: u64) -> bool {
    (refusal::WRONG_MARK..=refusal::MIXED_ACTIONS).contains(&number)
        || number == refusal::MALFORMED_DIRECTIVES
}

/// What a refusal is about.
struct Subject<'a> {
    bytes: &'a [u8],
    names: &'a Names,
    places: Option<&'a Places>,
}

impl<'a> Subject<'a> {
    fn new(file: &'a File) -> Subject<'a> {
        Subject {
            bytes: &file.bytes,
            names: &file.names,
            places: file.places.as_ref(),
        }
    }

    /// The number whose first byte this is; 0 beyond the file.
    fn word(&self, at: usize) -> usize {
        word_at(self.bytes, at).map_or(0, usize::from)
    }

    fn byte(&self, at: usize) -> u8 {
        self.bytes.get(at).copied().unwrap_or(0)
    }

    /// A thing by its number, and by its name and line where there is a text.
    fn thing(
        &self,
        noun: &str,
        number: usize,
        names: &[String],
        lines: impl Fn(&'a Places) -> &'a [usize],
    ) -> String {
        let line = self.places.and_then(|places| lines(places).get(number));
        match (names.get(number), line) {
            (Some(name), Some(line)) => format!("{noun} `{name}` (number {number}, line {line})"),
            (Some(name), None) => format!("{noun} `{name}` (number {number})"),
            (None, Some(line)) => format!("{noun} {number} (line {line})"),
            (None, None) => format!("{noun} {number}"),
        }
    }

    fn array(&self, number: usize) -> String {
        self.thing("array", number, &self.names.arrays, |p| &p.arrays)
    }

    fn template(&self, number: usize) -> String {
        self.thing("template", number, &self.names.templates, |p| &p.templates)
    }

    /// The line of the vertex from which an edge leads.
    fn line_of_edge(&self, from: u16) -> String {
        let places = self.places.map(|places| &places.vertices);
        let line = places.and_then(|lines| lines.get(usize::from(from)));
        line.map_or(String::new(), |line| format!(" (line {line})"))
    }

    fn vertex(&self, number: usize) -> String {
        self.thing("vertex", number, &[], |places| &places.vertices)
    }
}

/// Whether a file is accepted, and if not, why.
pub fn explained(file: &File, path: Option<&File>) -> Ending {
    let subject = Subject::new(file);
    let routine = match file.form {
        Form::Directives => match hpf_remap::converted(&file.bytes) {
            Ok(routine) => routine,
            Err(refusal) => return refused(refusal, &program::sentence(refusal, &subject)),
        },
        Form::Routine | Form::Path => file.bytes.clone(),
    };
    let plan = match hpf_remap::planned(&routine) {
        Ok(plan) => plan,
        Err(refusal) => return refused(refusal, &routine::sentence(refusal, &subject)),
    };
    let mut text = format!("The {} is accepted.", file.form.noun());
    if file.form == Form::Directives {
        text += &format!(" It becomes a routine of {} bytes.", routine.len());
    }
    text += &format!(" The plan has {} bytes.", plan.len());
    let Some(path) = path else {
        return Ending::done(layout::wrapped(&text));
    };
    match hpf_remap::ran(&routine, &path.bytes) {
        Ok(report) => {
            text += &format!(
                "\nThe path is accepted. The report has {} bytes.",
                report.len()
            );
            Ending::done(layout::wrapped(&text))
        }
        Err(refusal) => refused(refusal, &path::sentence(refusal, &routine, &path.bytes)),
    }
}

fn refused(refusal: Refusal, sentence: &str) -> Ending {
    let sentence = layout::wrapped(sentence);
    Ending {
        output: format!("{refusal}\n{sentence}").into_bytes(),
        refused: true,
    }
}

/// What three numbers say without a file.
pub fn answer(refusal: Refusal) -> Result<Ending, Stop> {
    let Refusal {
        number,
        first,
        second,
    } = refusal;
    let Some(text) = refusal::text(number) else {
        let text = match number {
            0 => return Ok(Ending::done(format!("{first} bytes were written.\n"))),
            _ => format!("there is no refusal {number}"),
        };
        return Err(Stop::Trouble(text));
    };
    let place = match number {
        refusal::SHORT_BUFFER | refusal::SHORT_REPORT => format!("{first} bytes are needed"),
        refusal::WRONG_MARK if first > 0 => format!("it has {first} bytes"),
        refusal::WRITES_IN_ARGUMENT | refusal::AMBIGUOUS | refusal::TWO_MAPPINGS => {
            format!("vertex {first}, array {second}")
        }
        refusal::TOO_MANY_VERTICES | refusal::WRONG_PATH_LENGTH => {
            layout::counted(first as usize, "vertex", "vertices")
        }
        refusal::NO_SUCH_EDGE => format!("index {first}, step {}", first.saturating_add(1)),
        refusal::TOO_MANY_MAPPINGS => format!("array {first}"),
        _ => format!("byte {first}"),
    };
    let text = format!("{number}: {text}: {place}.");
    Ok(Ending::done(layout::wrapped(&text)))
}

/// Words as a list: a, b and c.
fn list<W: AsRef<str>>(words: &[W]) -> String {
    match words {
        [] => String::from("none"),
        [one] => String::from(one.as_ref()),
        [first @ .., last] => {
            let first: Vec<&str> = first.iter().map(AsRef::as_ref).collect();
            format!("{} and {}", first.join(", "), last.as_ref())
        }
    }
}

/// Numbers with blanks between them.
fn row<N: ToString>(numbers: &[N]) -> String {
    let numbers: Vec<String> = numbers.iter().map(N::to_string).collect();
    numbers.join(" ")
}
