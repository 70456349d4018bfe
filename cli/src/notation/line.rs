//! A line of a text, word by word.

use std::fmt;

/// The most characters of a name: as many as Fortran allows.
pub const MOST_LETTERS: usize = 63;

/// What is wrong with a text, and where.
#[derive(Clone, Debug, PartialEq, Eq)]
pub struct Fault {
    pub line: usize,
    pub column: usize,
    pub text: String,
}

impl fmt::Display for Fault {
    fn fmt(&self, out: &mut fmt::Formatter) -> fmt::Result {
        write!(out, "{}:{}: {}", self.line, self.column, self.text)
    }
}

/// A place in a text.
#[derive(Clone, Copy, Debug)]
pub struct Here {
    pub line: usize,
    pub column: usize,
}

impl Here {
    pub fn fault(self, text: impl Into<String>) -> Fault {
        Fault {
            line: self.line,
            column: self.column,
            text: text.into(),
        }
    }
}

/// The words of a line that are still to be read.
pub struct Line<'t> {
    number: usize,
    /// Each with its column.
    words: std::iter::Peekable<std::vec::IntoIter<(usize, &'t str)>>,
    /// The column behind the last word.
    end: usize,
}

/// How many bytes the first word of a text has.
fn word_length(text: &str) -> usize {
    let of_word = |letter: char| letter.is_alphanumeric() || letter == '_';
    if text.starts_with("->") {
        return 2;
    }
    match text.find(|letter| !of_word(letter)) {
        Some(0) => text.chars().next().map_or(0, char::len_utf8),
        Some(length) => length,
        None => text.len(),
    }
}

impl<'t> Line<'t> {
    /// The lines of a text that have a word. A comment is none.
    pub fn all(text: &'t str) -> impl Iterator<Item = Line<'t>> {
        let lines = text.lines().zip(1..);
        let lines = lines.map(|(line, number)| Line::new(line, number));
        lines.filter_map(|mut line| line.peek().is_some().then_some(line))
    }

    pub fn empty() -> Line<'t> {
        Line::new("", 1)
    }

    fn new(line: &'t str, number: usize) -> Line<'t> {
        let line = line.split('!').next().unwrap_or("").trim_end();
        let (mut rest, mut column, mut words) = (line, 1, Vec::new());
        while let Some(letter) = rest.chars().next() {
            let length = if letter.is_whitespace() {
                letter.len_utf8()
            } else {
                let length = word_length(rest);
                words.push((column, &rest[..length]));
                length
            };
            column += rest[..length].chars().count();
            rest = &rest[length..];
        }
        Line {
            number,
            words: words.into_iter().peekable(),
            end: column,
        }
    }

    pub fn number(&self) -> usize {
        self.number
    }

    /// Where the next word stands, or would.
    pub fn here(&mut self) -> Here {
        let column = self.words.peek().map_or(self.end, |(column, _)| *column);
        Here {
            line: self.number,
            column,
        }
    }

    pub fn peek(&mut self) -> Option<&'t str> {
        self.words.peek().map(|(_, word)| *word)
    }

    /// Takes the next word.
    pub fn next(&mut self) -> Option<&'t str> {
        self.words.next().map(|(_, word)| word)
    }

    /// Takes the next word if it is this one.
    pub fn has(&mut self, word: &str) -> bool {
        self.words.next_if(|(_, next)| *next == word).is_some()
    }

    /// A fault at the next word.
    pub fn expected<T>(&mut self, what: &str) -> Result<T, Fault> {
        Err(self.here().fault(format!("{what} is expected")))
    }

    /// Takes this word.
    pub fn word(&mut self, word: &str) -> Result<(), Fault> {
        match self.has(word) {
            true => Ok(()),
            false => self.expected(&format!("`{word}`")),
        }
    }

    /// Takes the word that one of these has, and gives that one.
    pub fn one_of<T: Copy + fmt::Display>(&mut self, all: &[T]) -> Option<T> {
        let next = self.peek()?;
        let found = all.iter().find(|one| one.to_string() == next).copied();
        if found.is_some() {
            self.next();
        }
        found
    }

    /// Takes a number that is at most `most`.
    pub fn up_to(&mut self, most: usize, what: &str) -> Result<usize, Fault> {
        let here = self.here();
        let digits = self.peek().filter(|word| {
            let mut letters = word.chars();
            letters.all(|letter| letter.is_ascii_digit())
        });
        let Some(digits) = digits else {
            return self.expected(what);
        };
        self.next();
        match digits.parse() {
            Ok(number) if number <= most => Ok(number),
            _ => Err(here.fault(format!("{what} is at most {most}"))),
        }
    }

    /// Takes a number that a byte has room for.
    pub fn byte(&mut self, what: &str) -> Result<u8, Fault> {
        self.up_to(usize::from(u8::MAX), what)
            .map(|number| number as u8)
    }

    /// Takes a number that two bytes have room for.
    pub fn two_bytes(&mut self, what: &str) -> Result<u16, Fault> {
        self.up_to(usize::from(u16::MAX), what)
            .map(|number| number as u16)
    }

    /// Takes a name that is not among these.
    pub fn new_name(&mut self, names: &[String]) -> Result<String, Fault> {
        let here = self.here();
        let of_name = |word: &&str| {
            word.starts_with(|letter: char| letter.is_ascii_alphabetic())
                && word.chars().all(|c| c.is_ascii_alphanumeric() || c == '_')
        };
        let Some(name) = self.peek().filter(of_name) else {
            return self.expected("a name");
        };
        self.next();
        if name.len() > MOST_LETTERS {
            let text = format!("a name has at most {MOST_LETTERS} characters");
            return Err(here.fault(text));
        }
        if names.iter().any(|known| known == name) {
            return Err(here.fault(format!("`{name}` is named already")));
        }
        Ok(String::from(name))
    }

    /// Takes a name that is among these, and gives its place there, which is below 256.
    pub fn known(&mut self, names: &[String], what: &str) -> Result<usize, Fault> {
        let here = self.here();
        let Some(word) = self.next() else {
            return self.expected(&format!("the name of {what}"));
        };
        match names.iter().position(|known| known == word) {
            Some(place) => Ok(place),
            None => Err(here.fault(format!("there is no {} `{word}`", bare(what)))),
        }
    }

    /// The line has no further word.
    pub fn end(&mut self) -> Result<(), Fault> {
        match self.peek() {
            None => Ok(()),
            Some(word) => Err(self.here().fault(format!("`{word}` does not belong here"))),
        }
    }
}

/// A noun without its article.
fn bare(noun: &str) -> &str {
    noun.split_once(' ').map_or(noun, |(_, noun)| noun)
}
