//! The command line.

use crate::ending::Stop;
use hpf_remap::Refusal;
use std::ffi::OsString;

/// What a command line asks for.
pub enum Asked {
    /// A text about the program itself.
    Said(String),
    Command(Command),
}

pub enum Command {
    Plan {
        routine: OsString,
        table: bool,
    },
    Run {
        routine: OsString,
        path: OsString,
        table: bool,
    },
    Watch {
        routine: OsString,
        path: OsString,
        machine: bool,
    },
    Convert {
        file: OsString,
        text: bool,
    },
    Text {
        file: OsString,
    },
    Bytes {
        file: OsString,
    },
    Explain {
        routine: OsString,
        path: Option<OsString>,
    },
    /// What three numbers say.
    Answer(Refusal),
    Dot {
        routine: OsString,
    },
}

/// What `--help` and `--version` may be asked of.
struct Topic {
    name: &'static str,
    /// How it is called.
    usage: &'static str,
    /// The options that it has.
    options: &'static [&'static str],
    /// How many files it takes, at least and at most.
    files: (usize, usize),
    help: &'static str,
}

const TABLE: &str = "--table";
const MACHINE: &str = "--machine";
const TEXT: &str = "--text";
const ANSWER: &str = "--answer";

const HELP: &str = "\
hpf shows what the planner of array remappings does with a routine.

  hpf plan ROUTINE          the plan, a line for each label
  hpf run ROUTINE PATH      the report on a path
  hpf watch ROUTINE PATH    every step of a path: which copy is current, which
                            are live, where something is copied
  hpf explain ROUTINE [PATH]
                            why a file is refused, and what would mend it
  hpf dot ROUTINE           control flow and labels, for Graphviz
  hpf text FILE             a file in words
  hpf bytes FILE            a file in bytes
  hpf convert DIRECTIVES    the routine that a directive file becomes

  hpf COMMAND --help        more about a command
  hpf --version             the version

A file may be in bytes or in words; - is standard input. ROUTINE may be a
directive file too, which is converted first. docs/NOTATION.md has the words,
docs/FORMATS.md and docs/DIRECTIVES.md the bytes.

Exit status: 0 done; 1 refused by the library, whose three numbers are printed;
2 trouble with a file, an argument or the output, told on standard error.
";

const TOPICS: [Topic; 8] = [
    Topic {
        name: "plan",
        usage: "hpf plan [--table] ROUTINE",
        options: &[TABLE],
        files: (1, 1),
        help: "\
Prints the plan of a routine, a line for each label: vertex of the expanded
routine, array, use, leaving version, reaching set and kept set, the sets in
hexadecimal. These are the lines of the program planner.

  --table   the same in columns, with the arrays' names
",
    },
    Topic {
        name: "run",
        usage: "hpf run [--table] ROUTINE PATH",
        options: &[TABLE],
        files: (2, 2),
        help: "\
Runs a path through a routine, and prints the report: a line for each array
(copies, live set, current version or 255), for each reference on the path
(step, array, version, kind, stamp seen, new stamp), and for each edge of the
expanded routine (how often it was passed). These are the lines of the program
runner, which takes no path beyond 512 vertices.

  --table   the same in columns, with the arrays' names
",
    },
    Topic {
        name: "watch",
        usage: "hpf watch [--machine] ROUTINE PATH",
        options: &[MACHINE],
        files: (2, 2),
        help: "\
Follows a path, and prints for every step what it does with each array, and the
flags of the array's versions after it, version 0 first:

  C  current
  L  live: it may be taken up again without a copy
  .  dead
  x  dead from this step on: freed, unless it is the caller's

Before the flags there may be a mark:

  +  the current copy was copied to here
  =  a live copy was taken up again, and nothing copied
  ?  the read or modify sees a value that was never given, or was killed

A remapping is shown with its letter: N it is dropped, D the old value is not
needed, R it is only read, W it may be written. At the end the copies of each
array are told, and those that copying at every remapping makes.

  --machine   also what copying at every remapping holds: version and stamp
",
    },
    Topic {
        name: "explain",
        usage: "hpf explain ROUTINE [PATH]\n       hpf explain --answer NUMBER [FIRST [SECOND]]",
        options: &[ANSWER],
        files: (1, 3),
        help: "\
Tells whether a routine, and a path through it, is accepted. If not: the three
numbers of the refusal, and what a person needs to mend the file. The exit
status is 1 for a file that is refused.

  --answer   what three numbers say, without a file
",
    },
    Topic {
        name: "dot",
        usage: "hpf dot ROUTINE",
        options: &[],
        files: (1, 1),
        help: "\
Prints the control flow of the expanded routine with its labels, for Graphviz:
a box for each vertex with its actions, a note for each label with its letter,
the versions that reach it and the version in which the array leaves it. Dropped
labels are dashed.

  hpf dot routine | dot -Tsvg > routine.svg
",
    },
    Topic {
        name: "text",
        usage: "hpf text FILE",
        options: &[],
        files: (1, 1),
        help: "\
Prints a routine, a directive file or a path in words. A text is printed anew,
with its names and without its comments.
",
    },
    Topic {
        name: "bytes",
        usage: "hpf bytes FILE",
        options: &[],
        files: (1, 1),
        help: "\
Writes the bytes that a text says. A routine or directive file that is
malformed is refused, and not written.
",
    },
    Topic {
        name: "convert",
        usage: "hpf convert [--text] DIRECTIVES",
        options: &[TEXT],
        files: (1, 1),
        help: "\
Writes the routine that a directive file becomes, as the program converter does.

  --text   in words, with the arrays' names
",
    },
];

fn trouble<T>(text: impl Into<String>) -> Result<T, Stop> {
    Err(Stop::Trouble(text.into()))
}

/// Reads a command line, without the program's name.
pub fn read(words: impl IntoIterator<Item = OsString>) -> Result<Asked, Stop> {
    let mut words = words.into_iter();
    let Some(first) = words.next() else {
        return trouble("a command is missing; hpf --help lists them");
    };
    let word = first.to_string_lossy();
    match word.as_ref() {
        "--help" | "-h" | "help" => return Ok(Asked::Said(String::from(HELP))),
        "--version" | "-V" => return Ok(Asked::Said(version())),
        _ => {}
    }
    match TOPICS.iter().find(|topic| topic.name == word) {
        Some(topic) => topic.read(words),
        None => trouble(format!("there is no command {word}; hpf --help lists them")),
    }
}

fn version() -> String {
    format!("hpf {}\n", env!("CARGO_PKG_VERSION"))
}

impl Topic {
    fn trouble<T>(&self, text: &str) -> Result<T, Stop> {
        trouble(format!("{text}\nusage: {}", self.usage))
    }

    /// Reads what follows the command's name.
    fn read(&self, words: impl Iterator<Item = OsString>) -> Result<Asked, Stop> {
        let (mut options, mut files) = (Vec::new(), Vec::new());
        let mut are_files = false;
        for word in words {
            let text = word.to_string_lossy();
            if are_files || text == "-" || !text.starts_with('-') {
                files.push(word);
            } else if text == "--" {
                are_files = true;
            } else if text == "--help" || text == "-h" {
                let text = format!("usage: {}\n\n{}", self.usage, self.help);
                return Ok(Asked::Said(text));
            } else if let Some(option) = self.options.iter().find(|option| **option == text) {
                options.push(*option);
            } else {
                return self.trouble(&format!("hpf {} has no option {text}", self.name));
            }
        }
        let (least, most) = self.files;
        if files.len() < least {
            return self.trouble("a file is missing");
        }
        if files.len() > most {
            return self.trouble("there are too many files");
        }
        self.command(&options, files).map(Asked::Command)
    }

    fn command(&self, options: &[&str], files: Vec<OsString>) -> Result<Command, Stop> {
        let has = |option| options.contains(&option);
        let mut files = files.into_iter();
        let count = files.len();
        let mut file = || files.next().unwrap_or_default();
        Ok(match self.name {
            "plan" => Command::Plan {
                routine: file(),
                table: has(TABLE),
            },
            "run" => Command::Run {
                routine: file(),
                path: file(),
                table: has(TABLE),
            },
            "watch" => Command::Watch {
                routine: file(),
                path: file(),
                machine: has(MACHINE),
            },
            "text" => Command::Text { file: file() },
            "bytes" => Command::Bytes { file: file() },
            "convert" => Command::Convert {
                file: file(),
                text: has(TEXT),
            },
            "dot" => Command::Dot { routine: file() },
            _ if has(ANSWER) => Command::Answer(self.answer(files.collect())?),
            _ if count > 2 => return self.trouble("there are too many files"),
            _ => Command::Explain {
                routine: file(),
                path: files.next(),
            },
        })
    }

    /// Up to three numbers.
    fn answer(&self, words: Vec<OsString>) -> Result<Refusal, Stop> {
        let mut numbers = [0; 3];
        for (number, word) in numbers.iter_mut().zip(&words) {
            let word = word.to_string_lossy();
            *number = match word.parse() {
                Ok(number) => number,
                Err(_) => return self.trouble(&format!("{word} is no number")),
            };
        }
        let [number, first, second] = numbers;
        Ok(Refusal {
            number,
            first,
            second,
        })
    }
}
