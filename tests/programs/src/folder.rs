//! The programs, run in a folder of their own.

use crate::expected::{Met, program};
use harness::library::Input;
use std::ffi::OsStr;
use std::fs::{self, File, Permissions};
use std::io::{self, Error, ErrorKind, Read, Result, Write};
use std::os::fd::OwnedFd;
use std::os::unix::fs::{PermissionsExt, symlink};
use std::os::unix::net::UnixStream;
use std::path::PathBuf;
use std::process::{self, Command, ExitStatus, Output, Stdio};
use std::thread;
use std::time::Duration;

/// What the runner finds under the name of a file.
#[derive(Clone, Copy)]
pub enum Content<'a> {
    Bytes(&'a [u8]),
    Missing,
    /// A link to itself.
    Loop,
    /// A file that only root may open.
    Forbidden,
    /// A folder: it can be opened, but not read.
    Folder,
}

impl Content<'_> {
    pub fn met(self) -> Met {
        match self {
            Content::Bytes(_) => Met::End,
            Content::Missing | Content::Loop | Content::Forbidden => Met::Unopened,
            Content::Folder => Met::Unread,
        }
    }
}

/// What a program left.
pub struct Left {
    pub output: Vec<u8>,
    pub errors: Vec<u8>,
    pub status: ExitStatus,
}

impl From<Output> for Left {
    fn from(output: Output) -> Left {
        Left {
            output: output.stdout,
            errors: output.stderr,
            status: output.status,
        }
    }
}

/// A standard output that takes no byte, or only some.
#[derive(Clone, Copy, Debug, PartialEq, Eq)]
pub enum Sink {
    /// A full device.
    Full,
    /// None: the descriptor is closed.
    Closed,
    /// A pipe that nobody reads; the signal that it sends is ignored.
    Unread,
    /// The same, with the signal as the system has it: a program's start sets it aside.
    Signalled,
    /// A file that may not grow beyond some 512 bytes.
    Limited,
}

impl Sink {
    pub const ALL: [Sink; 5] = [
        Sink::Full,
        Sink::Closed,
        Sink::Unread,
        Sink::Signalled,
        Sink::Limited,
    ];

    /// What the shell runs, once a line has come.
    fn script(self) -> &'static str {
        match self {
            Sink::Full => r#"read -r go; exec "$0" <routine >/dev/full"#,
            Sink::Closed => r#"read -r go; exec "$0" <routine >&-"#,
            Sink::Unread => r#"read -r go; trap '' PIPE; exec "$0" <routine"#,
            Sink::Signalled => r#"read -r go; exec "$0" <routine"#,
            Sink::Limited => r#"read -r go; trap '' XFSZ; ulimit -f 1; exec "$0" <routine >output"#,
        }
    }
}

/// A temporary folder, and the folder of the programs.
pub struct Folder {
    work: PathBuf,
    programs: PathBuf,
}

impl Folder {
    pub fn new(programs: PathBuf) -> Result<Folder> {
        for name in ["planner", "runner", "converter"] {
            let program = programs.join(name);
            let named = |error| Error::other(format!("{}: {error}", program.display()));
            fs::metadata(&program).map_err(named)?;
        }
        let work = std::env::temp_dir().join(format!("hpf-programs-{}", process::id()));
        fs::create_dir(&work)?;
        Ok(Folder { work, programs })
    }

    fn start(&self, program: impl AsRef<OsStr>) -> Command {
        let mut command = Command::new(program);
        command
            .current_dir(&self.work)
            .stdin(Stdio::null())
            .stdout(Stdio::piped())
            .stderr(Stdio::piped());
        command
    }

    fn command(&self, name: &str) -> Command {
        self.start(self.programs.join(name))
    }

    /// A shell that runs the script, with the program as `$0`.
    fn shell(&self, script: &str, name: &str) -> Command {
        let mut command = self.start("sh");
        command.arg("-c").arg(script).arg(self.programs.join(name));
        command
    }

    /// What a program leaves for a standard input that comes in these pieces.
    pub fn fed(&self, name: &str, pieces: &[&[u8]]) -> Result<Left> {
        let mut child = self.command(name).stdin(Stdio::piped()).spawn()?;
        if let Some(mut input) = child.stdin.take() {
            for (index, piece) in pieces.iter().enumerate() {
                if index > 0 {
                    // The program is to meet the end of one piece before the next comes.
                    thread::sleep(Duration::from_millis(1));
                }
                match input.write_all(piece) {
                    // It need not read what no file of its kind has room for.
                    Err(error) if error.kind() == ErrorKind::BrokenPipe => break,
                    written => written?,
                }
            }
        }
        child.wait_with_output().map(Left::from)
    }

    /// What a program leaves for a standard input that has these bytes, and then fails.
    pub fn fed_and_cut(&self, name: &str, bytes: &[u8]) -> Result<Left> {
        let (mut fed, input) = UnixStream::pair()?;
        input.set_nonblocking(true)?;
        fed.write_all(bytes)?;
        // With `fed` still open, the read after the last byte would have to wait.
        let mut command = self.command(name);
        command.stdin(OwnedFd::from(input)).output().map(Left::from)
    }

    /// What a program leaves for a standard input that is open, but cannot be read.
    pub fn fed_by_folder(&self, name: &str) -> Result<Left> {
        let folder = File::open(&self.work)?;
        let mut command = self.command(name);
        command.stdin(folder).output().map(Left::from)
    }

    /// What a program leaves without a standard input.
    pub fn not_fed(&self, name: &str) -> Result<Left> {
        let mut command = self.shell(r#"exec "$0" <&-"#, name);
        command.output().map(Left::from)
    }

    /// What the runner leaves for these files.
    pub fn runner(&self, routine: Content, path: Content) -> Result<Left> {
        self.set("routine", routine)?;
        self.set("path", path)?;
        self.command("runner").output().map(Left::from)
    }

    /// What the input's program leaves where it cannot write all of its output, and how often it
    /// wrote, if the system counts that.
    pub fn unwritten(&self, input: &Input, sink: Sink) -> Result<(Left, Option<u64>)> {
        let path = input.path().unwrap_or_default();
        self.set("routine", Content::Bytes(input.file()))?;
        self.set("path", Content::Bytes(path))?;
        self.set("output", Content::Bytes(&[]))?;
        let mut command = self.shell(sink.script(), program(input));
        if sink == Sink::Unread || sink == Sink::Signalled {
            let (_, writer) = io::pipe()?;
            command.stdout(writer);
        }
        let mut child = command.stdin(Stdio::piped()).spawn()?;
        // The counts of a process that has ended are kept from all but root, unless they are open.
        let counts = File::open(format!("/proc/{}/io", child.id()));
        if let Some(mut input) = child.stdin.take() {
            input.write_all(b"\n")?;
        }
        let mut errors = Vec::new();
        if let Some(mut stream) = child.stderr.take() {
            stream.read_to_end(&mut errors)?;
        }
        // Standard error has ended, so the program has; until it is waited for, its counts stand.
        let writes = counts.ok().and_then(writes);
        let left = Left {
            output: fs::read(self.work.join("output"))?,
            errors,
            status: child.wait()?,
        };
        Ok((left, writes))
    }

    /// All that the runner is to take as these bytes.
    pub fn contents<'a>(&self, bytes: &'a [u8]) -> Result<Vec<Content<'a>>> {
        let mut all = vec![Content::Bytes(bytes)];
        if bytes.is_empty() {
            all.extend([Content::Missing, Content::Loop, Content::Folder]);
            if self.forbids()? {
                all.push(Content::Forbidden);
            }
        }
        Ok(all)
    }

    /// Whether a file can be kept from this user, who is then not root.
    fn forbids(&self) -> Result<bool> {
        self.set("routine", Content::Forbidden)?;
        Ok(File::open(self.work.join("routine")).is_err())
    }

    fn set(&self, name: &str, content: Content) -> Result<()> {
        let file = self.work.join(name);
        let removed = match fs::symlink_metadata(&file) {
            Ok(old) if old.is_dir() => fs::remove_dir(&file),
            Ok(_) => fs::remove_file(&file),
            Err(error) if error.kind() == ErrorKind::NotFound => Ok(()),
            Err(error) => Err(error),
        };
        removed?;
        match content {
            Content::Bytes(bytes) => fs::write(file, bytes),
            Content::Missing => Ok(()),
            Content::Loop => symlink(name, file),
            Content::Forbidden => {
                fs::write(&file, [0; 2])?;
                fs::set_permissions(file, Permissions::from_mode(0))
            }
            Content::Folder => fs::create_dir(file),
        }
    }
}

impl Drop for Folder {
    fn drop(&mut self) {
        // A folder that stays does no harm.
        let _ = fs::remove_dir_all(&self.work);
    }
}

/// How often a process has called `write`, by its counts.
fn writes(counts: File) -> Option<u64> {
    let counts = io::read_to_string(counts).ok()?;
    let line = counts.lines().find_map(|line| line.strip_prefix("syscw: "));
    line?.parse().ok()
}
