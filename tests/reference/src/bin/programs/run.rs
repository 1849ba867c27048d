//! One run of a program, and whether it was as it should be.

use crate::texts::Text;
use reference::sheet::Sheet;
use std::fs::File;
use std::io::{self, ErrorKind, Write};
use std::path::{Path, PathBuf};
use std::process::{Child, ChildStdin, Command, ExitCode, Output, Stdio};
use std::sync::mpsc::{self, RecvTimeoutError};
use std::time::Duration;
use std::{iter, thread};

/// A program that has not ended by then is ended.
const LIMIT: Duration = Duration::from_secs(10);

/// Between two pieces of a text.
const PAUSE: Duration = Duration::from_millis(2);

/// The whole text is one piece.
pub const AT_ONCE: usize = usize::MAX;

/// So many runs that are not as they should be are enough.
const ENOUGH: usize = 10;

pub struct Program {
    pub name: &'static str,
    pub path: PathBuf,
    /// Whether it reads its input. One that does not is given the same texts.
    pub reads: bool,
    /// The text of a sheet that is accepted.
    pub takes: fn(Sheet) -> String,
    /// What the reference says that it prints, for a text of any length.
    pub prints: fn(&[u8]) -> String,
    /// The texts that only this one is given.
    pub own: fn() -> Vec<Text>,
}

impl Program {
    pub fn command(&self) -> Command {
        piped(Command::new(&self.path))
    }

    /// The program with a redirection of the shell.
    pub fn redirected(&self, redirection: &str) -> Command {
        let mut command = Command::new("sh");
        let script = format!("exec \"$0\" {redirection}");
        command.arg("-c").arg(script).arg(&self.path);
        piped(command)
    }
}

fn piped(mut command: Command) -> Command {
    command.stdout(Stdio::piped()).stderr(Stdio::piped());
    command
}

/// Gives the text through a pipe, in pieces of so many bytes.
pub fn fed(command: Command, text: &[u8], piece: usize) -> io::Result<Output> {
    fed_pieces(command, text.chunks(piece))
}

/// Gives the text over and over, and no end.
pub fn fed_endlessly(command: Command, text: &[u8]) -> io::Result<Output> {
    fed_pieces(command, iter::repeat(text))
}

fn fed_pieces<'a>(
    mut command: Command,
    pieces: impl Iterator<Item = &'a [u8]> + Send,
) -> io::Result<Output> {
    let mut child = command.stdin(Stdio::piped()).spawn()?;
    let input = child.stdin.take().expect("a pipe");
    thread::scope(|scope| {
        let feeding = scope.spawn(|| feed(input, pieces));
        let output = ended(child);
        feeding.join().expect("a thread")?;
        output
    })
}

/// A program that has read enough may close its end.
fn feed<'a>(mut input: ChildStdin, pieces: impl Iterator<Item = &'a [u8]>) -> io::Result<()> {
    for (i, bytes) in pieces.enumerate() {
        if i > 0 {
            thread::sleep(PAUSE);
        }
        match input.write_all(bytes) {
            Err(error) if error.kind() == ErrorKind::BrokenPipe => return Ok(()),
            written => written?,
        }
    }
    Ok(())
}

pub fn from_file(program: &Program, path: &Path) -> io::Result<Output> {
    ended(program.command().stdin(File::open(path)?).spawn()?)
}

/// What a program has printed when it ends.
pub fn ended(child: Child) -> io::Result<Output> {
    let id = child.id().to_string();
    let (running, watched) = mpsc::channel::<()>();
    thread::scope(|scope| {
        scope.spawn(move || {
            if watched.recv_timeout(LIMIT) == Err(RecvTimeoutError::Timeout) {
                let _ = Command::new("kill").args(["-KILL", &id]).status();
            }
        });
        let output = child.wait_with_output();
        drop(running);
        output
    })
}

/// How many runs there were, and those that are not as they should be.
#[derive(Default)]
pub struct Tally {
    runs: usize,
    faults: Vec<String>,
}

impl Tally {
    /// The run prints what the reference says, and nothing on standard error.
    pub fn prints(&mut self, program: &Program, text: &Text, seen: io::Result<Output>) {
        let expected = (program.prints)(&text.bytes);
        let what = format!("{}, the text {}", text.name, shown(&text.bytes));
        self.hold(program, &what, seen, (&expected, ""));
    }

    /// The run prints just so on standard output and standard error. It ends by
    /// itself and, where nothing is to be said on standard error, with status 0.
    pub fn hold(
        &mut self,
        program: &Program,
        what: &str,
        seen: io::Result<Output>,
        (stdout, stderr): (&str, &str),
    ) {
        self.runs += 1;
        let fault = match seen {
            Ok(seen) => difference(&seen, stdout, stderr),
            Err(error) => Some(error.to_string()),
        };
        if let Some(fault) = fault {
            self.faults
                .push(format!("{}: {what}\n{fault}", program.name));
        }
    }

    pub fn add(&mut self, other: Tally) {
        self.runs += other.runs;
        self.faults.extend(other.faults);
    }

    pub fn is_enough(&self) -> bool {
        self.faults.len() >= ENOUGH
    }

    pub fn report(self) -> ExitCode {
        let Tally { runs, faults } = self;
        if faults.is_empty() {
            println!(
                "programs: {runs} runs of certify, verify, survey and tabulate, as the reference says"
            );
            return ExitCode::SUCCESS;
        }
        for fault in &faults {
            println!("{fault}\n");
        }
        println!(
            "programs: {} of {runs} runs are not as they should be",
            faults.len()
        );
        ExitCode::FAILURE
    }
}

/// How a run differs from what it should be, if it does.
fn difference(seen: &Output, stdout: &str, stderr: &str) -> Option<String> {
    let ended = match stderr {
        "" => seen.status.success(),
        _ => seen.status.code().is_some(),
    };
    if ended && seen.stdout == stdout.as_bytes() && seen.stderr == stderr.as_bytes() {
        return None;
    }
    Some(format!(
        "  seen:     stdout {}, stderr {}, {}\n  expected: stdout {}, stderr {}",
        shown(&seen.stdout),
        shown(&seen.stderr),
        seen.status,
        shown(stdout.as_bytes()),
        shown(stderr.as_bytes()),
    ))
}

/// Bytes for a report, not too many.
pub fn shown(bytes: &[u8]) -> String {
    let first = &bytes[..bytes.len().min(300)];
    let rest = bytes.len() - first.len();
    let more = match rest {
        0 => String::new(),
        _ => format!(" and {rest} bytes more"),
    };
    format!("\"{}\"{more}", first.escape_ascii())
}
