//! Input that cannot be read and output that cannot be written. A read that
//! fails is not the end of the input.

use crate::run::{ended, fed, from_file, shown, Program, Tally, AT_ONCE};
use reference::named::SHEET_B;
use std::fs::File;
use std::io::{self, Write};
use std::os::fd::OwnedFd;
use std::os::unix::net::UnixStream;
use std::path::Path;
use std::process::{Command, Output};

/// Nothing is printed, and one line says that the input could not be read. A program that
/// does not read prints what it prints for any input.
pub fn unreadable(program: &Program, tally: &mut Tally) {
    let line = format!("{}: the input could not be read\n", program.name);
    let always = (program.prints)(b"");
    let expected = match program.reads {
        true => ("", &*line),
        false => (&*always, ""),
    };
    let text = (program.takes)(SHEET_B);
    let half = &text[..text.len() / 2];
    for (what, seen) in [
        ("closed standard input", closed_input(program)),
        ("a directory", from_file(program, Path::new("."))),
        ("no byte has come yet", waiting(program, "")),
        ("half a text has come", waiting(program, half)),
        ("a text has come, and no end", waiting(program, &text)),
    ] {
        tally.hold(program, what, seen, expected);
    }
}

fn closed_input(program: &Program) -> io::Result<Output> {
    ended(program.redirected("<&-").spawn()?)
}

/// The input is not blocking: so much of it has come, and its end has not.
fn waiting(program: &Program, come: &str) -> io::Result<Output> {
    let (mut ours, theirs) = UnixStream::pair()?;
    theirs.set_nonblocking(true)?;
    ours.write_all(come.as_bytes())?;
    let child = program.command().stdin(OwnedFd::from(theirs)).spawn()?;
    let output = ended(child);
    drop(ours);
    output
}

/// Whatever is to be printed, one line says that the output could not be written.
pub fn unwritable(program: &Program, tally: &mut Tally) {
    let line = format!("{}: the output could not be written\n", program.name);
    for text in [(program.takes)(SHEET_B), String::new()] {
        let run = |command| fed(command, text.as_bytes(), AT_ONCE);
        for (what, seen) in [
            ("a full disk", full_disk(program).and_then(run)),
            ("closed standard output", run(program.redirected(">&-"))),
        ] {
            let what = format!("{what}, the text {}", shown(text.as_bytes()));
            tally.hold(program, &what, seen, ("", &line));
        }
    }
}

fn full_disk(program: &Program) -> io::Result<Command> {
    let mut command = program.command();
    command.stdout(File::options().write(true).open("/dev/full")?);
    Ok(command)
}
