//! Runs the programs certify, verify, survey and tabulate as a user would, and compares
//! what they print with what the reference says, byte for byte:
//!
//! programs FOLDER
//!
//! FOLDER is where the four programs are.

mod catalogues;
mod failures;
mod run;
mod texts;

use reference::cases::{certificate_of, text_of};
use reference::catalogue::printed_report;
use reference::lip_table::table_text;
use reference::sheet::Sheet;
use reference::text::{printed, printed_check};
use run::{fed, fed_endlessly, from_file, Program, Tally};
use std::path::Path;
use std::process::ExitCode;
use std::{env, io, thread};
use texts::Text;

fn main() -> ExitCode {
    let arguments: Vec<String> = env::args().skip(1).collect();
    let [folder] = &arguments[..] else {
        eprintln!("programs FOLDER");
        return ExitCode::FAILURE;
    };
    match run_all(Path::new(folder)) {
        Ok(tally) => tally.report(),
        Err(error) => {
            eprintln!("programs: {error}");
            ExitCode::FAILURE
        }
    }
}

fn programs(folder: &Path) -> [Program; 4] {
    let program = |name, takes: fn(Sheet) -> String, prints: fn(&[u8]) -> String| Program {
        name,
        path: folder.join(name),
        reads: true,
        takes,
        prints,
        own: Vec::new,
    };
    let survey = Program {
        own: catalogues::all,
        ..program("survey", catalogues::catalogue_of, printed_report)
    };
    let tabulate = Program {
        reads: false,
        ..program("tabulate", text_of, |_| table_text())
    };
    [
        program("certify", text_of, printed),
        program("verify", certificate_of, printed_check),
        survey,
        tabulate,
    ]
}

/// All programs at a time.
fn run_all(folder: &Path) -> io::Result<Tally> {
    let texts = &texts::all();
    let programs = programs(folder);
    thread::scope(|scope| {
        let run = |program| scope.spawn(move || run_program(program, texts));
        let mut tally = Tally::default();
        for running in programs.each_ref().map(run) {
            tally.add(running.join().expect("a thread")?);
        }
        Ok(tally)
    })
}

/// Every text, and what cannot be read or written.
fn run_program(program: &Program, texts: &[Text]) -> io::Result<Tally> {
    let mut tally = Tally::default();
    for text in texts.iter().chain(&(program.own)()) {
        let seen = fed(program.command(), &text.bytes, text.piece);
        tally.prints(program, text, seen);
        if tally.is_enough() {
            return Ok(tally);
        }
    }
    for text in texts::endless() {
        let seen = fed_endlessly(program.command(), &text.bytes);
        tally.prints(program, &text, seen);
    }
    for path in texts::examples() {
        let text = texts::of_file(&path)?;
        tally.prints(program, &text, from_file(program, &path));
    }
    failures::unreadable(program, &mut tally);
    failures::unwritable(program, &mut tally);
    Ok(tally)
}
