//! Makes section 18 of docs/WORKING.md, from its heading to the end of the file: sheet
//! B worked with every pair.
//!
//! worked_example [--write]

use reference::kept::{hold_or_write, Made};
use reference::repository::file_text;
use reference::steps::UNITS;
use reference::worked_example::{worked_example, HEADING};
use std::process::ExitCode;

const FILE: &str = "docs/WORKING.md";

fn main() -> ExitCode {
    let text = file_text(FILE);
    let [before, _] = text.split(&format!("\n{HEADING}\n")).collect::<Vec<_>>()[..] else {
        eprintln!("{FILE} has to have the heading '{HEADING}' once");
        return ExitCode::FAILURE;
    };
    let section = worked_example();
    let steps = section.lines().filter(|line| is_step(line)).count();
    let mut made = Made::default();
    made.file(FILE, format!("{before}\n{section}"));
    hold_or_write("worked example", &format!("{steps} steps"), &made)
}

/// A row whose last cell is a unit.
fn is_step(line: &str) -> bool {
    let last = line.trim_end_matches(" |").rsplit("| ").next();
    last.is_some_and(|cell| UNITS.contains(&cell))
}
