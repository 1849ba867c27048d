//! Makes what crates/section_cases reads and has to print: its sections, sheets at the
//! edges of the questions, and sheets with each number of rounds side by side.
//!
//! section_cases [--write]

use reference::kept::{hold_or_write, Made};
use reference::section_cases::{at_edges, searched, side_by_side};
use std::process::ExitCode;

fn main() -> ExitCode {
    let parts = [searched(), at_edges(), side_by_side()];
    let stdin = parts.each_ref().map(|part| part.stdin.as_str()).concat();
    let stdout = parts.each_ref().map(|part| part.stdout.as_str()).concat();
    let sections = stdin.lines().count();
    let mut made = Made::default();
    made.file("crates/section_cases/stdin", stdin);
    made.file("crates/section_cases/stdout", stdout);
    hold_or_write("section cases", &format!("{sections} sections"), &made)
}
