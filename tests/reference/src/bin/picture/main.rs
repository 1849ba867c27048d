//! Makes docs/sheet_b.svg: sheet B to scale on its mid-lines, what counts drawn
//! full and what does not drawn pale, with the printed figures.
//!
//! picture [--write]

mod dimensions;
mod legend;
mod section;
mod svg;

use reference::kept::{hold_or_write, Made};
use reference::named::SHEET_B;
use reference::sheet::{ask_numbers, Accepted};
use section::Section;
use std::process::ExitCode;
use svg::Svg;

fn main() -> ExitCode {
    let accepted = ask_numbers(SHEET_B.numbers()).expect("sheet B is accepted");
    let mut made = Made::default();
    made.file("docs/sheet_b.svg", picture(&accepted));
    hold_or_write("picture", "sheet B", &made)
}

fn picture(accepted: &Accepted) -> String {
    let section = Section::of(&accepted.working);
    let mut svg = Svg::default();
    legend::heading(&mut svg, &accepted.sheet);
    section.walls(&mut svg);
    dimensions::all(&mut svg, &section);
    dimensions::axes(&mut svg, &section, &accepted.figures);
    legend::figures(&mut svg, accepted);
    legend::fills(&mut svg, &section);
    legend::scale(&mut svg);
    svg.finished("Sheet B to scale: what counts of it, and what does not")
}
