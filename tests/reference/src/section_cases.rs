//! Sections for crates/section_cases, one to a line, and what it has to print.

use crate::edges::edges;
use crate::generate::worked_sections;
use crate::rising::{rising, with_all_rounds};
use crate::sheet::{ask_before_working, Figures, Numbers, Sheet};
use crate::working::{worked, Working};
use std::fmt::Display;

/// Lines of input, and the lines that are printed for them.
#[derive(Default)]
pub struct Lines {
    pub stdin: String,
    pub stdout: String,
}

impl Lines {
    fn add(&mut self, numbers: Numbers, printed: &str) {
        self.stdin += &line(&numbers);
        self.stdout += printed;
    }
}

/// The sections that were searched for.
pub fn searched() -> Lines {
    let mut lines = Lines::default();
    for (sheet, working) in worked_sections() {
        lines.add(sheet.numbers(), &result_line(&sheet, &working));
    }
    lines
}

/// The sheets of which χ rose before W-205, with each number of rounds side by side.
pub fn side_by_side() -> Lines {
    let mut lines = Lines::default();
    for (_, sheet) in rising() {
        for sheet in with_all_rounds(&sheet) {
            lines.add(sheet.numbers(), &result_line(&sheet, &worked(&sheet)));
        }
    }
    lines
}

/// The sheets at the edges. One that meets questions 2 to 10 has its line of results,
/// any other `refused`, the question and the line.
pub fn at_edges() -> Lines {
    let mut lines = Lines::default();
    for numbers in edges() {
        let printed = match ask_before_working(numbers) {
            Ok(sheet) => result_line(&sheet, &worked(&sheet)),
            Err(refusal) => format!("refused {} {}\n", refusal.number, refusal.line),
        };
        lines.add(numbers, &printed);
    }
    lines
}

/// Decimal numbers separated by one blank.
pub fn line<T: Display>(numbers: &[T]) -> String {
    let words: Vec<String> = numbers.iter().map(T::to_string).collect();
    words.join(" ") + "\n"
}

/// Ends of area, chi1, chi2 and shift, then the printed figures.
pub fn result_line(sheet: &Sheet, working: &Working) -> String {
    let [chi1, chi2] = working.parts.chi;
    let mut numbers = Vec::new();
    for pair in [working.area, chi1, chi2, working.shift] {
        numbers.extend([pair.lo, pair.hi]);
    }
    numbers.extend(Figures::of(sheet, working).numbers());
    line(&numbers)
}
