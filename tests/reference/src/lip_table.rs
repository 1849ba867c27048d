//! The table of a lip's coefficient k over its ratio, and the lookup of k in it
//! (document 02, W-203).

use crate::pair::{Pair, Scale};
use crate::rules::lip_coefficient;
use crate::sheet::Refusal;
use crate::text::{write_text, Answer};
use std::sync::LazyLock;

/// The least ratio, the greatest, and the step from one entry to the next, in millionths.
pub const LEAST: u64 = 350_000;
pub const GREATEST: u64 = 600_000;
pub const STEP: u64 = 1_000;

/// So many entries.
pub const ENTRIES: usize = 251;

/// How long the table's text is.
pub const TABLE_LENGTH: usize = 3_514;

/// k at a ratio in millionths, worked at m times the scale.
pub fn worked_coefficient(ratio: u64, m: i128) -> Pair {
    finely_worked(m * i128::from(ratio), m)
}

/// The same at a ratio in units of that scale, which may have more places.
pub fn finely_worked(units: i128, m: i128) -> Pair {
    lip_coefficient(Scale::multiple(m).pair(units, units))
}

/// A ratio and the ends of its k, in millionths.
#[derive(Clone, Copy, Debug, PartialEq, Eq)]
pub struct Entry {
    pub ratio: u64,
    pub lower: u64,
    pub upper: u64,
}

impl Entry {
    fn at(ratio: u64) -> Entry {
        let k = worked_coefficient(ratio, 1);
        Entry {
            ratio,
            lower: k.lo as u64,
            upper: k.hi as u64,
        }
    }
}

/// The entries, from the least ratio to the greatest.
pub fn table() -> &'static [Entry] {
    static TABLE: LazyLock<Vec<Entry>> = LazyLock::new(|| {
        let ratios = (LEAST..=GREATEST).step_by(STEP as usize);
        ratios.map(Entry::at).collect()
    });
    &TABLE
}

/// The entries' ratios, and those a millionth below and above them, in the table.
pub fn ratios_near_entries() -> impl Iterator<Item = u64> {
    let near = |entry: &Entry| entry.ratio - 1..=entry.ratio + 1;
    let ratios = table().iter().flat_map(near);
    ratios.filter(|ratio| (LEAST..=GREATEST).contains(ratio))
}

/// What the program prints: a line for each entry, one blank between the ends.
pub fn table_text() -> String {
    let line = |entry: &Entry| format!("{} {}\n", entry.lower, entry.upper);
    table().iter().map(line).collect()
}

/// The table, into the buffer.
pub fn write_table(buffer: &mut [u8]) -> Answer {
    write_text(&table_text(), buffer)
}

/// What the lookup returns, as include/honemagenta.h has it: an answer whose length is
/// always 0, and the ends of k in millionths.
#[repr(C)]
#[derive(Clone, Copy, Debug, PartialEq, Eq)]
pub struct Coefficient {
    pub answer: Answer,
    pub lower: u64,
    pub upper: u64,
}

impl Coefficient {
    /// Whether both ends of k, worked at m times the scale, lie between these.
    pub fn holds(&self, k: Pair, m: i128) -> bool {
        let [lower, upper] = [self.lower, self.upper].map(|end| m * i128::from(end));
        [k.lo, k.hi].iter().all(|end| (lower..=upper).contains(end))
    }
}

/// For a ratio in millionths, the lower end of the entry at or below it and the upper end
/// of the entry at or above it. Question 16: are there both?
pub fn coefficient(ratio: u64) -> Coefficient {
    let below = table().iter().rfind(|entry| entry.ratio <= ratio);
    let above = table().iter().find(|entry| entry.ratio >= ratio);
    match (below, above) {
        (Some(below), Some(above)) => Coefficient {
            answer: Answer::in_order(0),
            lower: below.lower,
            upper: above.upper,
        },
        _ => Coefficient {
            answer: Answer::refused(Refusal {
                number: 16,
                line: 0,
            }),
            lower: 0,
            upper: 0,
        },
    }
}
