//! Sheets at the edges of questions 2 to 10: for each number of a section,
//! the last value on either side that passes, the first that does not, the ends
//! of its range and the numbers just past them.

use crate::generate::sections;
use crate::named::{LONGEST_LIP, SHEET_A, SHEET_B};
use crate::random::meets_questions;
use crate::sheet::{Numbers, Sheet, RANGES};

/// Two neighbours from the sheet's own value, which passes, to `outside`, which does
/// not: the first passes, the second does not.
fn edge(sheet: &Sheet, place: usize, outside: u64) -> [u64; 2] {
    let mut inside = sheet.numbers()[place];
    let mut outside = outside;
    while inside.abs_diff(outside) > 1 {
        let middle = inside.min(outside) + inside.abs_diff(outside) / 2;
        if meets_questions(&sheet.with_number(place, middle)) {
            inside = middle;
        } else {
            outside = middle;
        }
    }
    [inside, outside]
}

fn edges_of(sheet: &Sheet) -> Vec<Sheet> {
    let mut found = Vec::new();
    for (place, range) in RANGES.into_iter().enumerate() {
        let with = |value| sheet.with_number(place, value);
        found.extend(range.ends_and_beside().into_iter().map(with));
        for outside in [0, u64::MAX] {
            if !meets_questions(&with(outside)) {
                found.extend(edge(sheet, place, outside).map(with));
            }
        }
    }
    found
}

/// The edges of sheets A and B, of the longest lip and of some other sections,
/// and a sheet of the largest numbers.
pub fn edges() -> Vec<Numbers> {
    let mut bases = vec![SHEET_A, SHEET_B, LONGEST_LIP];
    bases.extend(sections().into_iter().skip(3).step_by(80));
    let mut found: Vec<Sheet> = bases.iter().flat_map(edges_of).collect();
    found.push(Sheet::from_numbers([u64::MAX; Sheet::LINES]));
    found.iter().map(Sheet::numbers).collect()
}
