//! Sheets that are used by name, their numbers in the order of the lines.

use crate::sheet::Sheet;

/// Sheet B, the profile of source 002.
pub const SHEET_B: Sheet = Sheet::from_numbers([
    0, 20000, 7400, 6600, 2080, 300, 200, 196, 350, 1000, 1, 10, 1,
]);

/// Sheet A, the ninth marked case.
pub const SHEET_A: Sheet =
    Sheet::from_numbers([0, 7200, 4200, 4200, 1600, 300, 200, 200, 235, 1000, 0, 0, 1]);

/// The thirteenth marked case: 5c = 3b, which question 7 passes and question 9,
/// on the mid-lines, refuses.
pub const LIP_LONG_ON_MID_LINES: Sheet = Sheet {
    b1: 2000,
    b2: 2000,
    c: 1200,
    r: 0,
    tnom: 100,
    t: 95,
    ..SHEET_A
};

/// The longest lip that the questions leave on the lowest web.
pub const LONGEST_LIP: Sheet = Sheet::from_numbers([
    1, 4000, 20000, 20000, 11966, 0, 334, 334, 200, 1500, 8, 1000, 1,
]);
