//! Random sections over the whole ranges, which meet questions 2 to 10, and catalogues.

use crate::chance::Chance;
use crate::damage::{damaged, moved};
use crate::sheet::place::{ALLOW, B1, B2, C, FINE, FORM, FYB, GM0, H, R, ROUNDS, T, TNOM};
use crate::sheet::{ask_before_working, Sheet, RANGES};
use crate::text::{sheet_text, MOST_SPELT};

pub(crate) fn meets_questions(sheet: &Sheet) -> bool {
    ask_before_working(sheet.numbers()).is_ok()
}

/// The places of both flanges.
pub(crate) const FLANGES: [usize; 2] = [B1, B2];

/// Least and greatest value that range and questions 4 to 10 leave to the web, a
/// flange or the lip, by its place.
pub(crate) fn room(sheet: &Sheet, place: usize) -> Option<(u64, u64)> {
    let (least, greatest) = match place {
        H => web_room(sheet),
        B1 | B2 => flange_room(sheet),
        C => lip_room(sheet),
        _ => panic!("no width at place {place}"),
    };
    (least <= greatest).then_some((least, greatest))
}

fn web_room(sheet: &Sheet) -> (u64, u64) {
    let (least, greatest) = RANGES[H].ends();
    let lips = if sheet.is_z() { 0 } else { 2 * sheet.c };
    (least.max(lips), greatest.min(500 * sheet.t))
}

fn flange_room(sheet: &Sheet) -> (u64, u64) {
    let (least, greatest) = RANGES[B1].ends();
    let midline = sheet.tnom + (5 * (2 * sheet.c - sheet.tnom)).div_ceil(6);
    let least = least.max((5 * sheet.c).div_ceil(3)).max(midline);
    let least = least.max(sheet.tnom + 10 * sheet.r);
    (least, greatest.min(60 * sheet.t).min(5 * sheet.c))
}

fn lip_room(sheet: &Sheet) -> (u64, u64) {
    let (least, greatest) = RANGES[C].ends();
    let wide = sheet.b1.max(sheet.b2);
    let narrow = sheet.b1.min(sheet.b2);
    let midline = (sheet.tnom + 6 * (narrow - sheet.tnom) / 5) / 2;
    let web = if sheet.is_z() { u64::MAX } else { sheet.h / 2 };
    let greatest = greatest.min(3 * narrow / 5).min(midline).min(web);
    (least.max(wide.div_ceil(5)), greatest)
}

/// How often a value is taken from an end of what it may be: once in so many.
pub(crate) const SELDOM: u64 = 20;
const OFTEN: u64 = 2;
const ALWAYS: u64 = 1;

/// A value in the room at a place, once in `ends` at or beside an end of it.
fn any_in_room(chance: &mut Chance, sheet: &Sheet, place: usize, ends: u64) -> Option<Sheet> {
    let (least, greatest) = room(sheet, place)?;
    let value = if chance.one_in(ends) {
        chance.one_of(&[
            least,
            greatest,
            (least + 1).min(greatest),
            greatest.max(least + 1) - 1,
        ])
    } else {
        chance.between(least, greatest)
    };
    Some(sheet.with_number(place, value))
}

/// A value in a range, once in `ends` at an end of it.
pub(crate) fn any_in_range(chance: &mut Chance, (least, greatest): (u64, u64), ends: u64) -> u64 {
    if chance.one_in(ends) {
        chance.one_of(&[least, greatest])
    } else {
        chance.between(least, greatest)
    }
}

/// A section over the whole ranges with given thicknesses, or none.
pub(crate) fn try_section(chance: &mut Chance, tnom: u64, t: u64, ends: u64) -> Option<Sheet> {
    let (narrowest, widest) = RANGES[B1].ends();
    let b = any_in_range(chance, (narrowest, widest.min(60 * t)), ends);
    let mut sheet = Sheet::from_numbers([
        chance.one_in_range(RANGES[FORM]),
        RANGES[H].ends().1,
        b,
        b,
        RANGES[C].ends().0,
        0,
        tnom,
        t,
        any_in_range(chance, RANGES[FYB].ends(), ends),
        any_in_range(chance, RANGES[GM0].ends(), ends),
        chance.one_in_range(RANGES[ROUNDS]),
        any_allowance(chance),
        chance.one_in_range(RANGES[FINE]),
    ]);
    sheet = any_in_room(chance, &sheet, C, ends)?;
    sheet = match chance.between(0, 4) {
        0 => sheet,
        1 | 2 => any_in_room(chance, &sheet, B1, ends)?,
        _ => any_in_room(chance, &sheet, B2, ends)?,
    };
    sheet = any_in_room(chance, &sheet, H, ends)?;
    let narrow = sheet.b1.min(sheet.b2) - tnom;
    let largest_radius = RANGES[R].ends().1.min(5 * t).min(narrow / 10);
    sheet.r = any_in_range(chance, (0, largest_radius), ends);
    meets_questions(&sheet).then_some(sheet)
}

fn any_allowance(chance: &mut Chance) -> u64 {
    match chance.between(0, 5) {
        0 => 0,
        1 => 1,
        2 => 10,
        3 => 1000,
        _ => chance.one_in_range(RANGES[ALLOW]),
    }
}

/// Nominal and core thickness, close together half of the time.
fn any_thicknesses(chance: &mut Chance, ends: u64) -> (u64, u64) {
    let (least, greatest) = RANGES[TNOM].ends();
    let t = any_in_range(chance, RANGES[T].ends(), ends);
    let tnom = any_in_range(chance, (t.max(least), greatest), ends);
    if chance.one_in(2) {
        ((t + chance.between(0, 8)).clamp(least, greatest), t)
    } else {
        (tnom, t)
    }
}

/// A random section over the whole ranges.
pub fn random_section(chance: &mut Chance) -> Option<Sheet> {
    let (tnom, t) = any_thicknesses(chance, SELDOM);
    try_section(chance, tnom, t, SELDOM)
}

/// A section with all values at the ends that ranges and questions leave.
pub(crate) fn corner_section(chance: &mut Chance) -> Option<Sheet> {
    let (tnom, t) = any_thicknesses(chance, ALWAYS);
    let mut sheet = try_section(chance, tnom, t, ALWAYS)?;
    sheet.rounds = chance.one_of(&[0, 8]);
    Some(sheet)
}

/// A section with about half of its values at such ends.
pub(crate) fn edge_section(chance: &mut Chance) -> Option<Sheet> {
    let (tnom, t) = any_thicknesses(chance, OFTEN);
    try_section(chance, tnom, t, OFTEN)
}

/// A random section, one in three with about half of its values at the ends that
/// ranges and questions leave, and one in three with all of them there.
pub fn any_section(chance: &mut Chance) -> Sheet {
    let search = match chance.between(0, 2) {
        0 => random_section,
        1 => edge_section,
        _ => corner_section,
    };
    loop {
        if let Some(sheet) = search(chance) {
            return sheet;
        }
    }
}

/// A random sheet that is spelt right: a section, one in three with numbers moved.
fn random_sheet(chance: &mut Chance) -> Vec<u8> {
    let mut numbers = any_section(chance).numbers();
    if chance.one_in(3) {
        numbers = moved(chance, numbers).map(|number| number.min(MOST_SPELT));
    }
    sheet_text(numbers).into_bytes()
}

/// So many random sheets, in one catalogue of four one of them damaged.
pub fn random_catalogue(chance: &mut Chance, count: usize) -> Vec<u8> {
    let mut sheets: Vec<_> = (0..count).map(|_| random_sheet(chance)).collect();
    if chance.one_in(4) {
        let i = chance.place(count);
        sheets[i] = damaged(chance, &sheets[i]);
    }
    sheets.concat()
}
