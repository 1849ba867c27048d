//! Texts for the programs. What each is meant to show is stated by hand;
//! tests/cases.rs holds the reference to it.

mod catalogues;
mod certificates;
mod sheets;

pub use catalogues::{
    accepted_sheets, both_finenesses, catalogues, example_catalogue, in_turn, mixed, refused_sheets,
};
pub use certificates::{certificates, with_figure, with_figure_moved};
pub use sheets::sheets;

use crate::named::SHEET_B;
use crate::sheet::{ask_numbers, FigureNumbers, Figures, Numbers, Sheet};
use crate::text::{
    certificate_lines, certificate_text, line_of, may_have_minus, sheet_text, BEHIND_SHEET,
    MOST_SPELT,
};

/// What a text is meant to show.
#[derive(Clone, Copy, Debug, PartialEq, Eq)]
pub enum Meant {
    Passes,
    Refused { number: u64, line: u64 },
}

/// Refused for the line with that key.
fn refused(number: u64, key: &str) -> Meant {
    let line = line_of(key);
    Meant::Refused { number, line }
}

/// Refused by the first question.
fn bad_line(line: u64) -> Meant {
    Meant::Refused { number: 1, line }
}

/// A text, its name, and what it is meant to show. A name begins with the
/// number of the question that it is about, but for the marked sheets and some
/// that pass.
pub struct Case {
    pub name: String,
    pub text: Vec<u8>,
    pub meant: Meant,
}

fn case(name: impl Into<String>, text: impl Into<Vec<u8>>, meant: Meant) -> Case {
    let (name, text) = (name.into(), text.into());
    Case { name, text, meant }
}

pub fn text_of(sheet: Sheet) -> String {
    sheet_text(sheet.numbers())
}

/// The certificate of a sheet that is accepted.
pub fn certificate_of(sheet: Sheet) -> String {
    certificate_text(&ask_numbers(sheet.numbers()).expect("an accepted sheet"))
}

const LONGEST_NUMBERS: Numbers = {
    let mut numbers = [MOST_SPELT; Sheet::LINES];
    numbers[0] = 1;
    numbers
};

/// The longest text that is spelt as a sheet is.
pub fn longest_sheet() -> String {
    sheet_text(LONGEST_NUMBERS)
}

/// The longest text that is spelt as a certificate is.
pub fn longest_certificate() -> String {
    let most = MOST_SPELT as i128;
    let figures: FigureNumbers =
        Figures::KEYS.map(|key| if may_have_minus(key) { -most } else { most });
    certificate_lines(LONGEST_NUMBERS, figures)
}

/// The sheet with some values changed, as "b1=12000 c=2800".
pub fn with(sheet: Sheet, changes: &str) -> Sheet {
    changes.split_whitespace().fold(sheet, |sheet, change| {
        let (key, value) = change.split_once('=').expect("key=value");
        let place = line_of(key) as usize - 1;
        sheet.with_number(place, value.parse().expect("a number"))
    })
}

/// A Z purlin 200 mm deep, its first flange the wider one.
pub fn z_section() -> Sheet {
    with(
        SHEET_B,
        "form=1 b1=6700 b2=5900 c=2000 tnom=150 t=146 rounds=3",
    )
}

/// The Z purlin with its flanges exchanged.
fn z_turned() -> Sheet {
    with(z_section(), "b1=5900 b2=6700")
}

/// Sheet B with its flanges exchanged: the axis moves toward flange 1.
fn b_turned() -> Sheet {
    with(SHEET_B, "b1=6600 b2=7400")
}

/// A C 250 mm deep whose lip is just past 0.35 of flange 1, where pairs widen: with fine=1
/// the eleventh question refuses it.
pub fn fine_section() -> Sheet {
    with(
        SHEET_B,
        "h=25000 b1=7000 b2=6500 c=2500 tnom=150 t=146 rounds=3 allow=2 fine=10",
    )
}

/// Sections whose χ would rise in the first round but for W-205, by the flanges that rise.
pub fn would_rise() -> [(&'static str, Sheet); 5] {
    let one = with(
        SHEET_B,
        "h=15000 b1=4500 b2=4000 c=1600 tnom=120 t=116 rounds=1",
    );
    [
        ("flange_1", one),
        ("flange_2", with(one, "form=1 b1=4000 b2=4500")),
        ("both", z_section()),
        ("both_fine", fine_section()),
        ("equal_fine", with(z_section(), "b2=6700 fine=10")),
    ]
}

/// The text with each of its lines, the newline left aside, changed in turn.
pub fn each_line_changed(text: &str, change: impl Fn(&str) -> String) -> Vec<String> {
    let lines: Vec<&str> = text.lines().collect();
    let mut texts = Vec::new();
    for (i, line) in lines.iter().enumerate() {
        let changed = change(line);
        let mut all = lines.clone();
        all[i] = &changed;
        texts.push(all.join("\n") + "\n");
    }
    texts
}

/// A text without the line with that key.
fn without_line(text: &str, key: &str) -> String {
    let has_key = |line: &str| line.split_once('=').is_some_and(|(its, _)| its == key);
    let lines = text.split_inclusive('\n');
    lines.filter(|line| !has_key(line)).collect()
}

/// A text without each of the lines with those keys.
fn without_lines(text: &str, keys: &[&str]) -> Vec<Case> {
    let without = |key: &&str| {
        let name = format!("01_without_{key}");
        case(name, without_line(text, key), refused(1, key))
    };
    keys.iter().map(without).collect()
}

fn with_carriage_returns(text: &str) -> Case {
    let returns = text.replace('\n', "\r\n");
    case("01_carriage_returns", returns, refused(1, "form"))
}

/// A text of so many lines, its last newline left out or doubled.
fn at_the_end(text: &str, lines: usize) -> [Case; 2] {
    let last = lines as u64;
    [
        case("01_last_newline_missing", text.trim_end(), bad_line(last)),
        case("01_newline_behind", format!("{text}\n"), bad_line(last + 1)),
    ]
}

/// A text that is misspelt in one place: the case's name, what stood there, what
/// stands there now, and the key of the line that is bad.
type Misspelling = (&'static str, &'static str, &'static str, &'static str);

fn misspelt(text: &str, misspellings: &[Misspelling]) -> Vec<Case> {
    misspellings
        .iter()
        .map(|&(name, old, new, key)| case(name, text.replacen(old, new, 1), refused(1, key)))
        .collect()
}
