//! The catalogues that survey is given, and texts that are longer than any.

use crate::texts::{in_pieces, text, Text};
use reference::cases::{
    catalogues, each_line_changed, example_catalogue, longest_sheet, mixed, text_of, Case,
};
use reference::catalogue::{LONGEST_CATALOGUE, MOST_SHEETS};
use reference::chance::{Chance, SEED};
use reference::damage::{damaged, FAULTS};
use reference::named::SHEET_A;
use reference::random::random_catalogue;
use reference::sheet::Sheet;
use reference::text::LONGEST_SHEET;

/// A sheet so many times that, where it is accepted, the report is longer than a page of
/// memory.
pub fn catalogue_of(sheet: Sheet) -> String {
    text_of(sheet).repeat(300)
}

pub fn all() -> Vec<Text> {
    [
        kept(),
        random(),
        near_longest(),
        filled(),
        long_line_among_sheets(),
        long_line_among_lines(),
        longer(),
        slow(),
    ]
    .into_iter()
    .flatten()
    .collect()
}

fn kept() -> Vec<Text> {
    let kept = |case: Case| text(format!("catalogue {}", case.name), case.text);
    catalogues().into_iter().map(kept).collect()
}

/// Random catalogues, one in three damaged anywhere, and some about as large as they may
/// be.
fn random() -> Vec<Text> {
    let mut chance = Chance::seeded(SEED);
    let mut texts = Vec::new();
    for i in 0..150 {
        let sheets = chance.between(1, 12) as usize;
        let mut catalogue = random_catalogue(&mut chance, sheets);
        if chance.one_in(3) {
            catalogue = damaged(&mut chance, &catalogue);
        }
        texts.push(text(format!("random catalogue {i}"), catalogue));
    }
    for sheets in [MOST_SHEETS - 1, MOST_SHEETS, MOST_SHEETS + 1] {
        let catalogue = random_catalogue(&mut chance, sheets);
        texts.push(text(format!("{sheets} random sheets"), catalogue));
    }
    texts
}

/// As many of the longest sheets as there may be: with a byte less or more at the end, and
/// with a digit more in a line of the first or the last.
fn near_longest() -> Vec<Text> {
    let sheet = longest_sheet();
    let longest = sheet.repeat(MOST_SHEETS);
    assert_eq!(longest.len(), LONGEST_CATALOGUE);
    let others = &longest[LONGEST_SHEET..];
    let mut near = vec![longest[..longest.len() - 1].to_string().into_bytes()];
    near.extend(FAULTS.map(|byte| [longest.as_bytes(), &[byte]].concat()));
    near.extend(FAULTS.map(|byte| [longest.as_bytes(), &[byte, b'\n']].concat()));
    for longer in each_line_changed(&sheet, |line| format!("{line}9")) {
        for behind in ["", "\n"] {
            near.push(format!("{longer}{others}{behind}").into_bytes());
            near.push(format!("{others}{longer}{behind}").into_bytes());
        }
    }
    let named = |bytes| text("near the longest catalogue", bytes);
    near.into_iter().map(named).collect()
}

/// Sheets with bytes behind, as long as the longest catalogue or nearly so.
fn filled() -> Vec<Text> {
    let mut texts = Vec::new();
    for sheets in [0, 1, MOST_SHEETS / 2, MOST_SHEETS - 1] {
        for length in LONGEST_CATALOGUE - 1..=LONGEST_CATALOGUE + 2 {
            for byte in *b"\n9" {
                let mut bytes = longest_sheet().repeat(sheets).into_bytes();
                bytes.resize(length, byte);
                texts.push(text(format!("{sheets} sheets, filled to {length}"), bytes));
            }
        }
    }
    texts
}

/// A line longer than every catalogue.
fn long_line() -> String {
    "9".repeat(LONGEST_CATALOGUE + 32_000)
}

/// The long line before, among and behind sheets, as many of them as there may be and more.
fn long_line_among_sheets() -> Vec<Text> {
    let long = long_line();
    let mut texts = Vec::new();
    for count in [0, 1, 500, 998, 999, 1000, 1001] {
        let sheets = mixed(count);
        let first = format!("{long}\n{sheets}");
        let last = format!("{sheets}{long}");
        texts.push(text(format!("a long line, {count} sheets"), first));
        texts.push(text(format!("{count} sheets, a long line"), last));
        for behind in [0, 1, 499, 500] {
            let bad = text_of(SHEET_A).replace("form=C", &long);
            let name = format!("{count} sheets, one with a long line, {behind} sheets");
            let bytes = format!("{sheets}{bad}{}", mixed(behind));
            texts.push(text(name, bytes));
        }
    }
    texts
}

/// The long line as the first or the last of about as many lines as there may be.
fn long_line_among_lines() -> Vec<Text> {
    let long = long_line();
    let most = MOST_SHEETS * Sheet::LINES;
    let mut texts = Vec::new();
    for count in most - 2..=most {
        for line in ["\n", "h=7200\n"] {
            for end in ["", "f"] {
                let others = line.repeat(count);
                let name = format!("{count} lines {line:?} and a long one, {end:?} behind");
                let first = format!("{long}\n{others}{end}");
                let last = format!("{others}{long}\n{end}");
                texts.extend([first, last].map(|bytes| text(&*name, bytes)));
            }
        }
    }
    texts
}

/// One line of some megabytes, and a million lines.
fn longer() -> Vec<Text> {
    let line = "f".repeat(3_000_000);
    vec![
        text("a million empty lines", "\n".repeat(1_000_000)),
        text("a million lines", "h=7200\n".repeat(1_000_000)),
        text("a line of 3,000,000 bytes", format!("{line}\n")),
        text("the same without its newline", line),
        text("3,000,000 zero bytes", vec![0; 3_000_000]),
    ]
}

/// Catalogues that come in pieces.
fn slow() -> Vec<Text> {
    let full = mixed(MOST_SHEETS);
    let many = format!("{}\n{full}", long_line());
    let few = format!("{}\n{}", long_line(), mixed(MOST_SHEETS - 1));
    vec![
        in_pieces("the example", example_catalogue(), 1),
        in_pieces("the example", example_catalogue(), 100),
        in_pieces("1000 sheets", &*full, 1000),
        in_pieces("1000 sheets and a byte", format!("{full}f"), full.len()),
        in_pieces("a long line, 1000 sheets", many, 4099),
        in_pieces("a long line, 999 sheets", few, 4099),
    ]
}
