//! The texts that the programs are given.

use crate::run::AT_ONCE;
use reference::cases::{
    certificate_of, certificates, each_line_changed, longest_certificate, longest_sheet, sheets,
    text_of,
};
use reference::chance::{Chance, SEED};
use reference::damage::{damaged, every_fault, moved, FAULTS};
use reference::named::{SHEET_A, SHEET_B};
use reference::random::any_section;
use reference::repository::in_repository;
use reference::sheet::ask_numbers;
use reference::text::{certificate_text, sheet_text, LONGEST_CERTIFICATE, LONGEST_SHEET};
use std::path::{Path, PathBuf};
use std::{fs, io};

/// How many random sections, each with its sheet, its certificate and damaged
/// ones.
const RANDOM: usize = 100;

pub struct Text {
    pub name: String,
    pub bytes: Vec<u8>,
    /// It comes in pieces of so many bytes.
    pub piece: usize,
}

pub fn text(name: impl Into<String>, bytes: impl Into<Vec<u8>>) -> Text {
    let (name, bytes, piece) = (name.into(), bytes.into(), AT_ONCE);
    Text { name, bytes, piece }
}

/// A text that comes slowly.
pub fn in_pieces(name: &str, bytes: impl Into<Vec<u8>>, piece: usize) -> Text {
    Text {
        piece,
        ..text(format!("{name}, in pieces of {piece}"), bytes)
    }
}

pub fn all() -> Vec<Text> {
    let mut texts = vec![text("empty", "")];
    texts.extend(kept());
    texts.extend(faulty());
    texts.extend(random());
    texts.extend(near_longest());
    texts.extend(filled());
    texts.extend(longer());
    texts.extend(slow());
    texts
}

/// The texts of crates/certificate_cases.
fn kept() -> Vec<Text> {
    let sheets = sheets().into_iter().map(|case| ("sheet", case));
    let certificates = certificates().into_iter().map(|case| ("certificate", case));
    sheets
        .chain(certificates)
        .map(|(kind, case)| text(format!("{kind} {}", case.name), case.text))
        .collect()
}

/// A sheet and a certificate cut at every byte, and some of those with one fault; the
/// archive is given all of them by tests/outside.
fn faulty() -> Vec<Text> {
    let mut texts = Vec::new();
    for (name, right) in right() {
        let right = right.as_bytes();
        for length in 0..right.len() {
            texts.push(text(format!("{name}, cut to {length}"), &right[..length]));
        }
        for (i, fault) in every_fault(right).into_iter().enumerate().step_by(11) {
            texts.push(text(format!("{name}, fault {i}"), fault));
        }
    }
    texts
}

/// Random sections, some of them refused; numbers moved, and damaged texts.
fn random() -> Vec<Text> {
    let mut chance = Chance::seeded(SEED);
    let mut texts = Vec::new();
    for i in 0..RANDOM {
        let numbers = any_section(&mut chance).numbers();
        let sheet = sheet_text(numbers);
        let other = sheet_text(moved(&mut chance, numbers));
        let bad = damaged(&mut chance, sheet.as_bytes());
        texts.push(text(format!("random {i}"), sheet));
        texts.push(text(format!("random {i}, moved"), other));
        texts.push(text(format!("random {i}, damaged"), bad));
        if let Ok(accepted) = ask_numbers(numbers) {
            let certificate = certificate_text(&accepted);
            let bad = damaged(&mut chance, certificate.as_bytes());
            texts.push(text(format!("random {i}, certificate"), certificate));
            texts.push(text(format!("random {i}, damaged certificate"), bad));
        }
    }
    texts
}

/// A sheet and its certificate, each of them right.
fn right() -> [(&'static str, String); 2] {
    let (sheet, certificate) = (text_of(SHEET_B), certificate_of(SHEET_B));
    [("sheet B", sheet), ("certificate B", certificate)]
}

fn longest() -> [(&'static str, String); 2] {
    let (sheet, certificate) = (longest_sheet(), longest_certificate());
    [
        ("longest sheet", sheet),
        ("longest certificate", certificate),
    ]
}

/// The longest texts, those with a digit less or more in a line, and with a byte
/// less or more at the end.
fn near_longest() -> Vec<Text> {
    let mut texts = Vec::new();
    for (name, longest) in longest() {
        let named = |bytes: Vec<u8>| text(format!("near the {name}"), bytes);
        let mut near = each_line_changed(&longest, |line| line[..line.len() - 1].to_string());
        for count in [1, 100_000] {
            let digits = "9".repeat(count);
            near.extend(each_line_changed(&longest, |line| {
                format!("{line}{digits}")
            }));
        }
        near.push(longest[..longest.len() - 1].to_string());
        near.push(longest.clone());
        texts.extend(near.into_iter().map(|text| named(text.into_bytes())));
        texts.extend(FAULTS.map(|byte| named([longest.as_bytes(), &[byte]].concat())));
    }
    texts
}

/// Right texts with bytes behind, as long as the longest ones or nearly so.
fn filled() -> Vec<Text> {
    let mut texts = Vec::new();
    for (name, right) in right() {
        for longest in [LONGEST_SHEET, LONGEST_CERTIFICATE] {
            for length in longest - 1..=longest + 2 {
                for byte in *b"\n9" {
                    let mut bytes = right.clone().into_bytes();
                    bytes.resize(length, byte);
                    texts.push(text(format!("{name}, filled to {length}"), bytes));
                }
            }
        }
    }
    texts
}

/// Right and longest texts, and behind them bytes: newlines, digits, or another
/// sheet over and over.
fn longer() -> Vec<Text> {
    let mut texts = Vec::new();
    let another = text_of(SHEET_A);
    for (name, front) in right().into_iter().chain(longest()) {
        for behind in ["\n", "0123456789", &another] {
            for count in [1, 100, 100_000, 5_000_000] {
                let behind = behind.bytes().cycle().take(count);
                let bytes: Vec<u8> = front.bytes().chain(behind).collect();
                texts.push(text(format!("{name}, {count} bytes behind"), bytes));
            }
        }
    }
    texts
}

/// Texts that come in pieces.
fn slow() -> Vec<Text> {
    let mut texts = Vec::new();
    for (name, right) in right() {
        for (times, piece) in [(1, 1), (1, 50), (2, 70)] {
            let name = format!("{name}, {times} times");
            texts.push(in_pieces(&name, right.repeat(times), piece));
        }
    }
    texts
}

/// Texts that come over and over; what is printed no longer changes.
pub fn endless() -> [Text; 2] {
    let sheet = text_of(SHEET_A);
    [("newlines", "\n"), ("sheets", &sheet)]
        .map(|(name, piece)| text(format!("{name} without end"), piece.repeat(20_000)))
}

/// The files of examples/ that are texts.
pub fn examples() -> [PathBuf; 6] {
    let names = [
        "sheet_a.txt",
        "sheet_b.txt",
        "z_section.txt",
        "fine.txt",
        "catalogue.txt",
        "output.txt",
    ];
    names.map(|name| in_repository("examples").join(name))
}

pub fn of_file(path: &Path) -> io::Result<Text> {
    Ok(text(path.display().to_string(), fs::read(path)?))
}
