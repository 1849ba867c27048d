//! What is tried of the certificate's calls, in groups.

use crate::compare::{Agreed, Call};
use reference::cases::{certificates, fine_section, sheets, text_of, with_figure_moved, z_section};
use reference::chance::Chance;
use reference::damage::{damaged, every_fault, moved};
use reference::edges::edges;
use reference::finer::{failures, MULTIPLES};
use reference::generate::sections;
use reference::named::{SHEET_A, SHEET_B};
use reference::random::any_section;
use reference::rising::{rising, with_all_rounds};
use reference::sheet::{Figures, Numbers, Sheet, RANGES};
use reference::text::{read_certificate, LONGEST_CERTIFICATE as LONGEST, MOST_SPELT};

pub type Tried = Result<Agreed, String>;

/// The sheets on which every place is tried.
fn chosen() -> Vec<Sheet> {
    let mut chosen = vec![SHEET_A, SHEET_B, z_section(), fine_section()];
    chosen.extend(sections().into_iter().skip(40).step_by(100));
    chosen
}

/// Tries a sheet as text and as numbers and, where it is accepted, its certificate,
/// which is returned.
fn try_sheet(agreed: &mut Agreed, numbers: Numbers) -> Result<Option<Vec<u8>>, String> {
    agreed.cases += 1;
    let text = text_of(Sheet::from_numbers(numbers));
    let from_text = agreed.call(Call::Write(text.as_bytes()), LONGEST)?;
    let certificate = agreed.call(Call::FromNumbers(numbers), LONGEST)?;
    // A form from 2 on, and a number of more than ten digits, has no text.
    let has_text = numbers[0] <= 1 && numbers.iter().all(|&n| n <= MOST_SPELT);
    if has_text && from_text != certificate {
        return Err(format!(
            "text and numbers give two certificates: {numbers:?}\n"
        ));
    }
    if certificate.is_empty() {
        return Ok(None);
    }
    agreed.call(Call::Check(&certificate), LONGEST)?;
    Ok(Some(certificate))
}

/// Sheets that were built or found.
pub fn given(sheets: impl IntoIterator<Item = Numbers>) -> Tried {
    let mut agreed = Agreed::default();
    for numbers in sheets {
        try_sheet(&mut agreed, numbers)?;
    }
    Ok(agreed)
}

/// The sections and the sheets at the edges of the questions that section_cases
/// works, and the texts of certificate_cases.
pub fn kept_cases() -> Tried {
    let kept = sections().into_iter().map(|section| section.numbers());
    let mut agreed = given(kept.chain(edges()))?;
    for case in sheets() {
        agreed.cases += 1;
        agreed.call(Call::Write(&case.text), LONGEST)?;
    }
    for case in certificates() {
        agreed.cases += 1;
        agreed.call(Call::Check(&case.text), LONGEST)?;
    }
    Ok(agreed)
}

/// The numbers beside each range, 0, and large ones up to the greatest word, in each place of
/// some sheets.
pub fn extreme_numbers() -> Tried {
    let mut tried = vec![[u64::MAX; Sheet::LINES]];
    for section in chosen() {
        for (place, range) in RANGES.into_iter().enumerate() {
            let with = |extreme| section.with_number(place, extreme).numbers();
            tried.extend(range.just_outside().into_iter().map(with));
            tried.extend([0, 100, 1 << 32, u64::MAX].map(with));
        }
    }
    given(tried)
}

/// The texts of those sheets that are accepted, with their certificates.
fn accepted_texts(sheets: Vec<Sheet>) -> Result<Vec<(String, Vec<u8>)>, String> {
    let mut found = Vec::new();
    for section in sheets {
        if let Some(certificate) = try_sheet(&mut Agreed::default(), section.numbers())? {
            found.push((text_of(section), certificate));
        }
    }
    assert!(found.len() >= 6);
    Ok(found)
}

/// Buffers of every length from 0 to more than the longest certificate, for one
/// in so many sections and for the sheets of the programs' cases, of which each
/// question refuses some.
pub fn every_room(step: usize) -> Tried {
    let mut agreed = Agreed::default();
    let mut tried: Vec<Vec<u8>> = sheets().into_iter().map(|case| case.text).collect();
    let sections = sections().into_iter().step_by(step);
    tried.extend(sections.clone().map(|s| text_of(s).into_bytes()));
    for text in &tried {
        agreed.cases += 1;
        for room in 0..=LONGEST + 2 {
            agreed.call(Call::Write(text), room)?;
        }
    }
    for section in sections {
        agreed.cases += 1;
        for room in 0..=LONGEST + 2 {
            agreed.call(Call::FromNumbers(section.numbers()), room)?;
        }
    }
    Ok(agreed)
}

/// Cut at every byte. The bytes that were cut off lie behind, so that reading
/// past the end shows.
pub fn every_cut() -> Tried {
    let mut agreed = Agreed::default();
    for (sheet, certificate) in accepted_texts(chosen())? {
        for n in 0..=sheet.len() {
            agreed.cases += 1;
            agreed.call(Call::Write(&sheet.as_bytes()[..n]), LONGEST)?;
        }
        for n in 0..=certificate.len() {
            agreed.cases += 1;
            agreed.call(Call::Check(&certificate[..n]), LONGEST)?;
            agreed.call(Call::Write(&certificate[..n]), LONGEST)?;
        }
    }
    Ok(agreed)
}

/// One fault at every place, in every line and behind.
pub fn every_place() -> Tried {
    let mut agreed = Agreed::default();
    for (sheet, certificate) in accepted_texts(chosen())?.into_iter().take(4) {
        for fault in every_fault(sheet.as_bytes()) {
            agreed.cases += 1;
            agreed.call(Call::Write(&fault), LONGEST)?;
        }
        for fault in every_fault(&certificate) {
            agreed.cases += 1;
            agreed.call(Call::Check(&fault), LONGEST)?;
        }
    }
    Ok(agreed)
}

/// Each figure of a certificate moved by up to two (question 13).
pub fn figures_moved(step: usize) -> Tried {
    let mut agreed = Agreed::default();
    let sections = sections().into_iter().step_by(step).collect();
    for (_, certificate) in accepted_texts(sections)? {
        let certificate = String::from_utf8(certificate).expect("a text");
        for key in Figures::KEYS {
            for by in [-2, -1, 1, 2] {
                agreed.cases += 1;
                let moved = with_figure_moved(&certificate, key, by);
                agreed.call(Call::Check(moved.as_bytes()), LONGEST)?;
            }
        }
    }
    Ok(agreed)
}

/// Random sections over the whole ranges, many with values at the ends.
pub fn random_sections(seed: u64, count: u64) -> Tried {
    let mut chance = Chance::seeded(seed);
    given((0..count).map(|_| any_section(&mut chance).numbers()))
}

/// Tries a sheet with each number of rounds side by side. The chi1 and chi2 that a written
/// certificate shows are no larger than those of the one written before it (W-205).
fn try_all_rounds(agreed: &mut Agreed, sheet: &Sheet) -> Result<(), String> {
    let mut before: Option<Figures> = None;
    for sheet in with_all_rounds(sheet) {
        let Some(certificate) = try_sheet(agreed, sheet.numbers())? else {
            continue;
        };
        let (_, figures) = read_certificate(&certificate).expect("a certificate");
        let risen = |old: &Figures| figures.chi1 > old.chi1 || figures.chi2 > old.chi2;
        if let Some(old) = before.filter(risen) {
            let rise = format!("{old:?} with fewer rounds, then {figures:?}");
            return Err(format!("chi1 or chi2 rises: {rise} of {sheet:?}\n"));
        }
        before = Some(figures);
    }
    Ok(())
}

/// Sheets whose χ rose before W-205, and random sections, with each number of rounds.
pub fn rounds_side_by_side(seed: u64, count: u64) -> Tried {
    let mut agreed = Agreed::default();
    let mut chance = Chance::seeded(seed);
    let rose = rising().into_iter().map(|(_, sheet)| sheet);
    let random = (0..count).map(|_| any_section(&mut chance));
    for sheet in rose.chain(random) {
        try_all_rounds(&mut agreed, &sheet)?;
    }
    Ok(agreed)
}

/// Random sections with some numbers moved, most of them to be refused.
pub fn random_numbers(seed: u64, count: u64) -> Tried {
    let mut chance = Chance::seeded(seed);
    given((0..count).map(|_| {
        let section = any_section(&mut chance).numbers();
        moved(&mut chance, section)
    }))
}

/// Makes a call for each of so many pairs of a sheet's text and its certificate.
fn on_accepted_texts(
    seed: u64,
    count: u64,
    call: impl Fn(&mut Agreed, &mut Chance, &(String, Vec<u8>)) -> Result<Vec<u8>, String>,
) -> Tried {
    let mut agreed = Agreed::default();
    let mut chance = Chance::seeded(seed);
    let whole = accepted_texts(sections())?;
    for _ in 0..count {
        let texts = &whole[chance.place(whole.len())];
        agreed.cases += 1;
        call(&mut agreed, &mut chance, texts)?;
    }
    Ok(agreed)
}

/// Damaged sheets, written in rooms of any size.
pub fn damaged_sheets(seed: u64, count: u64) -> Tried {
    on_accepted_texts(seed, count, |agreed, chance, (sheet, _)| {
        let room = chance.place(LONGEST + 1);
        agreed.call(Call::Write(&damaged(chance, sheet.as_bytes())), room)
    })
}

/// Damaged certificates, checked.
pub fn damaged_certificates(seed: u64, count: u64) -> Tried {
    on_accepted_texts(seed, count, |agreed, chance, (_, certificate)| {
        agreed.call(Call::Check(&damaged(chance, certificate)), LONGEST)
    })
}

/// Demand 3 at some m: what a certificate shows, read back from its text, holds
/// the reference's working at m times the scale. The cases are the sheets that
/// are accepted.
pub fn finer_workings(seed: u64, count: u64, sheets: &[Sheet]) -> Tried {
    let mut agreed = Agreed::default();
    let mut chance = Chance::seeded(seed);
    let random = (0..count).map(|_| any_section(&mut chance));
    for section in sheets.iter().copied().chain(random) {
        let Some(certificate) = try_sheet(&mut agreed, section.numbers())? else {
            agreed.cases -= 1;
            continue;
        };
        let (shown, figures) = read_certificate(&certificate).expect("a certificate");
        for m in MULTIPLES {
            let failed = failures(&shown, &figures, m);
            if !failed.is_empty() {
                return Err(format!("m = {m}: {failed:?} fail of {shown:?}\n"));
            }
        }
    }
    Ok(agreed)
}
