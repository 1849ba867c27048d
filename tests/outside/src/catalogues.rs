//! What is tried of the report on a catalogue, in groups.

use crate::calls;
use crate::compare::{pasted, Agreed, Call};
use crate::groups::Tried;
use reference::cases::{
    accepted_sheets, catalogues, example_catalogue, in_turn, mixed, refused_sheets, sheets,
};
use reference::catalogue::{
    sheets_of, Report, Row, COUNTED, COUNTS, LONGEST_REPORT as LONGEST, MOST_SHEETS,
};
use reference::chance::Chance;
use reference::damage::{damaged, every_fault};
use reference::random::random_catalogue;
use reference::text::{read_certificate, LONGEST_CERTIFICATE};

/// Tries a catalogue. Its report, which is returned, is also the one that follows from
/// the archive's certificates.
fn try_catalogue(agreed: &mut Agreed, catalogue: &[u8]) -> Result<Vec<u8>, String> {
    agreed.cases += 1;
    let report = agreed.call(Call::Report(catalogue), LONGEST)?;
    if !report.is_empty() && report != of_certificates(catalogue).into_bytes() {
        let case = pasted(Call::Report(catalogue), LONGEST);
        return Err(case + "the report is not that of the archive's certificates\n");
    }
    Ok(report)
}

/// The report by what hm_certificate_write answers to each sheet: the figures of the
/// certificates, and how often each refusal.
fn of_certificates(catalogue: &[u8]) -> String {
    let sheets = sheets_of(catalogue);
    let mut report = Report {
        sheets: sheets.len(),
        ..Report::default()
    };
    for (i, sheet) in sheets.iter().enumerate() {
        let mut buffer = [0; LONGEST_CERTIFICATE];
        let answer = calls::write(sheet, &mut buffer);
        if answer.refusal != 0 {
            report.count(answer.refusal);
            continue;
        }
        let certificate = &buffer[..answer.length as usize];
        let (_, figures) = read_certificate(certificate).expect("a certificate");
        report.rows.push(Row::new(i + 1, &figures));
    }
    report.text()
}

/// How many sheets a report has under each question.
fn counts(report: &[u8]) -> [u64; COUNTS] {
    let text = String::from_utf8_lossy(report);
    let lines: Vec<&str> = text.lines().skip(2).take(COUNTS).collect();
    std::array::from_fn(|i| lines[i].parse().expect("a count"))
}

/// The catalogues of the programs' cases; under each question some sheet is counted.
pub fn kept_catalogues() -> Tried {
    let mut agreed = Agreed::default();
    for case in catalogues() {
        try_catalogue(&mut agreed, &case.text)?;
    }
    let all_refused = refused_sheets().concat();
    let counted = counts(&try_catalogue(&mut agreed, all_refused.as_bytes())?);
    match (COUNTED.0..).zip(counted).find(|&(_, count)| count == 0) {
        Some((question, _)) => Err(format!("no sheet is counted under {question}\n")),
        None => Ok(agreed),
    }
}

/// One sheet and two, and about as many as there may be: accepted, refused, and both.
pub fn numbers_of_sheets() -> Tried {
    let mut agreed = Agreed::default();
    for count in [1, 2, MOST_SHEETS - 1, MOST_SHEETS, MOST_SHEETS + 1] {
        let accepted = in_turn(&accepted_sheets(), count);
        let refused = in_turn(&refused_sheets(), count);
        for catalogue in [accepted, refused, mixed(count)] {
            try_catalogue(&mut agreed, catalogue.as_bytes())?;
        }
    }
    Ok(agreed)
}

/// Buffers of every length from 0 to more than a small report; about the length of a large
/// one, and about that of the longest.
pub fn every_room() -> Tried {
    let mut agreed = Agreed::default();
    for small in [example_catalogue(), mixed(2), refused_sheets().concat()] {
        let length = try_catalogue(&mut agreed, small.as_bytes())?.len();
        for room in 0..=length + 1 {
            agreed.call(Call::Report(small.as_bytes()), room)?;
        }
    }
    let accepted = in_turn(&accepted_sheets(), MOST_SHEETS);
    for large in [mixed(MOST_SHEETS), accepted] {
        let length = try_catalogue(&mut agreed, large.as_bytes())?.len();
        let about = |length| length - 1..=length + 1;
        for room in [0, 60]
            .into_iter()
            .chain(about(length))
            .chain(about(LONGEST))
        {
            agreed.call(Call::Report(large.as_bytes()), room)?;
        }
    }
    Ok(agreed)
}

/// Two sheets, cut at every byte, behind it or before it. The bytes that were cut off lie
/// beside, so that reading past an end shows.
pub fn every_cut() -> Tried {
    let mut agreed = Agreed::default();
    let [accepted, refused] = [accepted_sheets(), refused_sheets()];
    for sheets in [&accepted[..2], &accepted[2..], &refused[..2]] {
        let catalogue = sheets.concat().into_bytes();
        for n in 0..=catalogue.len() {
            try_catalogue(&mut agreed, &catalogue[..n])?;
            try_catalogue(&mut agreed, &catalogue[n..])?;
        }
    }
    Ok(agreed)
}

/// The sheets of the programs' cases, most of them misspelt or refused, and one fault at
/// every place of a sheet: before, between and behind other sheets, also where there is no
/// room for a report.
pub fn faulty_sheets() -> Tried {
    let mut agreed = Agreed::default();
    let others = accepted_sheets();
    let [first, last] = [&others[0], &others[1]].map(|sheet| sheet.as_bytes());
    let cases = sheets().into_iter().map(|case| case.text);
    for sheet in cases.chain(every_fault(others[2].as_bytes())) {
        let sheet = &sheet[..];
        for parts in [
            [sheet, first, last],
            [first, sheet, last],
            [first, last, sheet],
        ] {
            let catalogue = parts.concat();
            try_catalogue(&mut agreed, &catalogue)?;
            agreed.call(Call::Report(&catalogue), 0)?;
        }
    }
    Ok(agreed)
}

/// Random catalogues of some sheets, some of them damaged anywhere, in rooms of any size.
pub fn random_catalogues(seed: u64, count: u64) -> Tried {
    let mut agreed = Agreed::default();
    let mut chance = Chance::seeded(seed);
    for _ in 0..count {
        let sheets = chance.between(1, 12) as usize;
        let mut catalogue = random_catalogue(&mut chance, sheets);
        if chance.one_in(5) {
            catalogue = damaged(&mut chance, &catalogue);
        }
        let length = try_catalogue(&mut agreed, &catalogue)?.len();
        let room = chance.place(length + 100);
        agreed.call(Call::Report(&catalogue), room)?;
    }
    Ok(agreed)
}

/// Random catalogues of about as many sheets as there may be.
pub fn large_catalogues(seed: u64, count: u64) -> Tried {
    let mut agreed = Agreed::default();
    let mut chance = Chance::seeded(seed);
    for _ in 0..count {
        let sheets = MOST_SHEETS + 1 - chance.place(8);
        try_catalogue(&mut agreed, &random_catalogue(&mut chance, sheets))?;
    }
    Ok(agreed)
}
