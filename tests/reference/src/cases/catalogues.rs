//! Catalogues: sheets that are counted, too many of them or none, and misspelt ones
//! among them.

use super::sheets::greatest;
use super::Meant::{self, Passes};
use super::*;
use crate::catalogue::{COUNTED, MOST_SHEETS};
use crate::named::{LIP_LONG_ON_MID_LINES, SHEET_A, SHEET_B};

/// The catalogue of examples/: three sheets that are accepted, and one each that
/// questions 2, 7, 9 and 11 refuse.
pub fn example_catalogue() -> String {
    let sheets = [
        SHEET_A,
        with(SHEET_A, "c=2600"),
        SHEET_B,
        with(SHEET_B, "allow=0"),
        z_section(),
        with(SHEET_B, "fyb=701"),
        LIP_LONG_ON_MID_LINES,
    ];
    sheets.map(text_of).concat()
}

/// A sheet for each question under which sheets are counted.
pub fn refused_sheets() -> Vec<String> {
    let cases = sheets();
    let refused_by = |question| {
        let refused =
            |meant: Meant| matches!(meant, Meant::Refused { number, .. } if number == question);
        let case = cases.iter().find(|case| refused(case.meant));
        String::from_utf8(case.expect("a case").text.clone()).expect("text")
    };
    (COUNTED.0..=COUNTED.1).map(refused_by).collect()
}

/// Sheets that are accepted, of each fineness.
pub fn accepted_sheets() -> Vec<String> {
    let sheets = [
        SHEET_A,
        SHEET_B,
        with(SHEET_B, "fine=10"),
        z_section(),
        b_turned(),
        fine_section(),
    ];
    sheets.map(text_of).to_vec()
}

/// So many sheets, the given ones in turn.
pub fn in_turn(sheets: &[String], count: usize) -> String {
    sheets.iter().cycle().take(count).cloned().collect()
}

/// So many sheets, of which some are accepted and each question refuses some.
pub fn mixed(count: usize) -> String {
    let sheets = [accepted_sheets(), refused_sheets()].concat();
    in_turn(&sheets, count)
}

/// A section that is refused with fine=1 and accepted with fine=10, and sheet B with either.
pub fn both_finenesses() -> String {
    let coarse = with(fine_section(), "fine=1");
    let sheets = [coarse, fine_section(), SHEET_B, with(SHEET_B, "fine=10")];
    sheets.map(text_of).concat()
}

fn reported() -> Vec<Case> {
    let (a, b) = (text_of(SHEET_A), text_of(SHEET_B));
    let strongest = text_of(with(greatest(), "gm0=1000 rounds=0"));
    let texts = [
        ("one_sheet", a.clone()),
        ("a_and_b", [&*a, &b].concat()),
        ("a_twice", a.repeat(2)),
        ("example", example_catalogue()),
        ("both_finenesses", both_finenesses()),
        ("every_question", mixed(14)),
        ("one_refused", refused_sheets().remove(0)),
        ("all_refused", refused_sheets().concat()),
        ("all_accepted", accepted_sheets().concat()),
        ("longest_sheets", longest_sheet().repeat(3)),
        ("sheets_999", mixed(999)),
        ("sheets_1000", mixed(1000)),
        ("refused_1000", in_turn(&refused_sheets(), 1000)),
        ("accepted_1000", in_turn(&accepted_sheets(), 1000)),
        ("longest_sheets_1000", longest_sheet().repeat(1000)),
        ("strongest_1000", strongest.repeat(1000)),
    ];
    let case = |(name, text)| case(name, text, Passes);
    texts.map(case).into()
}

/// The newlines of so many sheets.
fn newlines(sheets: usize) -> String {
    "\n".repeat(sheets * Sheet::LINES)
}

/// No sheets, or more than there may be.
fn none_or_too_many() -> Vec<Case> {
    let full = mixed(MOST_SHEETS);
    let misspelt = full.replacen("form=", "form:", 1);
    let texts = [
        ("14_empty", String::new()),
        ("14_sheets_1001", mixed(1001)),
        ("14_sheets_5000", mixed(5000)),
        ("14_newline_behind", format!("{full}\n")),
        ("14_byte_behind", format!("{full}f")),
        ("14_zero_byte_behind", format!("{full}\0")),
        ("14_before_15", format!("{misspelt}\n")),
        ("14_only_newlines", newlines(MOST_SHEETS) + "\n"),
        ("14_newlines_and_a_byte", newlines(MOST_SHEETS) + "f"),
    ];
    let meant = Meant::Refused {
        number: 14,
        line: 0,
    };
    texts.map(|(name, text)| case(name, text, meant)).into()
}

/// The first question refuses a sheet, by its place.
fn bad_sheet(place: u64) -> Meant {
    Meant::Refused {
        number: 15,
        line: place,
    }
}

/// Sheets with bytes between, behind or left out.
fn out_of_step() -> Vec<Case> {
    let (a, b) = (text_of(SHEET_A), text_of(SHEET_B));
    let without_r = a.replace("r=300\n", "");
    let r_twice = a.replace("r=300\n", "r=300\nr=300\n");
    // As a sheet was before W-204.
    let twelve_lines = without_line(&a, "fine");
    let rows = [
        ("15_one_newline", "\n".to_string(), 1),
        ("15_newlines_of_a_sheet", newlines(1), 1),
        ("15_newlines_of_1000_sheets", newlines(1000), 1),
        ("15_one_byte", "f".to_string(), 1),
        ("15_cut_short", format!("{a}{b}form=C\nh=7200\n"), 3),
        ("15_last_newline_missing", format!("{a}{}", b.trim_end()), 2),
        ("15_newline_in_front", format!("\n{a}{b}"), 1),
        ("15_newline_between", format!("{a}\n{b}"), 2),
        ("15_newline_behind", format!("{a}{b}\n"), 3),
        ("15_line_missing", format!("{a}{without_r}{b}"), 2),
        ("15_line_twice", format!("{a}{r_twice}{b}"), 2),
        ("15_twelve_lines", format!("{a}{twelve_lines}{b}"), 2),
        ("15_all_of_twelve_lines", twelve_lines.repeat(13), 1),
        (
            "15_certificate_between",
            format!("{a}{}{b}", certificate_of(SHEET_A)),
            3,
        ),
        (
            "15_carriage_returns",
            format!("{a}{b}").replace('\n', "\r\n"),
            1,
        ),
        ("15_before_02", format!("{}{without_r}", longest_sheet()), 2),
    ];
    let case = |(name, text, place)| case(name, text, bad_sheet(place));
    rows.map(case).into()
}

/// Among so many sheets, those at some places misspelt.
fn misspelt_among() -> Vec<Case> {
    let good = text_of(SHEET_A);
    let bad = good.replace("h=", "H=");
    let rows: [(&str, usize, &[usize]); 7] = [
        ("15_the_only_one", 1, &[1]),
        ("15_first", 3, &[1]),
        ("15_middle", 3, &[2]),
        ("15_last", 3, &[3]),
        ("15_several", 9, &[4, 5, 9]),
        ("15_first_of_1000", 1000, &[1, 1000]),
        ("15_last_of_1000", 1000, &[1000]),
    ];
    let row = |(name, count, misspelt): (&str, usize, &[usize])| {
        let is_bad = |place| misspelt.contains(&place);
        let sheets = (1..=count).map(|place| if is_bad(place) { &*bad } else { &*good });
        let text: String = sheets.collect();
        case(name, text, bad_sheet(misspelt[0] as u64))
    };
    rows.map(row).into()
}

/// Texts that are to be reported on.
pub fn catalogues() -> Vec<Case> {
    [
        reported(),
        none_or_too_many(),
        out_of_step(),
        misspelt_among(),
    ]
    .into_iter()
    .flatten()
    .collect()
}
