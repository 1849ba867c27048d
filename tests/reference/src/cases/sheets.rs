//! Texts that are to be written as certificates: the marked sheets, both sides of
//! each question's limit, two questions not met at once, and misspelt ones.

use super::Meant::{self, Passes};
use super::*;
use crate::generate::needed_allowance;
use crate::named::{LIP_LONG_ON_MID_LINES, SHEET_A, SHEET_B};

/// A case's name, a sheet, what is changed in it, and what it is meant to show.
type Row<'a> = (&'a str, Sheet, &'a str, Meant);

fn changed(rows: &[Row]) -> Vec<Case> {
    let row =
        |&(name, sheet, changes, meant): &Row| case(name, text_of(with(sheet, changes)), meant);
    rows.iter().map(row).collect()
}

/// Values at the lower ends of their ranges, but for allow: with 0 the eleventh
/// question refuses.
fn least() -> Sheet {
    let ends = "h=4000 b1=2000 b2=2000 c=500 r=0 tnom=50 t=45 fyb=200 allow=100";
    with(SHEET_A, ends)
}

/// Values at the upper ends of their ranges, but for lip and radius, to which
/// the eighth and ninth question leave less.
pub(super) fn greatest() -> Sheet {
    let ends = "form=1 h=50000 b1=20000 b2=20000 tnom=600 t=600 fyb=700 gm0=1500 rounds=8";
    with(with(SHEET_A, ends), "c=11940 r=1940 allow=1000 fine=10")
}

/// Radius 5t, at 1 mm.
fn large_radius() -> Sheet {
    let values = "h=15000 b1=6000 b2=6000 c=1500 r=500 tnom=100 t=100 rounds=1 allow=100";
    with(SHEET_A, values)
}

fn accepted_and_marked() -> Vec<Case> {
    changed(&[
        ("marked_09_a", SHEET_A, "", Passes),
        ("marked_10_b", SHEET_B, "", Passes),
        (
            "marked_11_b_no_allowance",
            SHEET_B,
            "allow=0",
            refused(11, "allow"),
        ),
        ("marked_12_a_long_lip", SHEET_A, "c=2600", refused(7, "b1")),
        (
            "marked_13_mid_lines",
            LIP_LONG_ON_MID_LINES,
            "",
            refused(9, "b1"),
        ),
        ("z_section", z_section(), "", Passes),
        ("shift_below_zero", b_turned(), "", Passes),
        ("eight_rounds", SHEET_B, "rounds=8", Passes),
        ("fine_a", SHEET_A, "fine=10", Passes),
        ("fine_b", SHEET_B, "fine=10", Passes),
        ("fine_z_section", z_section(), "fine=10", Passes),
        ("fine_shift_below_zero", b_turned(), "fine=10", Passes),
        ("fine_eight_rounds", SHEET_B, "rounds=8 fine=10", Passes),
        ("fine_section", fine_section(), "", Passes),
    ])
}

/// With more rounds χ stays, or falls.
fn refined() -> Vec<Case> {
    let mut cases = Vec::new();
    for (name, sheet) in would_rise() {
        for rounds in [0, 1, 8] {
            let text = text_of(Sheet { rounds, ..sheet });
            cases.push(case(format!("rounds_{rounds}_{name}"), text, Passes));
        }
    }
    cases
}

fn ranges() -> Vec<Case> {
    let b = SHEET_B;
    changed(&[
        ("02_all_at_the_least", least(), "", Passes),
        ("02_all_at_the_greatest", greatest(), "", Passes),
        ("02_h_below", b, "h=3999", refused(2, "h")),
        ("02_h_above", b, "h=50001", refused(2, "h")),
        ("02_b1_below", b, "b1=1999", refused(2, "b1")),
        ("02_b1_above", b, "b1=20001", refused(2, "b1")),
        ("02_b2_below", b, "b2=1999", refused(2, "b2")),
        ("02_b2_above", b, "b2=20001", refused(2, "b2")),
        ("02_c_below", b, "c=499", refused(2, "c")),
        // No sheet with c at the end of its range meets the ninth question.
        (
            "02_c_at_the_greatest",
            greatest(),
            "c=12000",
            refused(9, "b1"),
        ),
        ("02_c_above", greatest(), "c=12001", refused(2, "c")),
        // Nor any with r at its end the eighth.
        (
            "02_r_at_the_greatest",
            greatest(),
            "r=3000",
            refused(8, "r"),
        ),
        ("02_r_above", greatest(), "r=3001", refused(2, "r")),
        ("02_tnom_below", b, "tnom=49", refused(2, "tnom")),
        ("02_tnom_above", b, "tnom=601", refused(2, "tnom")),
        ("02_t_below", b, "t=44", refused(2, "t")),
        ("02_t_above", b, "t=601", refused(2, "t")),
        ("02_fyb_below", b, "fyb=199", refused(2, "fyb")),
        ("02_fyb_above", b, "fyb=701", refused(2, "fyb")),
        ("02_gm0_below", b, "gm0=999", refused(2, "gm0")),
        ("02_gm0_above", b, "gm0=1501", refused(2, "gm0")),
        ("02_rounds_above", b, "rounds=9", refused(2, "rounds")),
        ("02_allow_above", b, "allow=1001", refused(2, "allow")),
        ("02_fine_0", b, "fine=0", refused(2, "fine")),
        ("02_fine_2", b, "fine=2", refused(2, "fine")),
        ("02_fine_9", b, "fine=9", refused(2, "fine")),
        ("02_fine_11", b, "fine=11", refused(2, "fine")),
        ("02_fine_100", b, "fine=100", refused(2, "fine")),
        (
            "02_fine_ten_digits",
            b,
            "fine=9999999999",
            refused(2, "fine"),
        ),
        ("02_ten_digits", b, "h=9999999999", refused(2, "h")),
    ])
}

/// Questions 3 to 6.
fn slender() -> Vec<Case> {
    let flanges = with(
        SHEET_A,
        "h=20000 b1=12000 b2=12000 c=2800 rounds=1 allow=100",
    );
    let lip = with(large_radius(), "c=5000");
    let web = with(least(), "h=22500 r=100 rounds=2");
    changed(&[
        ("03_t_is_tnom", SHEET_B, "t=200", Passes),
        ("03_t_past_tnom", SHEET_B, "t=201", refused(3, "t")),
        ("04_flanges_60t", flanges, "", Passes),
        ("04_b1_past_60t", flanges, "b1=12001", refused(4, "b1")),
        ("04_b2_past_60t", flanges, "b2=12001", refused(4, "b2")),
        // b ≤ 60t and 5c ≤ 3b leave c ≤ 36t: the seventh question refuses.
        ("05_lip_50t", lip, "", refused(7, "b1")),
        ("05_lip_past_50t", lip, "c=5001", refused(5, "c")),
        ("06_web_500t", web, "", Passes),
        ("06_web_past_500t", web, "h=22501", refused(6, "h")),
    ])
}

/// Questions 7 to 10.
fn proportions() -> Vec<Case> {
    let short = with(large_radius(), "b1=5000 b2=5000 c=1000 r=400");
    let long = with(LIP_LONG_ON_MID_LINES, "b1=2500 b2=2500 c=1500");
    let radius = with(SHEET_A, "b1=3200 b2=3200 c=1000 allow=100");
    let mid_lines = with(SHEET_A, "b1=2200 b2=2200 c=1300 r=0 allow=100");
    let web = with(SHEET_A, "h=5000 b1=6000 b2=6000 c=2500 allow=100");
    changed(&[
        ("07_flanges_5c", short, "", Passes),
        ("07_b1_past_5c", short, "b1=5001", refused(7, "b1")),
        ("07_b2_past_5c", short, "b2=5001", refused(7, "b2")),
        // The ninth question asks more than 5c ≤ 3b, on the mid-lines.
        ("07_lip_three_fifths", long, "", refused(9, "b1")),
        ("07_lip_past_b1", long, "b1=2499", refused(7, "b1")),
        ("07_lip_past_b2", long, "b2=2499", refused(7, "b2")),
        ("08_radius_5t", large_radius(), "", Passes),
        (
            "08_radius_past_5t",
            large_radius(),
            "r=501",
            refused(8, "r"),
        ),
        ("08_radius_tenth_of_flanges", radius, "", Passes),
        ("08_radius_past_b1", radius, "b1=3199", refused(8, "r")),
        ("08_radius_past_b2", radius, "b2=3199", refused(8, "r")),
        ("09_mid_lines_three_fifths", mid_lines, "", Passes),
        ("09_lip_past_b1", mid_lines, "b1=2199", refused(9, "b1")),
        ("09_lip_past_b2", mid_lines, "b2=2199", refused(9, "b2")),
        ("10_lips_meet", web, "", Passes),
        ("10_lips_overlap", web, "h=4999", refused(10, "c")),
        ("10_lips_of_a_z", web, "form=1 h=4999", Passes),
    ])
}

/// Question 11, at either scale: the least allowance that suffices, and one less.
fn allowances() -> Vec<Case> {
    let coarse = with(fine_section(), "fine=1");
    let mut cases = changed(&[
        ("11_coarse_section", coarse, "", refused(11, "allow")),
        ("11_b_allow_1", SHEET_B, "allow=1", refused(11, "allow")),
        ("11_fine_b_allow_1", SHEET_B, "allow=1 fine=10", Passes),
    ]);
    for (name, sheet) in [
        ("", SHEET_B),
        ("fine_b_", with(SHEET_B, "fine=10")),
        ("coarse_section_", coarse),
        ("section_", fine_section()),
    ] {
        let allow = needed_allowance(&sheet);
        let enough = Sheet { allow, ..sheet };
        let one_short = Sheet {
            allow: allow - 1,
            ..sheet
        };
        cases.extend([
            case(
                format!("11_{name}allowance_enough"),
                text_of(enough),
                Passes,
            ),
            case(
                format!("11_{name}allowance_one_short"),
                text_of(one_short),
                refused(11, "allow"),
            ),
        ]);
    }
    cases
}

/// Sheets that fail two questions: the first decides.
fn order() -> Vec<Case> {
    let b = SHEET_B;
    let low = text_of(with(b, "h=3999"));
    let thin = with(least(), "h=22501");
    let mid_lines = with(SHEET_A, "b1=2199 b2=2199 c=1300 r=300");
    let meeting = with(SHEET_A, "h=4199 b1=3533 b2=3533 c=2100");
    let mut cases = vec![
        case(
            "01_before_02",
            without_line(&low, "allow"),
            refused(1, "allow"),
        ),
        case(
            "01_fine_before_02",
            low.replace("fine=1", "fine=01"),
            refused(1, "fine"),
        ),
    ];
    cases.extend(changed(&[
        ("02_before_03", b, "fyb=701 t=201", refused(2, "fyb")),
        ("02_fine_before_03", b, "fine=2 t=201", refused(2, "fine")),
        (
            "02_allow_before_fine",
            b,
            "allow=1001 fine=2",
            refused(2, "allow"),
        ),
        ("03_before_04", b, "t=201 b1=12061", refused(3, "t")),
        (
            "04_before_05",
            large_radius(),
            "b1=6001 c=5001",
            refused(4, "b1"),
        ),
        ("05_before_06", thin, "c=2251", refused(5, "c")),
        ("06_before_07", thin, "b1=2501", refused(6, "h")),
        (
            "07_before_08",
            large_radius(),
            "r=501 c=1199",
            refused(7, "b1"),
        ),
        ("08_before_09", mid_lines, "", refused(8, "r")),
        ("09_before_10", meeting, "", refused(9, "b1")),
        ("10_before_11", b, "h=4159 allow=0", refused(10, "c")),
    ]));
    cases
}

/// Of sheet A.
const MISSPELT: [Misspelling; 22] = [
    ("01_form_x", "form=C", "form=X", "form"),
    ("01_form_small_letter", "form=C", "form=c", "form"),
    ("01_form_two_letters", "form=C", "form=CZ", "form"),
    ("01_form_a_number", "form=C", "form=0", "form"),
    ("01_key_capital", "h=", "H=", "h"),
    ("01_blank_behind_key", "h=", "h= ", "h"),
    ("01_blank_behind_value", "h=7200", "h=7200 ", "h"),
    ("01_eleven_digits", "h=7200", "h=10000000000", "h"),
    (
        "01_lines_exchanged",
        "b1=4200\nb2=4200",
        "b2=4200\nb1=4200",
        "b1",
    ),
    ("01_line_twice", "c=1600\n", "c=1600\nc=1600\n", "r"),
    ("01_leading_zero", "r=300", "r=0300", "r"),
    ("01_two_zeros", "r=300", "r=00", "r"),
    ("01_no_digit", "r=300", "r=", "r"),
    ("01_minus", "r=300", "r=-300", "r"),
    ("01_plus", "r=300", "r=+300", "r"),
    ("01_point", "fyb=235", "fyb=235.0", "fyb"),
    ("01_zero_byte", "gm0=1000", "gm0=1000\0", "gm0"),
    ("01_fine_leading_zero", "fine=1", "fine=01", "fine"),
    ("01_fine_minus", "fine=1", "fine=-1", "fine"),
    ("01_fine_no_digit", "fine=1", "fine=", "fine"),
    (
        "01_fine_eleven_digits",
        "fine=1",
        "fine=10000000000",
        "fine",
    ),
    (
        "01_fine_before_allow",
        "allow=0\nfine=1",
        "fine=1\nallow=0",
        "allow",
    ),
];

fn misspelt_sheets() -> Vec<Case> {
    let a = &text_of(SHEET_A);
    let mut cases = vec![
        case("01_empty", "", refused(1, "form")),
        with_carriage_returns(a),
        case(
            "01_byte_order_mark",
            format!("\u{feff}{a}"),
            refused(1, "form"),
        ),
    ];
    cases.extend(misspelt(a, &MISSPELT));
    cases.extend(at_the_end(a, Sheet::LINES));
    cases.extend([
        case(
            "01_fine_twice",
            format!("{a}fine=1\n"),
            bad_line(BEHIND_SHEET),
        ),
        case(
            "01_certificate_as_sheet",
            certificate_of(SHEET_A),
            bad_line(BEHIND_SHEET),
        ),
    ]);
    cases.extend(without_lines(a, &Sheet::KEYS));
    cases
}

/// Texts that are to be written as certificates.
pub fn sheets() -> Vec<Case> {
    [
        accepted_and_marked(),
        refined(),
        misspelt_sheets(),
        ranges(),
        slender(),
        proportions(),
        allowances(),
        order(),
    ]
    .into_iter()
    .flatten()
    .collect()
}
