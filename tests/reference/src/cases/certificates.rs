//! Texts that are to be checked: certificates that pass, misspelt ones, and ones that
//! do not agree with the working or whose sheet is refused.

use super::Meant::Passes;
use super::*;
use crate::named::{SHEET_A, SHEET_B};
use crate::sheet::{Figures, CERTIFICATE_LINES};

fn passing_certificates() -> Vec<Case> {
    let mut cases = vec![
        case("marked_09_a", certificate_of(SHEET_A), Passes),
        case("marked_10_b", certificate_of(SHEET_B), Passes),
        case("z_section", certificate_of(z_section()), Passes),
        case("z_turned", certificate_of(z_turned()), Passes),
        case("shift_below_zero", certificate_of(b_turned()), Passes),
        case("fine_a", certificate_of(with(SHEET_A, "fine=10")), Passes),
        case("fine_b", certificate_of(with(SHEET_B, "fine=10")), Passes),
        case("fine_section", certificate_of(fine_section()), Passes),
    ];
    for (name, sheet) in would_rise() {
        let sheet = Sheet { rounds: 8, ..sheet };
        cases.push(case(
            format!("rounds_8_{name}"),
            certificate_of(sheet),
            Passes,
        ));
    }
    cases
}

/// Certificates as they were written while flange 2 had flange 1's ratio, before W-201, and no sheet
/// had the line fine, before W-204: as they stand the first question refuses them. With fine=1 those
/// of equal flanges pass, whose χ do not rise with the rounds, and sheet B's does not.
fn older_certificates() -> Vec<Case> {
    let wide_c = [
        0, 45879, 17000, 17000, 4469, 267, 428, 425, 529, 1060, 1, 1000, 1,
    ];
    let deep_z = [1, 47762, 3666, 3666, 1147, 63, 473, 210, 278, 1033, 3, 1, 1];
    let older = |name: &str, sheet, figures, meant| {
        let with_fine = certificate_lines(sheet, figures);
        let as_it_stood = without_line(&with_fine, "fine");
        let refused_name = format!("01_{}", name.trim_start_matches("13_"));
        [
            case(name, with_fine, meant),
            case(refused_name, as_it_stood, refused(1, "fine")),
        ]
    };
    [
        older(
            "older_equal_c",
            wide_c,
            [165509, 825984, 465, 465, -1, 1],
            Passes,
        ),
        older(
            "older_equal_z",
            deep_z,
            [37234, 100204, 823, 823, -1, 1],
            Passes,
        ),
        older(
            "13_older_b",
            SHEET_B.numbers(),
            [43839, 153437, 693, 749, 142, 143],
            refused(13, "area"),
        ),
    ]
    .into_iter()
    .flatten()
    .collect()
}

/// A certificate's name, the numbers of its sheet, its figures, and which question and line refuse it now.
type Older = (
    &'static str,
    Numbers,
    FigureNumbers,
    Option<(u64, &'static str)>,
);

/// Certificates as they were written while χ could rise with the rounds, before W-205. Where it rose, one would
/// need a larger allowance now and the others are refused at the first line that differs, but for the one in which
/// no printed figure did. Where it did not rise they pass.
#[rustfmt::skip] // a row to a line
const OLDER_REFINED: [Older; 8] = [
    ("13_risen_both",      [1, 20000, 6700, 5900, 2000, 300, 150, 146, 350, 1000, 3, 10, 1],            [25946, 90811, 627, 680, 213, 214],    Some((13, "area"))),
    ("13_risen_both_fine", [0, 25000, 7000, 6500, 2500, 300, 150, 146, 350, 1000, 3, 2, 10],            [27252, 95385, 632, 669, 185, 187],    Some((13, "area"))),
    ("13_risen_axial",     [0, 17254, 3288, 2000, 851, 105, 76, 69, 490, 1278, 2, 1000, 1],             [4504, 17272, 398, 529, 247, 248],     Some((13, "axial"))),
    ("13_risen_shifthi",   [1, 45855, 18774, 9268, 4575, 773, 453, 453, 316, 1010, 7, 1000, 1],         [225051, 704122, 687, 925, 388, 389],  Some((13, "shifthi"))),
    ("11_risen_allowance", [1, 41488, 10713, 9527, 3409, 630, 477, 199, 264, 1225, 8, 1, 10],           [56977, 122791, 658, 704, 339, 340],   Some((11, "allow"))),
    ("risen_below_print",  [0, 19160, 9864, 4393, 2048, 325, 304, 242, 463, 1375, 8, 1000, 1],          [51025, 171816, 493, 837, 623, 624],   None),
    ("not_risen_b",        [0, 20000, 7400, 6600, 2080, 300, 200, 196, 350, 1000, 8, 10, 1],            [43755, 153145, 693, 740, 124, 125],   None),
    ("not_risen_fine",     [0, 30701, 5937, 10217, 2911, 308, 527, 522, 430, 1190, 3, 1000, 10],        [197239, 712712, 1000, 863, 35, 36],   None),
];

fn older_refined_certificates() -> Vec<Case> {
    let of_row = |(name, sheet, figures, refusal): Older| {
        let meant = refusal.map_or(Passes, |(number, key)| refused(number, key));
        case(name, certificate_lines(sheet, figures), meant)
    };
    OLDER_REFINED.map(of_row).into()
}

/// Of sheet A's certificate.
const MISSPELT: [Misspelling; 9] = [
    ("01_fine_leading_zero", "fine=1", "fine=01", "fine"),
    ("01_fine_twice", "fine=1\n", "fine=1\nfine=1\n", "area"),
    (
        "01_fine_before_allow",
        "allow=0\nfine=1",
        "fine=1\nallow=0",
        "allow",
    ),
    (
        "01_area_eleven_digits",
        "area=36000",
        "area=36000000000",
        "area",
    ),
    ("01_area_minus", "area=36000", "area=-36000", "area"),
    (
        "01_axial_leading_zero",
        "axial=84600",
        "axial=084600",
        "axial",
    ),
    (
        "01_shiftlo_minus_zero",
        "shiftlo=0",
        "shiftlo=-0",
        "shiftlo",
    ),
    (
        "01_shifthi_minus_zero",
        "shifthi=0",
        "shifthi=-0",
        "shifthi",
    ),
    (
        "01_shifthi_two_minuses",
        "shifthi=0",
        "shifthi=--1",
        "shifthi",
    ),
];

fn misspelt_certificates() -> Vec<Case> {
    let a = &certificate_of(SHEET_A);
    let mut cases = vec![
        case("01_empty", "", refused(1, "form")),
        with_carriage_returns(a),
    ];
    cases.extend(misspelt(a, &[("01_form_x", "form=C", "form=X", "form")]));
    cases.extend(without_lines(a, &["allow", "fine"]));
    cases.push(case(
        "01_sheet_as_certificate",
        text_of(SHEET_A),
        bad_line(BEHIND_SHEET),
    ));
    cases.extend(without_lines(a, &Figures::KEYS));
    cases.extend(misspelt(a, &MISSPELT));
    cases.extend(at_the_end(a, CERTIFICATE_LINES));
    cases
}

/// Certificates that do not agree with the working, or whose sheet is refused.
fn wrong_certificates() -> Vec<Case> {
    let a = &certificate_of(SHEET_A);
    let b = &certificate_of(SHEET_B);
    let strong = b.replace("fyb=350", "fyb=701");
    let long_lip = a.replace("c=1600", "c=2600");
    let no_allowance = b.replace("allow=10\n", "allow=0\n");
    let area_too = with_figure_moved(&no_allowance, "area", 1);
    let deeper = b.replace("h=20000", "h=20100");
    let large_area = a.replace("area=36000", "area=9999999999");
    let fine = &certificate_of(fine_section());
    let fine_2 = b.replace("fine=1\n", "fine=2\n");
    let fine_as_coarse = fine.replace("fine=10\n", "fine=1\n");
    let enough = certificate_of(with(fine_section(), "fine=1 allow=1000"));
    let coarse_as_fine = enough.replace("fine=1\n", "fine=10\n");
    let minus = b
        .replace("shiftlo=", "shiftlo=-")
        .replace("shifthi=", "shifthi=-");
    let mut cases = vec![
        case("02_fyb_above", strong, refused(2, "fyb")),
        case("02_fine_2", fine_2, refused(2, "fine")),
        case("07_long_lip", long_lip, refused(7, "b1")),
        case("11_no_allowance", no_allowance, refused(11, "allow")),
        case("11_before_13", area_too, refused(11, "allow")),
        case("11_fine_as_coarse", fine_as_coarse, refused(11, "allow")),
        case("13_coarse_as_fine", coarse_as_fine, refused(13, "area")),
        case("13_another_depth", deeper, refused(13, "area")),
        case("13_area_ten_digits", large_area, refused(13, "area")),
        case("13_shifts_with_minus", minus, refused(13, "shiftlo")),
    ];
    for (whose, certificate) in [("", b), ("fine_", fine)] {
        for key in Figures::KEYS {
            for (name, by) in [("less", -1), ("more", 1)] {
                let name = format!("13_{whose}{key}_{name}");
                let moved = with_figure_moved(certificate, key, by);
                cases.push(case(name, moved, refused(13, key)));
            }
        }
    }
    cases
}

/// A certificate with one of its figures spelt anew, from how it was.
pub fn with_figure(certificate: &str, key: &str, spelt: impl Fn(&str) -> String) -> String {
    let respelt = |line: &str| match line.split_once('=') {
        Some((its, figure)) if its == key => format!("{key}={}\n", spelt(figure)),
        _ => format!("{line}\n"),
    };
    certificate.lines().map(respelt).collect()
}

/// A certificate with one of its figures changed by so much.
pub fn with_figure_moved(certificate: &str, key: &str, by: i64) -> String {
    with_figure(certificate, key, |figure| {
        let figure: i64 = figure.parse().expect("a figure");
        (figure + by).to_string()
    })
}

/// Texts that are to be checked.
pub fn certificates() -> Vec<Case> {
    [
        passing_certificates(),
        older_certificates(),
        older_refined_certificates(),
        misspelt_certificates(),
        wrong_certificates(),
    ]
    .into_iter()
    .flatten()
    .collect()
}
