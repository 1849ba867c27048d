//! The thirteen marked cases of document 01, the tenth as W-201 amends it, the sheets with
//! fine=1 (W-204).

use reference::cases::with;
use reference::named::{LIP_LONG_ON_MID_LINES, SHEET_A, SHEET_B};
use reference::pair::{Pair, Scale};
use reference::rules::{lip_coefficient, thickness_factor, OUTSTAND, SUPPORTED};
use reference::sheet::{ask_numbers, Sheet};
use reference::text::{printed, sheet_text, write_from_text, LONGEST_CERTIFICATE};

fn scale() -> Scale {
    Scale::multiple(1)
}

fn point(units: i128) -> Pair {
    scale().pair(units, units)
}

fn refused(sheet: Sheet) -> (u64, u64) {
    let refusal = ask_numbers(sheet.numbers()).expect_err("a refusal");
    (refusal.number, refusal.line)
}

#[test]
fn case_1_root_of_2() {
    assert_eq!(scale().whole(2).root().ends(), (1_414_213, 1_414_214));
}

#[test]
fn case_2_cube_root_of_0_008() {
    assert_eq!(
        scale().exact(8, 1000).cube_root().ends(),
        (200_000, 200_000)
    );
}

#[test]
fn case_3_two_over_three() {
    assert_eq!(
        (scale().whole(2) / scale().whole(3)).ends(),
        (666_666, 666_667)
    );
}

#[test]
fn case_4_web_rho_at_1() {
    assert_eq!(SUPPORTED.rho(point(1_000_000)).ends(), (780_000, 780_000));
}

#[test]
fn case_5_lip_rho_at_1() {
    assert_eq!(OUTSTAND.rho(point(1_000_000)).ends(), (812_000, 812_000));
}

#[test]
fn case_6_chi_at_0_65_and_1() {
    assert_eq!(
        thickness_factor(point(650_000)).ends(),
        (1_000_000, 1_000_000)
    );
    assert_eq!(
        thickness_factor(point(1_000_000)).ends(),
        (747_000, 747_000)
    );
}

#[test]
fn case_7_chi_across_the_jump() {
    let across = scale().pair(1_379_999, 1_380_000);
    assert_eq!(thickness_factor(across).ends(), (472_260, 478_261));
}

#[test]
fn case_8_k_at_0_475() {
    assert_eq!(lip_coefficient(point(475_000)).ends(), (707_500, 707_500));
}

const TEXT_A: &str = "form=C\nh=7200\nb1=4200\nb2=4200\nc=1600\nr=300\ntnom=200\nt=200\n\
                      fyb=235\ngm0=1000\nrounds=0\nallow=0\nfine=1\n";
const FIGURES_A: &str = "area=36000\naxial=84600\nchi1=1000\nchi2=1000\nshiftlo=0\nshifthi=0\n";

#[test]
fn case_9_sheet_a() {
    let certificate = format!("{TEXT_A}{FIGURES_A}");
    assert_eq!(sheet_text(SHEET_A.numbers()), TEXT_A);
    assert_eq!(printed(TEXT_A.as_bytes()), certificate);
    let mut buffer = [7; LONGEST_CERTIFICATE];
    let answer = write_from_text(TEXT_A.as_bytes(), &mut buffer);
    let length = certificate.len();
    assert_eq!((answer.refusal, answer.line), (0, 0));
    assert_eq!(answer.length as usize, length);
    assert_eq!(&buffer[..length], certificate.as_bytes());
    assert!(buffer[length..].iter().all(|&byte| byte == 7));
}

#[test]
fn case_10_sheet_b() {
    let figures = ask_numbers(SHEET_B.numbers()).expect("sheet B").figures;
    assert_eq!((figures.chi1, figures.chi2), (693, 740));
    assert!((43740..=43770).contains(&figures.area));
    assert!((120..=128).contains(&figures.shiftlo));
    assert!((120..=128).contains(&figures.shifthi));
}

#[test]
fn case_11_sheet_b_without_allowance() {
    assert_eq!(refused(with(SHEET_B, "allow=0")), (11, 12));
}

#[test]
fn case_12_sheet_a_with_long_lip() {
    assert_eq!(refused(with(SHEET_A, "c=2600")), (7, 3));
}

#[test]
fn case_13_lip_ratio_on_mid_lines() {
    assert_eq!(refused(LIP_LONG_ON_MID_LINES), (9, 3));
}
