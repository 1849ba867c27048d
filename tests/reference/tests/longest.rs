//! The longest texts, and the constants that say how long they are.

use reference::cases::{each_line_changed, longest_certificate, longest_sheet};
use reference::catalogue::{LONGEST_REPORT, MOST_SHEETS};
use reference::lip_table::TABLE_LENGTH;
use reference::repository::file_text;
use reference::text::{
    printed, printed_check, read_certificate, read_sheet, BEHIND_CERTIFICATE, BEHIND_SHEET,
    LONGEST_CERTIFICATE, LONGEST_SHEET,
};

/// Asserts that a text is spelt right and so long, and that no line of it may
/// have a digit more.
fn assert_longest(text: &str, length: usize, is_right: impl Fn(&str) -> bool) {
    assert_eq!(text.len(), length);
    assert!(is_right(text));
    for longer in each_line_changed(text, |line| format!("{line}9")) {
        assert!(!is_right(&longer), "{longer}");
    }
}

#[test]
fn the_longest_texts_are_so_long() {
    let sheet_is_right = |text: &str| read_sheet(text.as_bytes()).is_ok();
    let certificate_is_right = |text: &str| read_certificate(text.as_bytes()).is_ok();
    assert_longest(&longest_sheet(), LONGEST_SHEET, sheet_is_right);
    assert_longest(
        &longest_certificate(),
        LONGEST_CERTIFICATE,
        certificate_is_right,
    );
}

/// They are out of range, and a byte behind them is refused before that.
#[test]
fn the_longest_texts_are_refused() {
    let (sheet, certificate) = (longest_sheet(), longest_certificate());
    let refused = |number: u64, line: u64| format!("refused={number}\nline={line}\n");
    assert_eq!(printed(sheet.as_bytes()), refused(2, 2));
    assert_eq!(printed_check(certificate.as_bytes()), refused(2, 2));
    let (sheet, certificate) = (sheet + "\n", certificate + "\n");
    assert_eq!(printed(sheet.as_bytes()), refused(1, BEHIND_SHEET));
    let checked = printed_check(certificate.as_bytes());
    assert_eq!(checked, refused(1, BEHIND_CERTIFICATE));
}

/// The number behind the words with which one line of a file begins.
fn constant(file: &str, words: &str) -> usize {
    let text = file_text(file);
    let found: Vec<&str> = text.lines().filter_map(|l| l.strip_prefix(words)).collect();
    let [rest] = found[..] else {
        panic!("{file} has {} lines {words}", found.len());
    };
    let digits = rest.replace('_', "");
    let digits = digits.split(|c: char| !c.is_ascii_digit()).next();
    digits.and_then(|n| n.parse().ok()).expect(file)
}

/// Asserts the constants of a file, which stand behind these words about their names.
fn assert_constants(file: &str, (before, behind): (&str, &str), constants: &[(&str, usize)]) {
    for (name, number) in constants {
        let words = format!("{before}{name}{behind}");
        assert_eq!(constant(file, &words), *number, "{file}: {name}");
    }
}

/// The buffers that the header asks for are those that the code needs.
#[test]
fn the_constants_of_header_code_and_example_are_the_same() {
    let header = [
        ("HM_CERTIFICATE_LONGEST", LONGEST_CERTIFICATE),
        ("HM_REPORT_LONGEST", LONGEST_REPORT),
        ("HM_SHEETS_MOST", MOST_SHEETS),
        ("HM_LIP_TABLE_LENGTH", TABLE_LENGTH),
    ];
    let certificate = [
        ("LONGEST_CERTIFICATE", LONGEST_CERTIFICATE),
        ("LONGEST_SHEET", LONGEST_SHEET),
    ];
    let catalogue = [
        ("LONGEST_REPORT", LONGEST_REPORT),
        ("MOST_SHEETS", MOST_SHEETS),
    ];
    let lip_table = [("TABLE_LENGTH", TABLE_LENGTH)];
    let python = header.map(|(name, number)| (name.trim_start_matches("HM_"), number));
    let code = ("pub const ", ": usize = ");
    assert_constants("include/honemagenta.h", ("#define ", " "), &header);
    assert_constants("crates/certificate/src/lib.rt", code, &certificate);
    assert_constants("crates/catalogue/src/lib.rt", code, &catalogue);
    assert_constants("crates/lip_table/src/lib.rt", code, &lip_table);
    assert_constants("examples/honemagenta.py", ("", " = "), &python);
}
