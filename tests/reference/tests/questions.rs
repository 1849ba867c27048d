//! The questions in their order, on numbers and as text.

use reference::cases::{with, with_figure};
use reference::named::{LIP_LONG_ON_MID_LINES, SHEET_A, SHEET_B};
use reference::sheet::place::FINE;
use reference::sheet::{ask_numbers, Figures, Sheet, CERTIFICATE_LINES, RANGES};
use reference::text::{
    check, line_of, printed, sheet_text, write_from_numbers, write_from_text, Answer,
    BEHIND_CERTIFICATE, BEHIND_SHEET, LONGEST_CERTIFICATE,
};

fn asked(sheet: Sheet) -> (u64, u64) {
    match ask_numbers(sheet.numbers()) {
        Ok(_) => (0, 0),
        Err(refusal) => (refusal.number, refusal.line),
    }
}

/// Asserts what is answered to the sheet with some values changed.
fn assert_asked(sheet: Sheet, cases: &[(&str, (u64, u64))]) {
    for &(changes, answer) in cases {
        assert_eq!(asked(with(sheet, changes)), answer, "{changes}");
    }
}

fn text_b() -> String {
    sheet_text(SHEET_B.numbers())
}

fn certificate_b() -> String {
    printed(text_b().as_bytes())
}

/// Number and line of writing from a text; the buffer must stay as it was.
fn refused(text: &str) -> (u64, u64) {
    let mut buffer = [9; LONGEST_CERTIFICATE];
    let answer = write_from_text(text.as_bytes(), &mut buffer);
    assert_eq!(answer.length, 0);
    assert!(buffer.iter().all(|&byte| byte == 9));
    (answer.refusal, answer.line)
}

fn checked(text: &str) -> (u64, u64) {
    let answer = check(text.as_bytes());
    if answer.refusal != 0 {
        assert_eq!(answer.length, 0);
    }
    (answer.refusal, answer.line)
}

#[test]
fn question_2_names_the_first_line_out_of_range() {
    for (i, range) in RANGES.into_iter().enumerate() {
        let mut outside = range.just_outside();
        outside.push(u64::MAX);
        for value in outside {
            let sheet = SHEET_B.with_number(i, value);
            assert_eq!(asked(sheet), (2, i as u64 + 1));
            let fine = sheet.with_number(FINE, 2);
            assert_eq!(asked(fine), (2, i as u64 + 1));
        }
    }
}

#[test]
fn fine_is_1_or_10() {
    let taken = [1, 10];
    let others = [0, 2, 3, 4, 5, 6, 7, 8, 9, 11, 12, 100, 1_000_000, u64::MAX];
    for fine in taken {
        assert_eq!(asked(Sheet { fine, ..SHEET_B }), (0, 0), "{fine}");
    }
    for fine in others {
        assert_eq!(asked(Sheet { fine, ..SHEET_B }), (2, 13), "{fine}");
    }
    assert_eq!(RANGES[FINE].just_outside(), [2, 9, 11, 0]);
}

#[test]
fn questions_3_to_8_one_by_one() {
    let base = with(SHEET_A, "allow=1000");
    assert_eq!(asked(base), (0, 0));
    let cases = [
        ("t=201", (3, 8)),
        ("t=69", (4, 3)),
        ("b1=12000", (7, 3)),
        ("b1=12001", (4, 3)),
        ("b2=12001", (4, 4)),
        ("c=10001", (5, 5)),
        ("h=50000 t=99", (6, 2)),
        ("h=50000 t=100", (0, 0)),
        ("c=839", (7, 3)),
        ("c=840", (0, 0)),
        ("b2=8001", (7, 4)),
        ("b2=2666", (7, 4)),
        ("r=401", (8, 6)),
        ("r=400", (0, 0)),
        ("b2=4199 r=400", (8, 6)),
        ("b1=4199 r=400", (8, 6)),
    ];
    assert_asked(base, &cases);
}

#[test]
fn questions_8_to_10_one_by_one() {
    let thick = with(SHEET_A, "h=20000 b1=10000 b2=10000 c=5000 allow=1000");
    assert_eq!(asked(thick), (0, 0));
    let cases = [
        ("r=900 tnom=600 t=180", (0, 0)),
        ("r=901 tnom=600 t=180", (8, 6)),
        ("h=9999", (10, 5)),
        ("h=9999 form=1", (0, 0)),
        ("h=10000", (0, 0)),
    ];
    assert_asked(thick, &cases);

    let long_lip = with(LIP_LONG_ON_MID_LINES, "allow=1000");
    assert_eq!(asked(long_lip), (9, 3));
    let cases = [("b1=2100", (9, 4)), ("c=1190", (0, 0)), ("c=1191", (9, 3))];
    assert_asked(long_lip, &cases);
}

/// Misspelt forms of the line key=value.
fn misspelt(key: &str, value: &str) -> [String; 13] {
    [
        format!("{key}{value}"),
        format!("{key}="),
        format!("{key} ={value}"),
        format!(" {key}={value}"),
        format!("{key}={value} "),
        format!("{key}={value}\r"),
        format!("{key}=0{value}"),
        format!("{key}=+{value}"),
        format!("{key}=-{value}"),
        format!("{key}={value}x"),
        format!("{key}=12345678901"),
        format!("{}={value}", key.to_uppercase()),
        String::new(),
    ]
}

#[test]
fn question_1_names_the_first_bad_line() {
    let b = text_b();
    let lines: Vec<&str> = b.split_inclusive('\n').collect();
    for (i, line) in lines.iter().enumerate() {
        let here = (1, i as u64 + 1);
        let (before, behind) = (lines[..i].concat(), lines[i + 1..].concat());
        let (key, value) = line.trim_end().split_once('=').expect("key=value");
        for bad in misspelt(key, value) {
            let text = format!("{before}{bad}\n{behind}");
            assert_eq!(refused(&text), here, "{bad:?}");
        }
        assert_eq!(refused(&before), here);
        assert_eq!(refused(&(before + line.trim_end())), here);
    }
    assert_eq!((BEHIND_SHEET, BEHIND_CERTIFICATE), (14, 20));
    assert_eq!(refused(&format!("{b}\n")), (1, BEHIND_SHEET));
    assert_eq!(refused(&format!("{b}x")), (1, BEHIND_SHEET));
    assert_eq!(refused(&format!("{b}fine=1\n")), (1, BEHIND_SHEET));
    assert_eq!(refused(&certificate_b()), (1, BEHIND_SHEET));
    for form in ["c", "CZ", "0", "1", ""] {
        let text = b.replace("form=C", &format!("form={form}"));
        assert_eq!(refused(&text), (1, 1));
    }
}

#[test]
fn text_goes_on_with_the_second_question() {
    let b = text_b();
    assert_eq!(refused(&b.replace("h=20000", "h=9999999999")), (2, 2));
    assert_eq!(refused(&b.replace("h=20000", "h=0")), (2, 2));
    assert_eq!(refused(&b.replace("fine=1", "fine=2")), (2, 13));
    assert_eq!(refused(&b.replace("fine=1", "fine=9999999999")), (2, 13));
    assert_eq!(refused(&b.replace("allow=10", "allow=0")), (11, 12));
    assert_eq!(
        printed(b.replace("allow=10", "allow=0").as_bytes()),
        "refused=11\nline=12\n"
    );
    assert_eq!(printed(b""), "refused=1\nline=1\n");
}

#[test]
fn question_12_gives_the_length_needed() {
    let certificate = certificate_b();
    let needed = certificate.len();
    let parts = |answer: Answer| (answer.refusal, answer.line, answer.length as usize);
    for room in [0, 1, needed - 1] {
        let mut buffer = vec![9; room];
        let answer = write_from_numbers(SHEET_B.numbers(), &mut buffer);
        assert_eq!(parts(answer), (12, 0, needed));
        assert!(buffer.iter().all(|&byte| byte == 9));
    }
    for room in [needed, needed + 1] {
        let mut buffer = vec![9; room];
        let answer = write_from_numbers(SHEET_B.numbers(), &mut buffer);
        assert_eq!(parts(answer), (0, 0, needed));
        assert_eq!(&buffer[..needed], certificate.as_bytes());
        assert!(buffer[needed..].iter().all(|&byte| byte == 9));
    }
}

#[test]
fn checking_passes_what_was_written() {
    let certificate = certificate_b();
    let answer = check(certificate.as_bytes());
    assert_eq!((answer.refusal, answer.line), (0, 0));
    assert_eq!(answer.length as usize, certificate.len());
}

#[test]
fn question_1_on_certificates() {
    let certificate = certificate_b();
    assert_eq!(checked(&text_b()), (1, BEHIND_SHEET));
    let longer = format!("{certificate}\n");
    assert_eq!(checked(&longer), (1, BEHIND_CERTIFICATE));
    let shorter = &certificate[..certificate.len() - 1];
    assert_eq!(checked(shorter), (1, CERTIFICATE_LINES as u64));
    // V stands for the right value.
    for (key, wrong) in [
        ("area", "-V"),
        ("chi1", "0V"),
        ("shiftlo", "-0"),
        ("shifthi", "-0V"),
        ("shifthi", "--V"),
        ("shifthi", "-"),
    ] {
        let text = with_figure(&certificate, key, |value| wrong.replace('V', value));
        assert_eq!(checked(&text), (1, line_of(key)), "{key}={wrong}");
    }
}

#[test]
fn question_13_names_the_first_line_that_differs() {
    let certificate = certificate_b();
    for (key, line) in Figures::KEYS.into_iter().zip(14..) {
        assert_eq!(line_of(key), line);
        let changed = certificate.replace(&format!("\n{key}="), &format!("\n{key}=9"));
        assert_eq!(checked(&changed), (13, line));
        let twice = changed.replace("shifthi=", "shifthi=-9");
        assert_eq!(checked(&twice), (13, line));
    }
    let minus = certificate.replace("shiftlo=", "shiftlo=-");
    assert_eq!(checked(&minus), (13, line_of("shiftlo")));
    let other_factor = certificate.replace("gm0=1000", "gm0=1100");
    assert_eq!(checked(&other_factor), (13, line_of("axial")));
}

#[test]
fn the_sheet_of_a_certificate_is_asked_before_its_figures() {
    let no_allowance = certificate_b().replace("allow=10", "allow=0");
    let wrong_area = no_allowance.replace("area=", "area=9");
    assert_eq!(checked(&wrong_area), (11, 12));
}
