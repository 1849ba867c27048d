//! Makes what crates/certify, verify, survey, tabulate and certificate_cases read and
//! have to print, and the sheets, the catalogue and the output of examples/.
//!
//! certificate_cases [--write]

use reference::cases::{
    certificate_of, certificates, example_catalogue, fine_section, sheets, text_of, z_section,
};
use reference::catalogue::{printed_report, write_report, LONGEST_REPORT};
use reference::kept::{hold_or_write, Made};
use reference::lip_table::{coefficient, table_text, write_table, Coefficient, TABLE_LENGTH};
use reference::named::{SHEET_A, SHEET_B};
use reference::repository::refusal_words;
use reference::sheet::Sheet;
use reference::text::{
    check, printed, printed_check, write_from_numbers, write_from_text, Answer, LONGEST_CERTIFICATE,
};
use std::process::ExitCode;

fn main() -> ExitCode {
    let mut made = Made::default();
    program(&mut made, "certify", text_of(SHEET_B), printed);
    program(&mut made, "verify", certificate_of(SHEET_B), printed_check);
    program(&mut made, "survey", example_catalogue(), printed_report);
    made.file("crates/tabulate/stdout", table_text());
    let texts = certificate_cases(&mut made);
    examples(&mut made);
    hold_or_write("certificate cases", &format!("{texts} texts"), &made)
}

fn program(made: &mut Made, name: &str, stdin: String, prints: fn(&[u8]) -> String) {
    made.file(format!("crates/{name}/stdout"), prints(stdin.as_bytes()));
    made.file(format!("crates/{name}/stdin"), stdin);
}

/// Each text under data/, its name among the arguments, and what is printed; how many
/// texts.
fn certificate_cases(made: &mut Made) -> usize {
    const OWN: &str = "crates/certificate_cases";
    let (mut args, mut stdout) = (String::new(), String::new());
    let mut add = |name: String, text: Vec<u8>, answer: String| {
        stdout += &format!("{name}:{answer}");
        args += &format!("{name}\n");
        made.file(format!("{OWN}/data/{name}"), text);
    };
    for case in sheets() {
        let answers = write_answers(&case.text);
        add(format!("sheets/{}", case.name), case.text, answers);
    }
    for case in certificates() {
        let answer = line_of(check(&case.text));
        add(format!("certificates/{}", case.name), case.text, answer);
    }
    let texts = args.lines().count();
    made.folder(format!("{OWN}/data"));
    made.file(format!("{OWN}/args"), args);
    made.file(format!("{OWN}/stdout"), stdout);
    texts
}

fn line_of(answer: Answer) -> String {
    format!(" {} {} {}\n", answer.refusal, answer.line, answer.length)
}

/// The answer; of an accepted sheet also the certificate, and what a buffer of
/// just its length and one of a byte less answer.
fn write_answers(sheet: &[u8]) -> String {
    let mut buffer = [0; LONGEST_CERTIFICATE];
    let answer = write_from_text(sheet, &mut buffer);
    let length = answer.length as usize;
    let mut text = line_of(answer) + &String::from_utf8_lossy(&buffer[..length]);
    if answer.refusal == 0 {
        for room in [length, length - 1] {
            let answer = write_from_text(sheet, &mut buffer[..room]);
            text += &format!("room {room}:{}", line_of(answer));
        }
    }
    text
}

/// Sheet B with an allowance that the eleventh question refuses with fine=1, and not with
/// fine=10.
const COARSE: Sheet = Sheet {
    allow: 1,
    ..SHEET_B
};
const FINE: Sheet = Sheet { fine: 10, ..COARSE };

fn examples(made: &mut Made) {
    for (name, sheet) in [
        ("sheet_a", SHEET_A),
        ("sheet_b", SHEET_B),
        ("z_section", z_section()),
        ("fine", fine_section()),
    ] {
        made.file(format!("examples/{name}.txt"), text_of(sheet));
    }
    let catalogue = example_catalogue();
    let report = printed_report(catalogue.as_bytes());
    made.file("examples/catalogue.txt", catalogue);
    made.file("examples/catalogue_report.txt", report);
    let output = [certificate_output(), report_output(), lip_output()];
    made.file("examples/output.txt", output.concat());
}

/// What examples/certificate.c and honemagenta.py print of certificates.
fn certificate_output() -> String {
    let certificate = certificate_of(SHEET_B);
    let mut changed = certificate.clone().into_bytes();
    let last_digit = changed.len() - 2;
    changed[last_digit] ^= 1;
    let write = |sheet: Sheet, room| write_from_numbers(sheet.numbers(), &mut vec![0; room]);
    let written = write(SHEET_B, LONGEST_CERTIFICATE);
    let [coarse, fine] = [COARSE, FINE].map(|sheet| write(sheet, LONGEST_CERTIFICATE));
    [
        in_words("Certificate from thirteen numbers", written),
        certificate.clone(),
        in_words("Checked", check(certificate.as_bytes())),
        in_words("Checked with a digit changed", check(&changed)),
        in_words("Certificate of the sheet with allow=1", coarse),
        in_words("Certificate of the same with fine=10", fine),
        in_words("Certificate in a buffer of 100 bytes", write(SHEET_B, 100)),
    ]
    .concat()
}

/// What they print of a report.
fn report_output() -> String {
    let catalogue = [COARSE, FINE].map(text_of).concat();
    let cut = &catalogue[..catalogue.len() - 1];
    let write = |text: &str| write_report(text.as_bytes(), &mut [0; LONGEST_REPORT]);
    [
        in_words("Report on a catalogue of two sheets", write(&catalogue)),
        printed_report(catalogue.as_bytes()),
        in_words("Report without the last byte", write(cut)),
    ]
    .concat()
}

/// What they print of lip coefficients.
fn lip_output() -> String {
    let written = write_table(&mut [0; TABLE_LENGTH]);
    [
        in_words("Table of lip coefficients", written),
        looked_up("Lip coefficient at 0.412345", coefficient(412_345)),
        looked_up("Lip coefficient at 0.610000", coefficient(610_000)),
    ]
    .concat()
}

/// A coefficient in the words of the examples.
fn looked_up(what: &str, k: Coefficient) -> String {
    match k.answer.refusal {
        0 => format!("{what}: {} to {} millionths\n", k.lower, k.upper),
        _ => in_words(what, k.answer),
    }
}

/// An answer in the words of the examples.
fn in_words(what: &str, answer: Answer) -> String {
    let Answer {
        refusal,
        line,
        length,
    } = answer;
    if refusal == 0 {
        return format!("{what}: in order, {length} bytes\n");
    }
    let words = &refusal_words()[refusal as usize - 1];
    match refusal {
        12 => format!("{what}: {words}, {length} bytes are needed\n"),
        15 => format!("{what}: refused, question {refusal}, sheet {line}: {words}\n"),
        _ => format!("{what}: refused, question {refusal}, line {line}: {words}\n"),
    }
}
