//! Reports on catalogues (document 02, W-202).

use reference::cases::{
    accepted_sheets, both_finenesses, catalogues, example_catalogue, in_turn, mixed,
    refused_sheets, text_of, with,
};
use reference::catalogue::{
    printed_report, report, sheets_of, write_report, Report, LONGEST_REPORT, MOST_SHEETS,
};
use reference::chance::{Chance, SEED};
use reference::named::{SHEET_A, SHEET_B};
use reference::random::random_catalogue;
use reference::sheet::Sheet;
use reference::text::{printed, Answer, MOST_SPELT};

/// The lines with the counts and the sums.
const HEAD: usize = 14;

fn a_and_b() -> String {
    text_of(SHEET_A) + &text_of(SHEET_B)
}

/// What is answered, and that the buffer is written or stays as it was, byte for byte.
fn answered(catalogue: &str, room: usize) -> (u64, u64, u64) {
    let mut buffer = vec![7; room];
    let Answer {
        refusal,
        line,
        length,
    } = write_report(catalogue.as_bytes(), &mut buffer);
    let text = match refusal {
        0 => printed_report(catalogue.as_bytes()),
        _ => String::new(),
    };
    let (written, behind) = buffer.split_at(text.len());
    assert_eq!(written, text.as_bytes());
    assert!(behind.iter().all(|&byte| byte == 7));
    (refusal, line, length)
}

/// The numbers of a report, line by line.
fn lines_of(report: &str) -> Vec<Vec<u64>> {
    let number = |word: &str| word.parse().expect("a number");
    let line = |line: &str| line.split(' ').map(number).collect();
    report.lines().map(line).collect()
}

#[test]
fn sheets_a_and_b_are_reported() {
    let text = "2\n2\n0\n0\n0\n0\n0\n0\n0\n0\n0\n0\n79755\n237745\n1 36000 84600\n2 43755 153145\n";
    assert_eq!(printed_report(a_and_b().as_bytes()), text);
    let length = text.len() as u64;
    assert_eq!(answered(&a_and_b(), text.len()), (0, 0, length));
    assert_eq!(answered(&a_and_b(), LONGEST_REPORT), (0, 0, length));
}

/// B with allow=0 is refused by 11, A with c=2600 by 7, A deeper than 500 t by 6; the
/// places count the refused ones too.
#[test]
fn refused_sheets_are_counted() {
    let sheets = [
        with(SHEET_B, "allow=0"),
        SHEET_A,
        with(SHEET_A, "c=2600"),
        with(SHEET_A, "h=50000 t=99"),
        with(SHEET_B, "allow=0 rounds=0"),
        SHEET_A,
    ];
    let text = "6\n2\n0\n0\n0\n0\n1\n1\n0\n0\n0\n2\n72000\n169200\n2 36000 84600\n6 36000 84600\n";
    let catalogue = sheets.map(text_of).concat();
    assert_eq!(printed_report(catalogue.as_bytes()), text);
}

/// The same section with fine=1 is refused by 11, and with fine=10 accepted (W-204).
#[test]
fn each_sheet_is_worked_at_its_own_scale() {
    let lines = lines_of(&printed_report(both_finenesses().as_bytes()));
    let counts: Vec<u64> = lines[..HEAD - 2].concat();
    assert_eq!(counts, [4, 3, 0, 0, 0, 0, 0, 0, 0, 0, 0, 1]);
    let places: Vec<u64> = lines[HEAD..].iter().map(|row| row[0]).collect();
    assert_eq!(places, [2, 3, 4]);
}

#[test]
fn one_sheet_under_each_question() {
    let catalogue = refused_sheets().concat();
    let text = "10\n0\n".to_string() + &"1\n".repeat(10) + "0\n0\n";
    assert_eq!(printed_report(catalogue.as_bytes()), text);
}

#[test]
fn the_example_has_what_it_is_said_to_have() {
    let text = printed_report(example_catalogue().as_bytes());
    let lines = lines_of(&text);
    let counts: Vec<u64> = lines[..HEAD - 2].concat();
    assert_eq!(counts, [7, 3, 1, 0, 0, 0, 0, 1, 0, 1, 0, 1]);
    let places: Vec<u64> = lines[HEAD..].iter().map(|row| row[0]).collect();
    assert_eq!(places, [1, 3, 5]);
    assert_eq!(lines[HEAD + 1], [3, 43755, 153145]);
}

/// A rest, were it one byte, is one more sheet.
#[test]
fn lines_are_counted_into_sheets() {
    let lines = Sheet::LINES;
    for (count, sheets) in [
        (0, 0),
        (1, 1),
        (lines - 1, 1),
        (lines, 1),
        (lines + 1, 2),
        (2 * lines, 2),
    ] {
        let newlines = "\n".repeat(count);
        assert_eq!(sheets_of(newlines.as_bytes()).len(), sheets, "{count}");
        let unended = newlines + "f";
        let more = if count % lines == 0 {
            sheets + 1
        } else {
            sheets
        };
        assert_eq!(sheets_of(unended.as_bytes()).len(), more, "{count}, a byte");
    }
}

#[test]
fn questions_14_15_and_12_in_this_order() {
    let bad = text_of(SHEET_A).replace("t=200", "t=0200");
    let full = in_turn(&accepted_sheets(), MOST_SHEETS);
    for room in [0, 50, LONGEST_REPORT] {
        assert_eq!(answered("", room), (14, 0, 0));
        assert_eq!(answered(&format!("{full}\n"), room), (14, 0, 0));
        assert_eq!(answered(&format!("{bad}{full}"), room), (14, 0, 0));
        let behind = format!("{}{bad}{bad}", a_and_b());
        assert_eq!(answered(&behind, room), (15, 3, 0));
    }
    let length = printed_report(a_and_b().as_bytes()).len();
    for room in 0..length {
        assert_eq!(answered(&a_and_b(), room), (12, 0, length as u64));
    }
}

fn tried() -> Vec<Vec<u8>> {
    let mut chance = Chance::seeded(SEED);
    let random = (0..300).map(|i| random_catalogue(&mut chance, 1 + i % 20));
    let kept = catalogues().into_iter().map(|case| case.text);
    random.chain(kept).collect()
}

/// The sheets, joined, are the catalogue; all but the last have a sheet's lines, and the
/// last has some.
#[test]
fn sheets_joined_are_the_catalogue() {
    for catalogue in tried() {
        let sheets = sheets_of(&catalogue);
        assert_eq!(sheets.concat(), catalogue);
        let ended = |sheet: &Vec<u8>| sheet.iter().filter(|&&byte| byte == 10).count();
        let Some((last, before)) = sheets.split_last() else {
            assert!(catalogue.is_empty());
            continue;
        };
        assert!(before.iter().all(|sheet| ended(sheet) == Sheet::LINES));
        assert!(before.iter().all(|sheet| sheet.ends_with(b"\n")));
        assert!(!last.is_empty() && ended(last) <= Sheet::LINES);
        let full = ended(last) == Sheet::LINES;
        assert!(!full || last.ends_with(b"\n"));
    }
}

/// Counts add up to the sheets and are those of the sheets' own answers, sums are those of
/// the lines, and each line has the figures of its sheet's certificate, once.
#[test]
fn reports_agree_with_certificates() {
    let mut reports = 0;
    for catalogue in tried() {
        let Ok(found) = report(&catalogue) else {
            continue;
        };
        reports += 1;
        let answers: Vec<String> = sheets_of(&catalogue).iter().map(|s| printed(s)).collect();
        let lines = lines_of(&found.text());
        let (head, rows) = lines.split_at(HEAD);
        let head = head.concat();
        assert_eq!(head[0], answers.len() as u64);
        assert_eq!(head[1], rows.len() as u64);
        assert_eq!(head[2..HEAD - 2], refused(&answers));
        assert_eq!(head[1..HEAD - 2].iter().sum::<u64>(), head[0]);
        for (sum, column) in [(head[HEAD - 2], 1), (head[HEAD - 1], 2)] {
            assert_eq!(sum, rows.iter().map(|row| row[column]).sum::<u64>());
        }
        assert_eq!(rows, certified(&answers));
    }
    assert!(reports >= 100, "{reports}");
}

/// How many of what is printed are refusals by each of questions 2 to 11.
fn refused(answers: &[String]) -> Vec<u64> {
    let by = |question: u64| {
        let first = format!("refused={question}\n");
        answers.iter().filter(|a| a.starts_with(&first)).count() as u64
    };
    (2..=11).map(by).collect()
}

/// Place, area and axial of each certificate that is printed.
fn certified(answers: &[String]) -> Vec<Vec<u64>> {
    let figure = |certificate: &str, key: &str| {
        let mut values = certificate.lines().filter_map(|l| l.strip_prefix(key));
        values.next()?.parse().ok()
    };
    let row = |(place, certificate): (u64, &String)| {
        let [area, axial] = ["area=", "axial="].map(|key| figure(certificate, key));
        Some(vec![place, area?, axial?])
    };
    (1..).zip(answers).filter_map(row).collect()
}

/// A count has at most four digits, a place too, a figure as many as can be spelt, and
/// a sum those of so many figures.
#[test]
fn no_report_is_longer() {
    let digits = |number: u64| number.to_string().len();
    let count = digits(MOST_SHEETS as u64);
    let sum = digits(MOST_SPELT * MOST_SHEETS as u64);
    let row = count + 1 + digits(MOST_SPELT) + 1 + digits(MOST_SPELT) + 1;
    let head = (HEAD - 2) * (count + 1) + 2 * (sum + 1);
    assert_eq!(head + MOST_SHEETS * row, LONGEST_REPORT);
    assert_eq!((count, sum), (4, 13));
    for text in [mixed(MOST_SHEETS), in_turn(&accepted_sheets(), MOST_SHEETS)] {
        assert!(printed_report(text.as_bytes()).len() <= LONGEST_REPORT);
    }
    assert_eq!(Report::default().text().lines().count(), HEAD);
}
