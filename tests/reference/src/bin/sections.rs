//! The test sections, sheets near the thresholds, and sheet B worked:
//!
//! sections --kinds                   prints how many sections are of each kind
//! sections --worked                  prints section 18 of docs/WORKING.md
//! sections --thresholds [--write]    makes tests/reference/thresholds.txt, by search

use reference::chance::{Chance, SEED};
use reference::generate::worked_sections;
use reference::kept::{hold_or_write_by, Made};
use reference::kinds::{count, KINDS};
use reference::section_cases::line;
use reference::sheet::{Sheet, FINENESSES};
use reference::thresholds::{search, KEPT, THRESHOLDS};
use reference::worked_example::worked_example;
use reference::working::Working;
use std::env;
use std::process::ExitCode;

fn main() -> ExitCode {
    let arguments: Vec<String> = env::args().skip(1).collect();
    match arguments.iter().map(String::as_str).collect::<Vec<_>>()[..] {
        ["--kinds"] => print_kinds(),
        ["--worked"] => print!("{}", worked_example()),
        ["--thresholds", ..] => return thresholds(&arguments[1..]),
        _ => {
            eprintln!("sections --kinds | --worked | --thresholds [--write]");
            return ExitCode::FAILURE;
        }
    }
    ExitCode::SUCCESS
}

/// The sheets near each threshold, one to a line, under its name; the coarser ones first.
fn thresholds(switches: &[String]) -> ExitCode {
    let mut chance = Chance::seeded(SEED);
    let mut text = "# Found and written by `sections --thresholds`.\n".to_string();
    let mut sheets = 0;
    for threshold in &THRESHOLDS {
        text += &format!("# {}\n", threshold.name);
        for (fine, kept) in KEPT {
            let found = search(threshold, fine, &mut chance, kept);
            sheets += found.len();
            text.extend(found.iter().map(|sheet| line(&sheet.numbers())));
        }
    }
    let mut made = Made::default();
    made.file("tests/reference/thresholds.txt", text);
    hold_or_write_by(switches, "thresholds", &format!("{sheets} sheets"), &made)
}

fn print_kinds() {
    let all = worked_sections();
    let print = |name: &str, is_kind: &dyn Fn(&Sheet, &Working) -> bool| {
        let counts = FINENESSES.map(|fine| count(&all, |s, w| s.fine == fine && is_kind(s, w)));
        println!("{:4} {:4} {name}", counts[0], counts[1]);
    };
    print("sections, fine=1 and fine=10", &|_, _| true);
    for (name, is_kind) in KINDS {
        print(name, &is_kind);
    }
    for rounds in 0..=8 {
        print(&format!("rounds {rounds}"), &|sheet, _| {
            sheet.rounds == rounds
        });
    }
}
