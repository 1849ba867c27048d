//! Section 18 of docs/WORKING.md, and the certificate of README.md: both of sheet B.

use reference::cases::certificate_of;
use reference::named::SHEET_B;
use reference::repository::certificate_shown;
use reference::steps::fixed;
use reference::worked_example::{worked_example, HEADING};
use reference::working::worked;

#[test]
fn every_kept_pair_is_shown() {
    let section = worked_example();
    let named = worked(&SHEET_B).named();
    assert_eq!(named.len(), 102);
    for (name, pair) in named {
        let [lower, upper] = [pair.lo, pair.hi].map(|end| fixed(end, pair.scale));
        let cells = format!("| {lower} | {upper} |");
        assert!(section.contains(&cells), "{name}: {cells}");
    }
}

#[test]
fn readme_shows_the_certificate() {
    assert_eq!(certificate_shown(), certificate_of(SHEET_B));
}

#[test]
fn all_inequalities_hold() {
    let section = worked_example();
    let held = section.lines().filter(|line| line.ends_with("| yes |"));
    assert_eq!(held.count(), 12);
}

#[test]
fn the_heading_stands_once_and_first() {
    let section = worked_example();
    assert!(section.starts_with(&format!("{HEADING}\n")));
    assert_eq!(section.matches("\n## ").count(), 0);
}
