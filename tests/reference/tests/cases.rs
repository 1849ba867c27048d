//! The programs' cases show what they are meant to show.

use reference::cases::{catalogues, certificates, sheets, Case, Meant};
use reference::catalogue::{write_report, LONGEST_REPORT};
use reference::text::{check, write_from_text, Answer, LONGEST_CERTIFICATE};
use std::collections::BTreeSet;

/// Asserts that each case is answered as meant; the refusals that came up.
fn answered_as_meant(cases: &[Case], answer: impl Fn(&[u8]) -> Answer) -> BTreeSet<u64> {
    let names: BTreeSet<&str> = cases.iter().map(|case| case.name.as_str()).collect();
    assert_eq!(names.len(), cases.len(), "two cases of one name");
    let mut refusals = BTreeSet::new();
    for case in cases {
        let Answer { refusal, line, .. } = answer(&case.text);
        let seen = match refusal {
            0 => Meant::Passes,
            number => Meant::Refused { number, line },
        };
        assert_eq!(seen, case.meant, "{}", case.name);
        refusals.insert(refusal);
    }
    refusals
}

#[test]
fn sheets_are_answered_as_meant() {
    let write = |text: &[u8]| write_from_text(text, &mut [0; LONGEST_CERTIFICATE]);
    let refusals = answered_as_meant(&sheets(), write);
    assert_eq!(refusals, (0..=11).collect());
}

#[test]
fn certificates_are_answered_as_meant() {
    let refusals = answered_as_meant(&certificates(), check);
    assert!(refusals.is_superset(&[0, 1, 2, 7, 11, 13].into()));
}

#[test]
fn catalogues_are_answered_as_meant() {
    let write = |text: &[u8]| write_report(text, &mut [0; LONGEST_REPORT]);
    let refusals = answered_as_meant(&catalogues(), write);
    assert_eq!(refusals, [0, 14, 15].into());
}
