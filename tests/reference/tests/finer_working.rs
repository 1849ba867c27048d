//! Demand 3 and the nesting of every pair, on the generated sections.

use reference::finer::{failures, inequalities, MULTIPLES};
use reference::generate::{sections, worked_sections};
use reference::kinds::{count, passes_allowance, KINDS};
use reference::named::SHEET_B;
use reference::sheet::{ask_numbers, Figures, Sheet, FINENESSES};
use reference::text::{check, read_certificate, write_from_numbers, LONGEST_CERTIFICATE};
use reference::working::{worked, Working};

/// The sheet and figures that the written certificate shows.
fn written(sheet: &Sheet) -> Option<(Sheet, Figures)> {
    let mut buffer = [0; LONGEST_CERTIFICATE];
    let answer = write_from_numbers(sheet.numbers(), &mut buffer);
    if answer.refusal != 0 {
        return None;
    }
    let certificate = &buffer[..answer.length as usize];
    assert_eq!(check(certificate), answer);
    Some(read_certificate(certificate).expect("a certificate"))
}

#[test]
fn demand_3_on_the_written_certificates() {
    let mut accepted = [0; FINENESSES.len()];
    for sheet in sections() {
        let Some((shown, figures)) = written(&sheet) else {
            assert!(!passes_allowance(&sheet, &worked(&sheet)));
            continue;
        };
        assert_eq!(shown, sheet);
        accepted[usize::from(sheet.fine != FINENESSES[0])] += 1;
        for m in std::iter::once(1).chain(MULTIPLES) {
            let failed = failures(&shown, &figures, m);
            assert!(failed.is_empty(), "{failed:?} at m = {m} of {sheet:?}");
        }
    }
    assert!(accepted.iter().all(|&n| n >= 100), "{accepted:?} accepted");
}

/// Every pair of the finer working lies inside that of ours.
#[test]
fn finer_pairs_lie_inside() {
    for sheet in sections() {
        let ours = worked(&sheet).named();
        for m in MULTIPLES {
            let finer = Working::of(&sheet, sheet.finer_scale(m)).named();
            for ((name, outer), (_, inner)) in ours.iter().zip(&finer) {
                let inside = m * outer.lo <= inner.lo && inner.hi <= m * outer.hi;
                assert!(inside, "{name} at m = {m} of {sheet:?}");
            }
        }
    }
}

/// Each inequality finds a figure that is moved just past what it allows: one unit,
/// or as much as `allow` leaves.
#[test]
fn figures_past_the_inequalities_are_found() {
    let figures = ask_numbers(SHEET_B.numbers()).expect("sheet B").figures;
    assert_eq!(inequalities(&SHEET_B, &figures, 10).len(), 12);
    let [area, axial, _, _, shiftlo, shifthi] = [0, 1, 2, 3, 4, 5];
    for (place, by, claim) in [
        (area, 1, "area lower from below"),
        (area, -10, "area upper from above"),
        (axial, 1, "axial lower from below"),
        (axial, -36, "axial upper from above"),
        (shiftlo, 1, "shift lower from below"),
        (shifthi, -1, "shift upper from above"),
    ] {
        let mut numbers = figures.numbers();
        numbers[place] += by;
        let failed = failures(&SHEET_B, &Figures::from_numbers(numbers), 10);
        assert!(failed.iter().any(|name| name == claim), "{claim}");
    }
}

#[test]
fn every_kind_of_section_is_there() {
    let all = worked_sections();
    for (name, is_kind) in KINDS {
        assert!(count(&all, is_kind) >= 5, "{name}");
        for fine in FINENESSES {
            let of_fineness = count(&all, |s, w| s.fine == fine && is_kind(s, w));
            assert!(of_fineness >= 2, "{name}, fine={fine}");
        }
    }
    for rounds in 0..=8 {
        assert!(count(&all, |sheet, _| sheet.rounds == rounds) >= 20);
    }
}
