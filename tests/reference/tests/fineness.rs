//! The line fine and the scale that it sets (document 02, W-204).

use reference::cases::{certificate_of, fine_section, text_of, with};
use reference::generate::{needed_allowance, sections};
use reference::named::{SHEET_A, SHEET_B};
use reference::pair::Scale;
use reference::sheet::{ask_numbers, Figures, Refusal, Sheet};
use reference::text::{check, printed, Answer};
use reference::working::{worked, Working};

#[test]
fn fine_times_1_000_000_is_the_scale() {
    for (fine, units) in [(1, 1_000_000), (10, 10_000_000)] {
        let sheet = Sheet { fine, ..SHEET_B };
        assert_eq!(sheet.scale().units(), units);
        assert_eq!(worked(&sheet).scale.units(), units);
        for m in [1, 2, 1000] {
            assert_eq!(sheet.finer_scale(m).units(), m * units);
        }
    }
}

/// Sheet A is worked without rounding, so that only its last line changes.
#[test]
fn sheet_a_with_either() {
    let coarse = certificate_of(SHEET_A);
    let fine = certificate_of(with(SHEET_A, "fine=10"));
    assert_eq!(fine, coarse.replace("fine=1\n", "fine=10\n"));
    assert!(coarse.contains("\nallow=0\nfine=1\narea=36000\n"));
}

/// What the tenth marked case asks of sheet B (W-201) holds of the finer working too.
#[test]
fn sheet_b_with_fine_10() {
    let accepted = ask_numbers(with(SHEET_B, "fine=10").numbers()).expect("sheet B");
    let figures = accepted.figures;
    assert_eq!((figures.chi1, figures.chi2), (693, 740));
    assert!((43740..=43770).contains(&figures.area));
    assert!((120..=128).contains(&figures.shiftlo));
    assert!((120..=128).contains(&figures.shifthi));
}

/// The sheet of examples/fine.txt: with fine=1 it would need more than twice its allowance.
#[test]
fn a_tight_allowance_is_met_with_fine_10() {
    let fine = fine_section();
    let coarse = with(fine, "fine=1");
    let refused = ask_numbers(coarse.numbers()).expect_err("a refusal");
    assert_eq!(
        refused,
        Refusal {
            number: 11,
            line: 12
        }
    );
    assert_eq!(printed(text_of(coarse).as_bytes()), "refused=11\nline=12\n");
    assert!(needed_allowance(&coarse) > 2 * fine.allow);
    assert!(needed_allowance(&fine) <= fine.allow);
    let certificate = certificate_of(fine);
    assert!(certificate.starts_with(&text_of(fine)));
    let Answer {
        refusal, length, ..
    } = check(certificate.as_bytes());
    assert_eq!((refusal, length), (0, certificate.len() as u64));
}

/// A certificate is checked at its own sheet's scale: with the other fineness its figures are
/// not the ones worked.
#[test]
fn figures_are_of_the_own_scale() {
    let [coarse, fine] = [1, 10].map(|fine| Sheet {
        fine,
        allow: 1000,
        ..fine_section()
    });
    let [coarse_text, fine_text] = [coarse, fine].map(certificate_of);
    let as_fine = coarse_text.replace("fine=1\n", "fine=10\n");
    let as_coarse = fine_text.replace("fine=10\n", "fine=1\n");
    for exchanged in [as_fine, as_coarse] {
        let Answer { refusal, line, .. } = check(exchanged.as_bytes());
        assert_eq!((refusal, line), (13, 14));
    }
}

/// With fine=10 a section is worked as with fine=1 at m = 10.
#[test]
fn fine_10_is_ten_times_the_scale() {
    for sheet in sections() {
        let [coarse, fine] = [1, 10].map(|fine| Sheet { fine, ..sheet });
        let finer = Working::of(&coarse, Scale::multiple(10));
        let figures = Figures::of(&fine, &worked(&fine));
        assert_eq!(worked(&fine).named(), finer.named(), "{sheet:?}");
        assert_eq!(figures, Figures::of(&coarse, &finer), "{sheet:?}");
    }
}
