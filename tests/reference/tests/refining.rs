//! Refining never goes upward (document 02, W-205): each round takes, end by end, the
//! smaller of the new χ and the old one, flange by flange.

use reference::cases::{certificate_of, certificates, with, would_rise};
use reference::chance::{Chance, SEED};
use reference::finer::{failures, MULTIPLES};
use reference::named::{SHEET_A, SHEET_B};
use reference::pair::Pair;
use reference::random::any_section;
use reference::refining::worked_before;
use reference::rising::{rising, with_all_rounds};
use reference::rules::{thickness_factor, WidthRule, OUTSTAND, SUPPORTED};
use reference::sheet::{ask_numbers, Figures, Sheet, FINENESSES};
use reference::text::read_certificate;
use reference::working::{worked, Round, Stiffener, Working};

/// So many random sections of each fineness.
const RANDOM: usize = 300;

/// Random sections over the whole ranges, with both finenesses.
fn random_sections() -> Vec<Sheet> {
    let mut chance = Chance::seeded(SEED);
    let sections: Vec<Sheet> = (0..RANDOM).map(|_| any_section(&mut chance)).collect();
    let with_fineness = |fine| sections.iter().map(move |&sheet| Sheet { fine, ..sheet });
    FINENESSES.into_iter().flat_map(with_fineness).collect()
}

/// The sheets whose χ rose before, and random ones.
fn all_sheets() -> Vec<Sheet> {
    let mut sheets: Vec<Sheet> = rising().into_iter().map(|(_, sheet)| sheet).collect();
    sheets.extend(would_rise().map(|(_, sheet)| sheet));
    sheets.extend(random_sections());
    sheets
}

/// χ of both flanges with each number of rounds, worked at m times the sheet's scale.
fn factors(sheet: &Sheet, m: i128) -> Vec<[Pair; 2]> {
    let of_rounds = |sheet: &Sheet| Working::of(sheet, sheet.finer_scale(m)).parts.chi;
    with_all_rounds(sheet).iter().map(of_rounds).collect()
}

#[test]
fn no_end_rises_with_the_rounds() {
    for sheet in all_sheets() {
        for m in [1, 2, 10] {
            for pair in factors(&sheet, m).windows(2) {
                for (old, new) in pair[0].into_iter().zip(pair[1]) {
                    let risen = new.lo > old.lo || new.hi > old.hi;
                    assert!(!risen, "{:?} after {:?}: {sheet:?}", new.ends(), old.ends());
                }
            }
        }
    }
}

/// What the written certificates show, with each number of rounds that is accepted.
fn written(sheet: &Sheet) -> Vec<(Sheet, Figures)> {
    let sheets = with_all_rounds(sheet).into_iter();
    sheets
        .filter(|sheet| ask_numbers(sheet.numbers()).is_ok())
        .map(|sheet| read_certificate(certificate_of(sheet).as_bytes()).expect("a certificate"))
        .collect()
}

#[test]
fn no_certificate_shows_a_larger_factor_than_the_one_before() {
    let mut compared = 0;
    for sheet in all_sheets() {
        for pair in written(&sheet).windows(2) {
            let [(_, old), (_, new)] = [pair[0], pair[1]];
            assert!(new.chi1 <= old.chi1 && new.chi2 <= old.chi2, "{pair:?}");
            compared += 1;
        }
    }
    assert!(compared >= 4000, "only {compared}");
}

/// Demand 3 over the rule, with each number of rounds.
#[test]
fn figures_hold_finer_workings() {
    for (_, sheet) in rising() {
        for (sheet, figures) in written(&sheet) {
            for m in MULTIPLES {
                let failed = failures(&sheet, &figures, m);
                assert!(failed.is_empty(), "{failed:?} at m = {m} of {sheet:?}");
            }
        }
    }
}

/// Which flanges' printed χ rise from no round to one, by the rounds as they were.
fn rise_in_print(sheet: &Sheet) -> [bool; 2] {
    let [none, one] = [0, 1].map(|rounds| {
        let sheet = Sheet { rounds, ..*sheet };
        Figures::of(&sheet, &worked_before(&sheet, sheet.scale()))
    });
    [one.chi1 > none.chi1, one.chi2 > none.chi2]
}

#[test]
fn without_the_rule_factors_rise() {
    for (kind, sheet) in rising() {
        let rounds = worked_before(&sheet, sheet.scale()).rounds;
        assert!(kind.shown_by(&rounds), "{kind:?}: {sheet:?}");
        let now = worked(&sheet).rounds;
        assert!(!kind.shown_by(&now), "{kind:?} still: {sheet:?}");
    }
    for (name, sheet) in would_rise() {
        let expected = match name {
            "flange_1" => [true, false],
            "flange_2" => [false, true],
            _ => [true, true],
        };
        assert_eq!(rise_in_print(&sheet), expected, "{name}");
    }
}

/// The rounds as they were give the figures of certificates that were written so.
#[test]
fn older_certificates_are_of_the_rounds_as_they_were() {
    let mut changed = 0;
    let older = certificates().into_iter();
    let older: Vec<_> = older.filter(|case| case.name.contains("risen")).collect();
    for case in &older {
        let (sheet, shown) = read_certificate(&case.text).expect("a certificate");
        let before = Figures::of(&sheet, &worked_before(&sheet, sheet.scale()));
        assert_eq!(shown, before, "{}", case.name);
        changed += usize::from(Figures::of(&sheet, &worked(&sheet)) != before);
    }
    assert_eq!((older.len(), changed), (8, 5));
}

#[test]
fn sheets_that_rose_are_of_every_sort() {
    let sheets: Vec<Sheet> = rising().into_iter().map(|(_, sheet)| sheet).collect();
    for is_z in [false, true] {
        for equal in [false, true] {
            for fine in FINENESSES {
                let is_it = |s: &Sheet| (s.is_z(), s.b1 == s.b2, s.fine) == (is_z, equal, fine);
                let found = sheets.iter().any(is_it);
                assert!(found, "Z: {is_z}, equal: {equal}, fine={fine}");
            }
        }
    }
}

/// Asserts that a round follows from the one before: its widths from the first u² and the χ
/// kept before, its χ from the smaller ends.
fn assert_follows(working: &Working, old: &Round, new: &Round) {
    let (lengths, half) = (working.lengths, working.scale.exact(1, 2));
    for i in 0..2 {
        let first = working.rounds[0].stiffeners[i];
        let [old, new] = [old, new].map(|round| round.stiffeners[i]);
        let rho = |u2: Pair, rule: WidthRule| rule.rho((u2 * old.chi).root());
        let be2 = half * rho(first.flange.u2, SUPPORTED) * lengths.bp[i];
        let c_eff = rho(first.lip.u2, OUTSTAND) * lengths.cp;
        assert_eq!((new.be2, new.c_eff), (be2, c_eff));
        assert_eq!(new.a, be2 + c_eff);
        assert_eq!(new.chi_new, thickness_factor(new.ud));
        assert_eq!(new.chi.lo, new.chi_new.lo.min(old.chi.lo));
        assert_eq!(new.chi.hi, new.chi_new.hi.min(old.chi.hi));
    }
}

/// Whether the kept χ is the new one, the old one, or has an end of each.
fn taken(old: &Stiffener, new: &Stiffener) -> usize {
    match new.chi {
        chi if chi == new.chi_new => 0,
        chi if chi == old.chi => 1,
        _ => 2,
    }
}

#[test]
fn each_round_follows_from_the_one_before() {
    let mut counts = [0; 3];
    for sheet in all_sheets() {
        let working = worked(&Sheet { rounds: 8, ..sheet });
        let first = working.rounds[0].stiffeners;
        assert_eq!(first.map(|s| s.chi), first.map(|s| s.chi_new));
        for pair in working.rounds.windows(2) {
            assert_follows(&working, &pair[0], &pair[1]);
            for (old, new) in pair[0].stiffeners.iter().zip(&pair[1].stiffeners) {
                counts[taken(old, new)] += 1;
            }
        }
        let last = working.rounds[8].stiffeners;
        assert_eq!(working.parts.chi, last.map(|s| s.chi));
        assert_eq!(working.parts.be2, last.map(|s| s.be2));
        assert_eq!(working.parts.c_eff, last.map(|s| s.c_eff));
    }
    let [new, old, of_each] = counts;
    assert!(new >= 1000 && old >= 1000 && of_each >= 10, "{counts:?}");
}

/// Where a round leaves both χ as they were every later one is the same.
#[test]
fn settled_rounds_stay() {
    let mut settled = 0;
    for sheet in all_sheets() {
        let rounds = worked(&Sheet { rounds: 8, ..sheet }).rounds;
        let chi = |round: &Round| round.stiffeners.map(|s| s.chi);
        for i in 1..8 {
            if chi(&rounds[i]) == chi(&rounds[i - 1]) {
                assert_eq!(rounds[i + 1], rounds[i], "{sheet:?}");
                settled += 1;
            }
        }
    }
    assert!(settled >= 1000, "only {settled}");
}

/// Sheets A and B, of which χ never rose, with each number of rounds.
#[test]
fn sheets_a_and_b_stay_as_they_were() {
    let of_a = "area=36000\naxial=84600\nchi1=1000\nchi2=1000\nshiftlo=0\nshifthi=0\n";
    let of_b = "area=43755\naxial=153145\nchi1=693\nchi2=740\nshiftlo=124\nshifthi=125\n";
    for (sheet, figures) in [(SHEET_A, of_a), (SHEET_B, of_b)] {
        assert!(certificate_of(sheet).ends_with(&format!("\nfine=1\n{figures}")));
        for fine in ["fine=1", "fine=10"] {
            for sheet in with_all_rounds(&with(sheet, fine)) {
                let before = worked_before(&sheet, sheet.scale());
                assert_eq!(worked(&sheet).named(), before.named(), "{sheet:?}");
            }
        }
    }
}
