//! The kept sheets lie near the thresholds at every end and distance that occurs,
//! and the others do not occur.

use reference::chance::{Chance, SEED};
use reference::limits::{at_limit, limits};
use reference::pair::{Pair, Scale};
use reference::rules::thousandths;
use reference::sheet::FINENESSES;
use reference::thresholds::{kept, shown, Near, KEPT, THRESHOLDS};
use reference::working::worked;

#[test]
fn kept_sheets_lie_near_every_threshold() {
    let workings: Vec<_> = kept().into_iter().map(|s| (s, worked(&s))).collect();
    for threshold in &THRESHOLDS {
        for (fine, kept) in KEPT {
            let near = Near::of(threshold, fine, &workings);
            let name = threshold.name;
            assert!(near.fewest(threshold) >= kept, "{name}, fine={fine}");
            let occur = near.at_distances.map(|end| end.map(|n| n > 0));
            assert_eq!(occur, threshold.occur(fine), "{name}, fine={fine}");
        }
    }
}

/// Asserts that the pairs at each scale show each end and distance that occurs, and no
/// others.
fn assert_shown<T: Iterator<Item = Pair>>(name: &str, pairs: impl Fn(Scale) -> T) {
    let threshold = THRESHOLDS.iter().find(|t| t.name == name);
    let threshold = threshold.expect("a threshold");
    for fine in FINENESSES {
        let pairs = pairs(Scale::multiple(fine as i128));
        let distances = pairs.map(|pair| threshold.from(pair));
        assert_eq!(
            shown(distances),
            threshold.occur(fine),
            "{name}, fine={fine}"
        );
    }
}

/// Every cp near 0.35 bp, in half hundredths, of every bp up to 200 mm.
#[test]
fn ratios_near_the_threshold() {
    assert_shown("q at 0.35", |s| {
        (1000..20_000).flat_map(move |bp: i128| {
            let twice = 7 * bp / 10;
            (twice - 1..twice + 3).map(move |cp| s.exact(cp, 200) / s.exact(bp, 100))
        })
    });
}

/// Every fourth power near that of the threshold, in units.
#[test]
fn stiffener_slenderness_near_the_thresholds() {
    for (name, mark) in [("ud at 0.65", 650), ("ud at 1.38", 1380)] {
        assert_shown(name, |s| {
            let (mark, one) = (thousandths(s, mark), s.units());
            let fourth = mark * mark / one * mark / one * mark / one;
            (fourth - 1000..fourth + 1000).map(move |x| s.pair(x, x).root().root())
        });
    }
}

/// No number lies below 0, so a limit at 0 has no sheets past it, and one at 1 none two past
/// it. Two units within its range the form would be below 0 or above 1, and one or two within
/// it fine would be between 1 and 10.
#[test]
fn limits_are_reached_from_both_sides() {
    let mut chance = Chance::seeded(SEED);
    for limit in limits() {
        let found = at_limit(&limit, &mut chance, 2).map(|sheets| sheets.len());
        let from_both = match limit.name().as_str() {
            "question 2: - form" => [0, 2, 2, 0, 0],
            "question 2: form - 1" => [0, 2, 2, 2, 2],
            "question 2: - fine + 1" => [0, 0, 2, 2, 0],
            "question 2: fine - 10" => [0, 0, 2, 2, 2],
            "question 2: - r" | "question 2: - rounds" | "question 2: - allow" => [2, 2, 2, 0, 0],
            _ => [2; 5],
        };
        assert_eq!(found, from_both, "{}", limit.name());
    }
}
