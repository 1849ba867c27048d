//! Each flange has its own ratio kf (W-201): equal flanges are worked as before, but where
//! W-205 keeps χ from rising, and of unequal ones flange 2 is worked as flange 1 would be in
//! its place.

use reference::generate::worked_sections;
use reference::section_cases::{line, result_line};
use reference::sheet::place::FINE;
use reference::sheet::Sheet;
use reference::working::{worked, Stiffener, Working};

/// The sheets of equal_flanges.txt, each with its line. They have no number fine, since
/// all were worked as with fine=1 (W-204).
fn worked_before() -> Vec<(Sheet, &'static str)> {
    let lines = include_str!("../equal_flanges.txt").lines();
    let of_line = |line: &'static str| {
        let words = line.split(' ').map_while(|word| word.parse().ok());
        let numbers: Vec<u64> = words.take(FINE).chain([1]).collect();
        let sheet = Sheet::from_numbers(numbers.try_into().expect("a sheet's numbers"));
        (sheet, line)
    };
    lines
        .filter(|line| !line.starts_with('#'))
        .map(of_line)
        .collect()
}

#[test]
fn equal_flanges_are_worked_as_before() {
    let before = worked_before();
    for &(sheet, expected) in &before {
        assert_eq!(sheet.b1, sheet.b2, "{expected}");
        let numbers = line(&sheet.numbers()[..FINE]).replace('\n', " ");
        let now = numbers + &result_line(&sheet, &worked(&sheet));
        assert_eq!(now.trim_end(), expected);
    }
    for is_z in [false, true] {
        let of_form = before.iter().filter(|(sheet, _)| sheet.is_z() == is_z);
        let refined = of_form.clone().filter(|(sheet, _)| sheet.rounds > 0);
        let counts = (of_form.count(), refined.count());
        assert!(
            counts.0 >= 25 && counts.1 >= 8,
            "form Z: {is_z}, {counts:?}"
        );
    }
}

/// The generated sections of which flange 1 is the wider, and those of which flange 2 is, some of
/// either form.
fn unequal_sections() -> Vec<(Sheet, Working)> {
    let mut all = worked_sections();
    all.retain(|(sheet, _)| sheet.b1 != sheet.b2);
    for kind in [(false, false), (false, true), (true, false), (true, true)] {
        let of_kind = |(sheet, _): &&(Sheet, Working)| (sheet.is_z(), sheet.b1 > sheet.b2) == kind;
        assert!(all.iter().filter(of_kind).count() >= 40, "{kind:?}");
    }
    all
}

#[test]
fn exchanged_flanges_have_exchanged_factors() {
    for (sheet, working) in unequal_sections() {
        let exchanged = worked(&Sheet {
            b1: sheet.b2,
            b2: sheet.b1,
            ..sheet
        });
        let [chi1, chi2] = working.parts.chi;
        assert_eq!(exchanged.parts.chi, [chi2, chi1], "{sheet:?}");
        assert_eq!(exchanged.area, working.area, "{sheet:?}");
    }
}

/// The flange whose stiffener has the larger a has a ratio below 1, and the other one above 1.
#[test]
fn the_larger_stiffener_has_the_smaller_ratio() {
    let one = |s: &Stiffener| s.kf.scale.units();
    let mut seen = 0;
    for (sheet, working) in unequal_sections() {
        for round in working.rounds {
            let [larger, smaller] = match round.stiffeners {
                [a, b] if a.a.lo > b.a.hi => [a, b],
                [a, b] if b.a.lo > a.a.hi => [b, a],
                _ => continue,
            };
            assert!(larger.kf.hi <= one(&larger), "{sheet:?}");
            assert!(smaller.kf.lo >= one(&smaller), "{sheet:?}");
            seen += 1;
        }
    }
    assert!(seen >= 500, "only {seen} rounds");
}
