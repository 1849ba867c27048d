//! The table of lip coefficients and the lookup in it (document 02, W-203).

use reference::finer::MULTIPLES;
use reference::lip_table::{
    coefficient, ratios_near_entries, table, table_text, worked_coefficient, write_table,
    Coefficient, Entry, ENTRIES, GREATEST, LEAST, STEP, TABLE_LENGTH,
};
use reference::text::Answer;

/// The refusal's number, the line and the length, and both ends.
type LookedUp = ((u64, u64, u64), (u64, u64));

fn looked_up(ratio: u64) -> LookedUp {
    let found = coefficient(ratio);
    let Answer {
        refusal,
        line,
        length,
    } = found.answer;
    ((refusal, line, length), (found.lower, found.upper))
}

fn in_order(lower: u64, upper: u64) -> LookedUp {
    ((0, 0, 0), (lower, upper))
}

#[test]
fn the_table_has_a_line_for_each_thousandth() {
    let ratios: Vec<u64> = table().iter().map(|entry| entry.ratio).collect();
    let thousandths: Vec<u64> = (350..=600).map(|n| n * 1000).collect();
    assert_eq!(ratios, thousandths);
    assert_eq!(ratios.len(), ENTRIES);
    let text = table_text();
    assert_eq!(text.len(), TABLE_LENGTH);
    assert_eq!(text.lines().count(), ENTRIES);
    assert!(text.starts_with("500000 500000\n508300 508300\n"));
    assert!(text.ends_with("\n829385 829387\n"));
}

/// Case 8 of document 01 is entry 125. Where the ratio passes 0.35 by a cube, k is a whole
/// number of millionths.
#[test]
fn entries_at_cubes_are_exact() {
    for (i, k) in [
        (0, 500_000),
        (1, 508_300),
        (8, 533_200),
        (27, 574_700),
        (64, 632_800),
        (125, 707_500),
        (216, 798_800),
    ] {
        let Entry {
            ratio,
            lower,
            upper,
        } = table()[i];
        assert_eq!((lower, upper), (k, k), "entry {i}");
        assert_eq!(looked_up(ratio), in_order(k, k));
    }
}

/// With x and y for the ends less 0.5: x³ ≤ 0.83³ × (i/1000)² ≤ y³.
#[test]
fn each_entry_holds_the_exact_coefficient() {
    for (i, entry) in (0i128..).zip(table()) {
        let [lower, upper] = [entry.lower, entry.upper].map(i128::from);
        let [least, most] = [lower, upper].map(|end| (end - 500_000).pow(3) * 1_000_000);
        let exact = 830_000i128.pow(3) * i * i;
        assert!(least <= exact && exact <= most, "entry {i}");
        assert!(upper - lower <= 2, "entry {i}");
    }
}

#[test]
fn both_ends_rise_from_entry_to_entry() {
    for two in table().windows(2) {
        assert!(two[0].lower < two[1].lower, "{two:?}");
        assert!(two[0].upper < two[1].upper, "{two:?}");
    }
}

#[test]
fn the_table_is_written_where_it_fits() {
    for room in 0..TABLE_LENGTH + 10 {
        let mut buffer = vec![7; room];
        let answer = write_table(&mut buffer);
        let fits = room >= TABLE_LENGTH;
        let text = if fits { table_text() } else { String::new() };
        let (written, behind) = buffer.split_at(text.len());
        assert_eq!(written, text.as_bytes());
        assert!(behind.iter().all(|&byte| byte == 7));
        assert_eq!(answer.refusal, if fits { 0 } else { 12 });
        assert_eq!((answer.line, answer.length), (0, TABLE_LENGTH as u64));
    }
}

#[test]
fn ends_are_those_of_the_entries_at_or_about_a_ratio() {
    for entry in table() {
        assert_eq!(looked_up(entry.ratio), in_order(entry.lower, entry.upper));
    }
    for two in table().windows(2) {
        for past in [1, 2, STEP / 2, STEP - 1] {
            let found = looked_up(two[0].ratio + past);
            assert_eq!(found, in_order(two[0].lower, two[1].upper), "{two:?}");
        }
    }
}

#[test]
fn question_16() {
    let outside = ((16, 0, 0), (0, 0));
    for ratio in [0, 1, 350, 600, LEAST - 1, GREATEST + 1, 1 << 32, u64::MAX] {
        assert_eq!(looked_up(ratio), outside, "{ratio}");
    }
    assert_eq!(looked_up(LEAST), in_order(500_000, 500_000));
    assert_eq!(looked_up(GREATEST), in_order(829_385, 829_387));
}

#[test]
fn the_worked_coefficient_lies_between() {
    for ratio in LEAST..=GREATEST {
        let worked = worked_coefficient(ratio, 1);
        assert!(coefficient(ratio).holds(worked, 1), "{ratio}");
    }
    let some = (LEAST..=GREATEST).step_by(89);
    for ratio in ratios_near_entries().chain(some) {
        for m in MULTIPLES {
            let worked = worked_coefficient(ratio, m);
            assert!(coefficient(ratio).holds(worked, m), "{ratio}, m = {m}");
        }
    }
}

/// Ends that are off by one, at an exact entry, do not hold its coefficient.
#[test]
fn ends_too_near_are_found() {
    let ratio = 475_000;
    let right = coefficient(ratio);
    for m in [1].into_iter().chain(MULTIPLES) {
        let worked = worked_coefficient(ratio, m);
        let lower = right.lower + 1;
        let upper = right.upper - 1;
        assert!(right.holds(worked, m));
        assert!(!Coefficient { lower, ..right }.holds(worked, m));
        assert!(!Coefficient { upper, ..right }.holds(worked, m));
    }
}
