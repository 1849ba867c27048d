//! Sheet B against the values that source 002 prints. 002 has one kf for both flanges,
//! flange 1's own; flange 2 has its own now (W-201), so what 002 prints of flange 2's
//! slenderness and factor is worked here with 002's kf.

use reference::named::SHEET_B;
use reference::pair::{Pair, Scale};
use reference::rules::thickness_factor;
use reference::sheet::Sheet;
use reference::working::{worked, Parts, Working};

/// Both ends round to the printed decimal, half up.
fn rounds_to(pair: Pair, printed: &str) -> bool {
    let places = printed
        .split_once('.')
        .map_or(0, |(_, after)| after.len() as u32);
    let digits: i128 = printed.replace('.', "").parse().expect("a decimal");
    let unit = pair.scale.units() / 10i128.pow(places);
    [pair.lo, pair.hi]
        .iter()
        .all(|end| (end + unit / 2).div_euclid(unit) == digits)
}

fn assert_all_round(printed: &[(Pair, &str)]) {
    for &(pair, decimal) in printed {
        assert!(
            rounds_to(pair, decimal),
            "{:?} is not {decimal}",
            pair.ends()
        );
    }
}

fn sheet_b() -> Working {
    worked(&SHEET_B)
}

/// ud of flange 2 in a round, from kf of flange 1.
fn ud2_by_002(b: &Working, round: usize) -> Pair {
    let [one, two] = b.rounds[round].stiffeners;
    let (s, g, o, hp) = (b.scale, two.g, one.g, b.lengths.hp);
    let d = g * g * hp + g * g * g + s.exact(1, 2) * g * o * hp * one.kf;
    let fourth = d / two.j * two.big_t * two.big_t * s.exact(91, 100) / s.whole(1_000_000);
    fourth.root().root()
}

/// The parts that carry, with χ2 from kf of flange 1 in the last round. Flange 2 is full
/// there, whichever χ2 the round before had.
fn parts_by_002(b: &Working) -> Parts {
    let mut parts = b.parts;
    parts.chi[1] = thickness_factor(ud2_by_002(b, b.rounds.len() - 1));
    parts
}

#[test]
fn mid_line_lengths() {
    let lengths = sheet_b().lengths;
    assert_all_round(&[
        (lengths.hp, "198"),
        (lengths.bp[0], "72"),
        (lengths.bp[1], "64"),
        (lengths.cp, "19.8"),
    ]);
}

#[test]
fn slenderness() {
    let b = sheet_b();
    let [one, two] = b.rounds[0].stiffeners;
    assert_all_round(&[
        (one.flange.u, "0.789"),
        (two.flange.u, "0.702"),
        (one.lip.u, "0.614"),
        (two.lip.u, "0.614"),
        (b.web.u, "2.171"),
    ]);
}

#[test]
fn lip_ratios() {
    let b = sheet_b();
    assert_all_round(&[
        (b.lip_ratios[0].q, "0.275"),
        (b.lip_ratios[1].q, "0.309"),
        (b.lip_ratios[0].k, "0.5"),
        (b.lip_ratios[1].k, "0.5"),
    ]);
}

#[test]
fn parts_that_count() {
    let b = sheet_b();
    let [one, two] = b.rounds[0].stiffeners;
    assert_all_round(&[
        (one.flange.rho, "0.914"),
        (two.flange.rho, "0.978"),
        (one.lip.rho, "1"),
        (two.lip.rho, "1"),
        (b.web.rho, "0.414"),
        (b.parts.be1[0], "32.9"),
        (b.parts.be1[1], "31.3"),
        (b.parts.he, "41"),
    ]);
}

#[test]
fn stiffeners_before_refining() {
    let b = sheet_b();
    let [one, two] = b.rounds[0].stiffeners;
    let t = b.lengths.t;
    assert_all_round(&[
        (t * one.a, "103.3"),
        (t * two.a, "100.2"),
        (one.g, "61.73"),
        (two.g, "54.41"),
        (one.kf, "0.97"),
        (t * one.j, "3663"),
        (t * two.j, "3618"),
        (one.ud, "1.064"),
        (ud2_by_002(&b, 0), "0.999"),
        (one.chi, "0.701"),
        (thickness_factor(ud2_by_002(&b, 0)), "0.75"),
    ]);
}

#[test]
fn stiffeners_refined() {
    let b = sheet_b();
    let [one, two] = b.rounds[1].stiffeners;
    let chi2 = parts_by_002(&b).chi[1];
    assert_all_round(&[
        (one.be2, "36"),
        (two.be2, "32"),
        (one.c_eff, "19.8"),
        (two.c_eff, "19.8"),
        (one.chi, "0.693"),
        (chi2, "0.749"),
        (one.chi, "0.69"),
        (chi2, "0.75"),
    ]);
}

#[test]
fn area_and_axis() {
    let b = sheet_b();
    assert_all_round(&[
        (b.lengths.t * b.gross.length, "732"),
        (b.gross.z, "96.88"),
        (parts_by_002(&b).axis().z, "98.3"),
    ]);
}

/// Without rounds: 433.88 mm² and 98.82 mm, which 002 has from rounded
/// parts, so the last place is not asked.
#[test]
fn area_and_axis_without_rounds() {
    let b = worked(&Sheet {
        rounds: 0,
        ..SHEET_B
    });
    let axis = parts_by_002(&b).axis();
    assert_all_round(&[(b.lengths.t * axis.length, "434"), (axis.z, "98.8")]);
}

/// What docs/WORKING.md, 17, says of the difference. 1.03 is the inverse ratio of 002's areas
/// 103.3 and 100.2 mm², 437.56 is W-201's, 0.749 is 002's; 0.741 and 438.39 are the reference's
/// own, so that of them only the page is held here.
#[test]
fn flange_2_by_its_own_ratio() {
    let b = sheet_b();
    let by_002 = parts_by_002(&b);
    assert_all_round(&[
        (b.rounds[0].stiffeners[1].kf, "1.03"),
        (b.parts.chi[1], "0.741"),
        (by_002.chi[1], "0.749"),
        (b.area, "437.56"),
        (b.lengths.t * by_002.axis().length, "438.39"),
    ]);
}

/// With 002's own rounded parts, area and axis are as it prints them.
#[test]
fn area_and_axis_from_rounded_parts() {
    let s = Scale::multiple(1);
    let rounded = Parts {
        hp: s.whole(198),
        he: s.whole(41),
        be1: [s.exact(329, 10), s.exact(313, 10)],
        be2: [s.whole(36), s.whole(32)],
        c_eff: [s.exact(198, 10); 2],
        chi: [s.exact(69, 100), s.exact(75, 100)],
    };
    let axis = rounded.axis();
    assert_all_round(&[
        (s.exact(196, 100) * axis.length, "438.16"),
        (axis.z, "98.39"),
    ]);
}
