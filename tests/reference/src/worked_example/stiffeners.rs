//! The stiffener of each flange, in every round.

use super::section::*;
use super::{at_the_ends, from_step, keep, take, titled, width_that_counts};
use super::{FACTORS, FLANGES, LIPS, MID_WIDTHS};
use crate::rules::{thousandths, FACTOR_JUMPS_AT, FACTOR_ONE_TO, OUTSTAND, SUPPORTED};
use crate::steps::Steps;
use crate::working::{Round, Stiffener, Working};

pub fn round(steps: &mut Steps, working: &Working, number: usize) {
    let round = &working.rounds[number];
    let title = match number {
        0 => "Stiffeners, first working".to_string(),
        _ => format!("Stiffeners, refining round {number}"),
    };
    steps.lines(format!("### 18.{} {title}", number + 5));
    if number > 0 {
        refined_widths(steps, round);
    }
    for i in 0..2 {
        stiffener(steps, i, &round.stiffeners[i], number == 0);
    }
    for i in 0..2 {
        factor(steps, i, &round.stiffeners[i], number == 0);
    }
}

/// ρ of both flanges and lips, from the first u² and χ of the round before.
fn refined_widths(steps: &mut Steps, round: &Round) {
    steps.paragraph(
        "u² of flange and lip is that of the first working, multiplied by the flange's χ of the round before. be1 stays. \
         χ of the round is the smaller of the new χ and the old one, end by end.",
    );
    for i in 0..2 {
        let Stiffener { flange, lip, .. } = round.stiffeners[i];
        for (owner, plane, rule) in [
            (FLANGES[i], flange, (WEB_AND_FLANGES, SUPPORTED)),
            (LIPS[i], lip, (LIP, OUTSTAND)),
        ] {
            steps.begin_titled(titled(owner));
            take(steps, &["u²"], owner);
            steps.alias("χ", FACTORS[i]);
            let [u2, chi] = ["u²", "χ"].map(|symbol| from_step(steps, symbol));
            let formula = format!("u²×χ, {u2}, {chi}");
            steps.symbol(ROUNDS, "u²", &formula).is(plane.u2);
            width_that_counts(steps, &plane, rule);
            keep(steps, &["ρ"], owner);
        }
    }
}

/// What the stiffener of one flange has before the other comes in.
fn stiffener(steps: &mut Steps, i: usize, worked: &Stiffener, first: bool) {
    let (owner, bp) = (FLANGES[i], MID_WIDTHS[i]);
    steps.begin_titled(format!("Stiffener of {owner}: bp = {bp}"));
    steps.alias("bp", bp);
    effective_widths(steps, i, worked, first);
    steps.symbol(STIFFENER, "a", "be2 + c_eff").is(worked.a);
    steps.part(STIFFENER, "be2×be2");
    steps.part(STIFFENER, "2×a");
    steps.part(STIFFENER, "be2×be2÷(2×a)");
    let g = "bp − be2×be2÷(2×a)";
    steps.symbol(STIFFENER, "g", g).is(worked.g);
    second_moment(steps, worked);
    steps.part(STIFFENER, "fyb×a");
    steps.part(STIFFENER, "fyb×a÷t");
    steps.symbol(STIFFENER, "T", "fyb×a÷t÷210").is(worked.big_t);
    keep(steps, &["be2", "a", "g", "J", "T"], owner);
    steps.alias(["a1", "a2"][i], "a");
    steps.alias(["c1", "c2"][i], "c_eff");
}

/// be1, be2 and c_eff.
fn effective_widths(steps: &mut Steps, i: usize, worked: &Stiffener, first: bool) {
    let owner = FLANGES[i];
    take(steps, &["ρ"], owner);
    let part = format!("0.5×ρ, {}", from_step(steps, "ρ"));
    steps.part(STIFFENER, &part);
    let be2 = if first { "be1 = be2" } else { "be2" };
    steps.symbol(STIFFENER, be2, "0.5×ρ×bp").is(worked.be2);
    if first {
        keep(steps, &["be1"], owner);
    }
    take(steps, &["ρ"], LIPS[i]);
    let formula = format!("ρ×cp, the lip's own {}", from_step(steps, "ρ"));
    steps.symbol(STIFFENER, "c_eff", &formula).is(worked.c_eff);
}

fn second_moment(steps: &mut Steps, worked: &Stiffener) {
    for part in [
        "be2×t",
        "be2×t×t",
        "be2×t×t÷12",
        "c_eff×c_eff",
        "c_eff×c_eff×c_eff",
        "c_eff×c_eff×c_eff÷12",
        "c_eff×c_eff×c_eff×be2",
        "4×a",
        "c_eff×c_eff×c_eff×be2÷(4×a)",
    ] {
        steps.part(STIFFENER, part);
    }
    let j = "be2×t×t÷12 + c_eff×c_eff×c_eff÷12 + c_eff×c_eff×c_eff×be2÷(4×a)";
    steps.symbol(STIFFENER, "J", j).is(worked.j);
}

/// kf, D and ud of one flange, then χ.
fn factor(steps: &mut Steps, i: usize, worked: &Stiffener, first: bool) {
    let (owner, other) = (FLANGES[i], FLANGES[1 - i]);
    steps.begin_titled(format!("Factor of {owner}: o = g of {other}"));
    take(steps, &["g", "J", "T"], owner);
    steps.alias("o", &format!("g of {other}"));
    let kf = format!("a of {other} ÷ a of {owner}");
    steps.symbol(STIFFENER, "kf", &kf).is(worked.kf);

    for part in [
        "g×g",
        "g×g×hp",
        "g×g×g",
        "0.5×g",
        "0.5×g×o",
        "0.5×g×o×hp",
        "0.5×g×o×hp×kf",
    ] {
        steps.part(STIFFENER, part);
    }
    let d = "g×g×hp + g×g×g + 0.5×g×o×hp×kf";
    steps.symbol(STIFFENER, "D", d).is(worked.d);

    for part in [
        "D÷J",
        "D÷J×T",
        "D÷J×T×T",
        "D÷J×T×T×0.91",
        "D÷J×T×T×0.91÷1000000",
        "root of (D÷J×T×T×0.91÷1000000)",
    ] {
        steps.part(STIFFENER, part);
    }
    let ud = "root of root of (D÷J×T×T×0.91÷1000000)";
    steps.symbol(STIFFENER, "ud", ud).is(worked.ud);

    thickness_factor(steps, i, worked, first);
    steps.alias(FACTORS[i], "χ");
}

/// χ of ud; in a refining round the smaller of that and the flange's χ of the round before.
fn thickness_factor(steps: &mut Steps, i: usize, worked: &Stiffener, first: bool) {
    let limit = |n| thousandths(worked.ud.scale, n);
    assert!(worked.ud.lo > limit(FACTOR_ONE_TO) && worked.ud.hi < limit(FACTOR_JUMPS_AT));
    let words = format!("1.47 − 0.723 × ud, {}", at_the_ends("ud", worked.ud));
    let new = if first { "χ" } else { "new χ" };
    steps.by_rule(FACTOR, new, &words, worked.chi_new);
    if !first {
        steps.alias("old χ", FACTORS[i]);
        let old = from_step(steps, "old χ");
        let formula = format!("the smaller of new χ and old χ, {old}");
        steps.symbol(ROUNDS, "χ", &formula).is(worked.chi);
    }
}
