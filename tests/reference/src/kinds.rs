//! What a section can show: the kinds of which the cases have to have some.

use crate::pair::Pair;
use crate::rules::{
    straddles_jump, thousandths, FACTOR_JUMPS_AT, FACTOR_ONE_TO, LIP_HALF_TO, OUTSTAND, SUPPORTED,
};
use crate::sheet::{ask_allowance, Figures, Sheet};
use crate::working::{Round, Stiffener, Working};

/// A kind of section: its name and how to know it.
pub type Kind = (&'static str, fn(&Sheet, &Working) -> bool);

pub const KINDS: [Kind; 26] = [
    ("form C", |s, _| !s.is_z()),
    ("form Z", |s, _| s.is_z()),
    ("flange 1 wider", |s, _| s.b1 > s.b2),
    ("flange 2 wider", |s, _| s.b1 < s.b2),
    ("flanges equal", |s, _| s.b1 == s.b2),
    ("lip past q = 0.35", |_, w| {
        some_ratio(w, |q| past_half(q) > 0)
    }),
    ("lip with 0.35 < q < 0.351", |_, w| {
        some_ratio(w, |q| {
            past_half(q) > 0 && past_half(q) < thousandths(q.scale, 1)
        })
    }),
    ("lip at q = 0.35", |_, w| {
        some_ratio(w, |q| past_half(q) == 0 && q.lo == q.hi)
    }),
    ("web u within 2 units of 0.673", |_, w| web_near(w)),
    ("flange u within 2 units of 0.673, round 0", |_, w| {
        flange_near(w)
    }),
    (
        "flange u within 2 units of 0.673, refining round",
        |_, w| refined_flange_near(w),
    ),
    ("lip u within 2 units of 0.748, round 0", |_, w| lip_near(w)),
    ("lip u within 2 units of 0.748, refining round", |_, w| {
        refined_lip_near(w)
    }),
    ("ud within 2 units of 0.65", |_, w| {
        ud_near(w, FACTOR_ONE_TO)
    }),
    ("ud within 2 units of 1.38", |_, w| {
        ud_near(w, FACTOR_JUMPS_AT)
    }),
    ("ud straddling 1.38 in the last round", |_, w| {
        straddles_last(w)
    }),
    ("ud straddling 1.38 in an earlier round", |_, w| {
        straddles_earlier(w)
    }),
    ("χ of the round before kept in the last round", |_, w| {
        keeps_old_factor(w)
    }),
    ("form Z with hp < c/2", |s, _| {
        s.is_z() && 2 * (s.h - s.tnom) < s.c
    }),
    ("hp - c2/2 below zero", |_, w| lip_middle(w).hi < 0),
    ("hp - c2/2 straddling zero", |_, w| {
        straddles_zero(lip_middle(w))
    }),
    ("tnom at least 3t", |s, _| s.tnom >= 3 * s.t),
    ("shift below zero", |_, w| w.shift.hi < 0),
    ("shift straddling zero", |_, w| straddles_zero(w.shift)),
    ("question 11 passed", passes_allowance),
    ("question 11 refused", |s, w| !passes_allowance(s, w)),
];

/// How many of the sections are of the kind.
pub fn count(sections: &[(Sheet, Working)], is_kind: impl Fn(&Sheet, &Working) -> bool) -> usize {
    let of_kind = |(sheet, working): &&(Sheet, Working)| is_kind(sheet, working);
    sections.iter().filter(of_kind).count()
}

/// How far the upper end of q lies past the greatest q whose k is 0.5.
fn past_half(q: Pair) -> i128 {
    q.hi - thousandths(q.scale, LIP_HALF_TO)
}

/// Some lip's q shows it.
fn some_ratio(working: &Working, shows: fn(Pair) -> bool) -> bool {
    working.lip_ratios.iter().any(|lip| shows(lip.q))
}

/// Some stiffener of the rounds shows it.
fn some_stiffener(rounds: &[Round], shows: impl Fn(&Stiffener) -> bool) -> bool {
    rounds
        .iter()
        .any(|round| round.stiffeners.iter().any(&shows))
}

/// An end within two units of a mark in thousandths.
fn near(pair: Pair, mark: i128) -> bool {
    let mark = thousandths(pair.scale, mark);
    (pair.lo - mark).abs() <= 2 || (pair.hi - mark).abs() <= 2
}

pub(crate) fn web_near(working: &Working) -> bool {
    near(working.web.u, SUPPORTED.full_to)
}

pub(crate) fn flange_near(working: &Working) -> bool {
    some_stiffener(&working.rounds[..1], |s| {
        near(s.flange.u, SUPPORTED.full_to)
    })
}

pub(crate) fn refined_flange_near(working: &Working) -> bool {
    some_stiffener(&working.rounds[1..], |s| {
        near(s.flange.u, SUPPORTED.full_to)
    })
}

pub(crate) fn lip_near(working: &Working) -> bool {
    some_stiffener(&working.rounds[..1], |s| near(s.lip.u, OUTSTAND.full_to))
}

pub(crate) fn refined_lip_near(working: &Working) -> bool {
    some_stiffener(&working.rounds[1..], |s| near(s.lip.u, OUTSTAND.full_to))
}

/// In any round; the mark is in thousandths.
pub(crate) fn ud_near(working: &Working, mark: i128) -> bool {
    some_stiffener(&working.rounds, |s| near(s.ud, mark))
}

pub(crate) fn straddles_last(working: &Working) -> bool {
    let last = working.rounds.len() - 1;
    some_stiffener(&working.rounds[last..], |s| straddles_jump(s.ud))
}

pub(crate) fn straddles_earlier(working: &Working) -> bool {
    let last = working.rounds.len() - 1;
    some_stiffener(&working.rounds[..last], |s| straddles_jump(s.ud))
}

fn keeps_old_factor(working: &Working) -> bool {
    let last = working.rounds.len() - 1;
    some_stiffener(&working.rounds[last..], |s| s.chi != s.chi_new)
}

/// hp − c2÷2.
pub(crate) fn lip_middle(working: &Working) -> Pair {
    let last = working.rounds[working.rounds.len() - 1];
    working.lengths.hp - last.stiffeners[1].c_eff / working.scale.whole(2)
}

pub(crate) fn straddles_zero(pair: Pair) -> bool {
    pair.lo < 0 && pair.hi > 0
}

pub fn passes_allowance(sheet: &Sheet, working: &Working) -> bool {
    ask_allowance(sheet, working, &Figures::of(sheet, working)).is_ok()
}
