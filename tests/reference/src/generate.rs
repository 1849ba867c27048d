//! Test sections with a fixed seed: random ones over the whole ranges, corners,
//! and searched ones at the thresholds of the rules. All meet questions 2 to 10.

use crate::chance::{Chance, SEED};
use crate::kinds::*;
use crate::named::{LONGEST_LIP, SHEET_A, SHEET_B};
use crate::pair::divide_up;
use crate::random::*;
use crate::rules::{thousandths, FACTOR_JUMPS_AT, FACTOR_ONE_TO, OUTSTAND, SUPPORTED};
use crate::sheet::place::{B1, C, H, ROUNDS, T, TNOM};
use crate::sheet::{Figures, Sheet, FINENESSES, RANGES};
use crate::thresholds::kept;
use crate::working::{worked, Working};
use std::sync::OnceLock;

/// A way to find sections, and how many of them are wanted.
type Search = (fn(&mut Chance) -> Option<Sheet>, usize);

const SEARCHES: [Search; 21] = [
    (corner_section, 40),
    (edge_section, 40),
    (random_section, 90),
    (ratio_just_past, 20),
    (ratio_at_threshold, 8),
    (web_at_threshold, 12),
    (flange_at_threshold, 12),
    (refined_flange_at_threshold, 12),
    (lip_at_threshold, 12),
    (refined_lip_at_threshold, 12),
    (ud_at_threshold, 18),
    (jump_in_last_round, 18),
    (jump_in_earlier_round, 18),
    (lips_past_web, 16),
    (lip_past_flange, 16),
    (much_coating, 30),
    (allowance_just_enough, 10),
    (allowance_one_short, 10),
    (ratio_past_and_thick, 4),
    (deep_lips_of_c, 6),
    (lip_across_flange, 16),
];

/// Sheet B first, sheet A, the longest lip, then all searches, then the finer of the kept
/// sheets near the thresholds, of which a search here finds few. Searched once.
pub fn sections() -> Vec<Sheet> {
    static FOUND: OnceLock<Vec<Sheet>> = OnceLock::new();
    FOUND.get_or_init(search_all).clone()
}

/// The sections with their workings.
pub fn worked_sections() -> Vec<(Sheet, Working)> {
    let with_working = |sheet: Sheet| (sheet, worked(&sheet));
    sections().into_iter().map(with_working).collect()
}

fn search_all() -> Vec<Sheet> {
    let mut chance = Chance::seeded(SEED);
    let mut found = vec![SHEET_B, SHEET_A, LONGEST_LIP];
    for (search, wanted) in SEARCHES {
        let enough = found.len() + wanted;
        for _ in 0..200_000 {
            if found.len() == enough {
                break;
            }
            match search(&mut chance) {
                Some(sheet) if !found.contains(&sheet) => found.push(sheet),
                _ => {}
            }
        }
    }
    let finer = |sheet: &Sheet| sheet.fine == FINENESSES[1];
    found.extend(kept().into_iter().filter(finer));
    found
}

/// The two neighbours of a sheet, by the number at a place, between which a worked
/// value crosses a mark in thousandths.
pub(crate) fn crossing(
    sheet: &Sheet,
    place: usize,
    value: impl Fn(&Working) -> i128,
    mark: i128,
) -> Option<[Sheet; 2]> {
    let (mut least, mut greatest) = room(sheet, place)?;
    let past = |x: u64| {
        let working = worked(&sheet.with_number(place, x));
        value(&working) > thousandths(working.scale, mark)
    };
    let at_least = past(least);
    if past(greatest) == at_least {
        return None;
    }
    while greatest - least > 1 {
        let middle = (least + greatest) / 2;
        if past(middle) == at_least {
            least = middle;
        } else {
            greatest = middle;
        }
    }
    Some([least, greatest].map(|x| sheet.with_number(place, x)))
}

/// The neighbour of a crossing that shows what is looked for.
fn searched(
    sheet: &Sheet,
    place: usize,
    value: impl Fn(&Working) -> i128,
    mark: i128,
    shows: impl Fn(&Working) -> bool,
) -> Option<Sheet> {
    crossing(sheet, place, value, mark)?
        .into_iter()
        .find(|near| meets_questions(near) && shows(&worked(near)))
}

/// tnom at least three times t.
fn much_coating(chance: &mut Chance) -> Option<Sheet> {
    let t = chance.between(RANGES[T].ends().0, 200);
    let tnom = chance.between(3 * t, RANGES[TNOM].ends().1);
    try_section(chance, tnom, t, SELDOM)
}

/// Form Z with hp < c/2.
fn lips_past_web(chance: &mut Chance) -> Option<Sheet> {
    let t = chance.between(190, RANGES[T].ends().1);
    let tnom = chance.between(t, RANGES[TNOM].ends().1);
    let widest = RANGES[B1].ends().1;
    let mut sheet = try_section(chance, tnom, t, SELDOM)?;
    sheet.form = 1;
    sheet.h = any_in_range(chance, (RANGES[H].ends().0, 6500), 3);
    sheet.b1 = any_in_range(chance, (11_000, widest), 3);
    sheet.b2 = if chance.one_in(2) {
        sheet.b1
    } else {
        chance.between(11_000, widest)
    };
    sheet.r = chance.between(0, 1000);
    let (least, greatest) = room(&sheet, C)?;
    let least = least.max(2 * (sheet.h - tnom) + 1);
    if least > greatest {
        return None;
    }
    sheet.c = any_in_range(chance, (least, greatest), 3);
    meets_questions(&sheet).then_some(sheet)
}

/// Form Z with hp − c2÷2 below zero.
fn lip_past_flange(chance: &mut Chance) -> Option<Sheet> {
    let sheet = lips_past_web(chance)?;
    (lip_middle(&worked(&sheet)).hi < 0).then_some(sheet)
}

/// Form Z with hp − c2÷2 straddling zero.
fn lip_across_flange(chance: &mut Chance) -> Option<Sheet> {
    let mut sheet = lips_past_web(chance)?;
    sheet.rounds = chance.one_in_range(RANGES[ROUNDS]);
    let across = |w: &Working| straddles_zero(lip_middle(w));
    searched(&sheet, H, |w| lip_middle(w).lo, 0, across)
}

/// A lip's q just past 0.35.
fn ratio_just_past(chance: &mut Chance) -> Option<Sheet> {
    let mut sheet = random_section(chance)?;
    let b = if chance.one_in(2) { sheet.b1 } else { sheet.b2 };
    // 2c − tnom > 0.7 bp, by as little as the sheet allows.
    let twice = 7 * (b - sheet.tnom) / 10 + sheet.tnom;
    sheet.c = twice / 2 + 1;
    meets_questions(&sheet).then_some(sheet)
}

/// A lip's q exactly 0.35.
fn ratio_at_threshold(chance: &mut Chance) -> Option<Sheet> {
    let mut sheet = random_section(chance)?;
    sheet.tnom = sheet.tnom / 2 * 2;
    let bp = (sheet.b1 - sheet.tnom) / 20 * 20;
    sheet.b1 = bp + sheet.tnom;
    sheet.c = (7 * bp / 10 + sheet.tnom) / 2;
    meets_questions(&sheet).then_some(sheet)
}

/// q just past 0.35 with eight rounds, where the pair of k widens most.
fn ratio_past_and_thick(chance: &mut Chance) -> Option<Sheet> {
    let mut sheet = ratio_just_past(chance)?;
    sheet.rounds = 8;
    sheet.allow = 1000;
    (sheet.t >= 300).then_some(sheet)
}

/// Form C with 2c = h.
fn deep_lips_of_c(chance: &mut Chance) -> Option<Sheet> {
    let mut sheet = random_section(chance)?;
    sheet.form = 0;
    sheet.h = 2 * sheet.c;
    meets_questions(&sheet).then_some(sheet)
}

fn web_at_threshold(chance: &mut Chance) -> Option<Sheet> {
    let sheet = random_section(chance)?;
    searched(&sheet, H, |w| w.web.u.hi, SUPPORTED.full_to, web_near)
}

fn flange_at_threshold(chance: &mut Chance) -> Option<Sheet> {
    let sheet = random_section(chance)?;
    let i = chance.place(2);
    let value = |w: &Working| w.rounds[0].stiffeners[i].flange.u.hi;
    searched(&sheet, FLANGES[i], value, SUPPORTED.full_to, flange_near)
}

fn lip_at_threshold(chance: &mut Chance) -> Option<Sheet> {
    let sheet = random_section(chance)?;
    let i = chance.place(2);
    let value = |w: &Working| w.rounds[0].stiffeners[i].lip.u.hi;
    searched(&sheet, C, value, OUTSTAND.full_to, lip_near)
}

/// A random section with refining rounds, one of them chosen, and one of its
/// stiffeners.
fn with_refining(chance: &mut Chance) -> Option<(Sheet, usize, usize)> {
    let mut sheet = random_section(chance)?;
    sheet.rounds = chance.between(1, RANGES[ROUNDS].ends().1);
    let round = if chance.one_in(2) {
        1
    } else {
        chance.between(1, sheet.rounds)
    };
    Some((sheet, round as usize, chance.place(2)))
}

fn refined_flange_at_threshold(chance: &mut Chance) -> Option<Sheet> {
    let (sheet, round, i) = with_refining(chance)?;
    let value = |w: &Working| w.rounds[round].stiffeners[i].flange.u.hi;
    searched(&sheet, H, value, SUPPORTED.full_to, refined_flange_near)
}

fn refined_lip_at_threshold(chance: &mut Chance) -> Option<Sheet> {
    let (sheet, round, i) = with_refining(chance)?;
    let value = |w: &Working| w.rounds[round].stiffeners[i].lip.u.hi;
    searched(&sheet, H, value, OUTSTAND.full_to, refined_lip_near)
}

/// ud at 0.65.
fn ud_at_threshold(chance: &mut Chance) -> Option<Sheet> {
    let sheet = random_section(chance)?;
    let round = chance.between(0, sheet.rounds) as usize;
    let i = chance.place(2);
    let value = |w: &Working| w.rounds[round].stiffeners[i].ud.hi;
    searched(&sheet, H, value, FACTOR_ONE_TO, |w| {
        ud_near(w, FACTOR_ONE_TO)
    })
}

/// ud across 1.38, where χ jumps.
fn jump_in_last_round(chance: &mut Chance) -> Option<Sheet> {
    let sheet = random_section(chance)?;
    let i = chance.place(2);
    let value = |w: &Working| w.rounds[w.rounds.len() - 1].stiffeners[i].ud.hi;
    searched(&sheet, H, value, FACTOR_JUMPS_AT, straddles_last)
}

fn jump_in_earlier_round(chance: &mut Chance) -> Option<Sheet> {
    let (sheet, round, i) = with_refining(chance)?;
    let value = |w: &Working| w.rounds[round - 1].stiffeners[i].ud.hi;
    searched(&sheet, H, value, FACTOR_JUMPS_AT, straddles_earlier)
}

/// The least allow that question 11 lets pass.
pub fn needed_allowance(sheet: &Sheet) -> u64 {
    let working = worked(sheet);
    let area = Figures::of(sheet, &working).area;
    let upper = divide_up(working.area.hi * 100, working.scale.units());
    (upper - area) as u64
}

fn allowance_just_enough(chance: &mut Chance) -> Option<Sheet> {
    let mut sheet = random_section(chance)?;
    sheet.allow = needed_allowance(&sheet);
    meets_questions(&sheet).then_some(sheet)
}

fn allowance_one_short(chance: &mut Chance) -> Option<Sheet> {
    let mut sheet = random_section(chance)?;
    sheet.allow = needed_allowance(&sheet).checked_sub(1)?;
    meets_questions(&sheet).then_some(sheet)
}
