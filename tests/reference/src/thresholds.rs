//! Sheets of which an end of a worked pair lies within two units of a threshold of
//! the rules (document 01: 0.673, 0.748, 0.35, 0.65, 1.38, and the allowance of
//! question 11), found by search.

use crate::chance::Chance;
use crate::generate::crossing;
use crate::pair::Pair;
use crate::random::{meets_questions, random_section, FLANGES};
use crate::rules::{thousandths, FACTOR_JUMPS_AT, FACTOR_ONE_TO, LIP_HALF_TO, OUTSTAND, SUPPORTED};
use crate::sheet::place::{C, H};
use crate::sheet::{Figures, Sheet, FINENESSES};
use crate::working::{worked, Round, Stiffener, Working};

/// The farthest from a threshold that counts, in units.
const NEAR: i128 = 2;

/// Something for the lower and for the upper end, at each distance from -2 to 2.
pub type AtDistances<T> = [[T; 5]; 2];

/// A value at which a rule changes.
pub struct Threshold {
    pub name: &'static str,
    /// In thousandths.
    value: i128,
    /// The ends and distances that occur, in the order of `FINENESSES`.
    occur: [AtDistances<bool>; 2],
    compared: Compared,
}

/// What is compared with a threshold.
enum Compared {
    /// u of the web.
    Web,
    /// A pair of both stiffeners in the first working, and the place of the number
    /// that is moved to find it near the threshold, by the flange.
    First(fn(&Stiffener) -> Pair, fn(usize) -> usize),
    /// A pair of both stiffeners in every refining round.
    Refined(fn(&Stiffener) -> Pair),
    /// q of both lips.
    Ratio,
    /// How far the area's upper end lies past area + allow.
    Area,
}

use Compared::{Area, First, Ratio, Refined, Web};

const ALL: [AtDistances<bool>; 2] = [[[true; 5]; 2]; 2];

/// q is a whole number over 20 bp beside 0.35, so at least 2.5 units from it at the coarser
/// scale, and its ends are those of 0.35 or lie 2 and 3 units from it. At the finer scale it
/// is at least 25 units from it, or 0.35 itself.
const OF_RATIO: [AtDistances<bool>; 2] = [
    [
        [false, false, true, false, true],
        [true, false, true, false, false],
    ],
    [[false, false, true, false, false]; 2],
];

/// Rooted twice, no whole number of units gives 0.650002 rounded up at the coarser scale; at
/// the finer none gives 0.6500002 rounded down or 0.6499998 rounded up.
const OF_FACTOR: [AtDistances<bool>; 2] = [
    [[true; 5], [true, true, true, true, false]],
    [
        [true, true, true, true, false],
        [false, true, true, true, true],
    ],
];

/// Question 11 asks about the upper end.
const UPPER: [AtDistances<bool>; 2] = [[[false; 5], [true; 5]]; 2];

#[rustfmt::skip] // a row to a line
pub const THRESHOLDS: [Threshold; 11] = [
    at("web u at 0.673",                     SUPPORTED.full_to, ALL,       Web),
    at("flange u at 0.673",                  SUPPORTED.full_to, ALL,       First(|s| s.flange.u, |i| FLANGES[i])),
    at("flange u at 0.673, refining",        SUPPORTED.full_to, ALL,       Refined(|s| s.flange.u)),
    at("lip u at 0.748",                     OUTSTAND.full_to,  ALL,       First(|s| s.lip.u, |_| C)),
    at("lip u at 0.748, refining",           OUTSTAND.full_to,  ALL,       Refined(|s| s.lip.u)),
    at("q at 0.35",                          LIP_HALF_TO,       OF_RATIO,  Ratio),
    at("ud at 0.65",                         FACTOR_ONE_TO,     OF_FACTOR, First(|s| s.ud, |_| H)),
    at("ud at 0.65, refining",               FACTOR_ONE_TO,     OF_FACTOR, Refined(|s| s.ud)),
    at("ud at 1.38",                         FACTOR_JUMPS_AT,   ALL,       First(|s| s.ud, |_| H)),
    at("ud at 1.38, refining",               FACTOR_JUMPS_AT,   ALL,       Refined(|s| s.ud)),
    at("area at area + allow (question 11)", 0,                 UPPER,     Area),
];

const fn at(
    name: &'static str,
    value: i128,
    occur: [AtDistances<bool>; 2],
    compared: Compared,
) -> Threshold {
    Threshold {
        name,
        value,
        occur,
        compared,
    }
}

impl Threshold {
    /// The ends and distances that occur at a fineness.
    pub fn occur(&self, fine: u64) -> AtDistances<bool> {
        let at = FINENESSES.iter().position(|&its| its == fine);
        self.occur[at.expect("a fineness")]
    }

    /// How far the ends of each pair that is compared lie from it.
    fn distances(&self, sheet: &Sheet, working: &Working) -> Vec<[i128; 2]> {
        let pairs = match self.compared {
            Web => vec![working.web.u],
            First(pick, _) => of_stiffeners(&working.rounds[..1], pick),
            Refined(pick) => of_stiffeners(&working.rounds[1..], pick),
            Ratio => working.lip_ratios.map(|lip| lip.q).to_vec(),
            Area => return vec![[i128::MAX, past_allowance(sheet, working)]],
        };
        pairs.into_iter().map(|pair| self.from(pair)).collect()
    }

    /// How far the ends of a pair lie from it.
    pub fn from(&self, pair: Pair) -> [i128; 2] {
        let value = thousandths(pair.scale, self.value);
        [pair.lo - value, pair.hi - value]
    }

    /// Sheets of a fineness that may lie near it.
    fn candidates(&self, fine: u64, chance: &mut Chance) -> Option<Vec<Sheet>> {
        let sheet = mostly_accepted(fine, chance)?;
        match self.compared {
            Web => moved(self, sheet, chance, false, |_| H),
            First(_, place) => moved(self, sheet, chance, false, place),
            Refined(_) => moved(self, sheet, chance, true, |_| H),
            Ratio => ratio_near(sheet, chance),
            Area => allowance_near(sheet, chance),
        }
    }
}

fn of_stiffeners(rounds: &[Round], pick: fn(&Stiffener) -> Pair) -> Vec<Pair> {
    let stiffeners = rounds.iter().flat_map(|round| &round.stiffeners);
    stiffeners.map(pick).collect()
}

/// A random section of a fineness, with an allowance that most workings meet.
fn mostly_accepted(fine: u64, chance: &mut Chance) -> Option<Sheet> {
    let mut sheet = Sheet {
        fine,
        ..random_section(chance)?
    };
    if !chance.one_in(8) {
        sheet.allow = 1000;
    }
    Some(sheet)
}

/// The two neighbours, by the number at a place, between which an end of a pair crosses the
/// threshold. Without refining, the rounds do not matter and are left out.
fn moved(
    threshold: &Threshold,
    mut sheet: Sheet,
    chance: &mut Chance,
    refining: bool,
    place: fn(usize) -> usize,
) -> Option<Vec<Sheet>> {
    let rounds = sheet.rounds;
    sheet.rounds = if refining { rounds.max(1) } else { 0 };
    let pair = chance.place(2 * sheet.rounds.max(1) as usize);
    let end = chance.place(2);
    let value = |w: &Working| {
        let distances = threshold.distances(&sheet, w);
        distances[pair % distances.len()][end]
    };
    let mut found = crossing(&sheet, place(pair), value, 0)?.to_vec();
    for sheet in &mut found {
        sheet.rounds = sheet.rounds.max(rounds);
    }
    found.retain(meets_questions);
    Some(found)
}

/// 20 (cp − 0.35 bp) is -1, 0 or 1 hundredth. The next q beside 0.35 is
/// 1 ÷ (20 bp) away, which is 0.0000025 at the widest flange.
fn ratio_near(mut sheet: Sheet, chance: &mut Chance) -> Option<Vec<Sheet>> {
    let b = if chance.one_in(2) { sheet.b1 } else { sheet.b2 };
    let twenty_lips = 7 * b + 3 * sheet.tnom + chance.between(0, 2) - 1;
    sheet.c = twenty_lips / 20;
    if 20 * sheet.c != twenty_lips {
        return None;
    }
    meets_questions(&sheet).then_some(vec![sheet])
}

/// How far the area's upper end lies past area + allow.
fn past_allowance(sheet: &Sheet, working: &Working) -> i128 {
    let area = Figures::of(sheet, working).area;
    working.area.hi - (area + sheet.allow as i128) * hundredth(working)
}

/// 0.01 mm² in units.
fn hundredth(working: &Working) -> i128 {
    working.scale.units() / 100
}

/// A section whose area ends near a whole hundredth, and the allowance to that.
fn allowance_near(mut sheet: Sheet, chance: &mut Chance) -> Option<Vec<Sheet>> {
    sheet.rounds = chance.one_of(&[0, 0, 0, sheet.rounds]);
    sheet.allow = 0;
    let working = worked(&sheet);
    let hundredth = hundredth(&working);
    let nearest = (past_allowance(&sheet, &working) + hundredth / 2) / hundredth;
    sheet.allow = nearest as u64;
    let near = past_allowance(&sheet, &working).abs() <= NEAR;
    (near && meets_questions(&sheet)).then_some(vec![sheet])
}

/// Which ends lie at which distance, of pairs whose ends lie so far away.
pub fn shown(distances: impl IntoIterator<Item = [i128; 2]>) -> AtDistances<bool> {
    let mut shown = AtDistances::default();
    for pair in distances {
        for (shown, distance) in shown.iter_mut().zip(pair) {
            if distance.abs() <= NEAR {
                shown[(distance + NEAR) as usize] = true;
            }
        }
    }
    shown
}

/// How many sheets of a fineness lie near a threshold, and how many have an end at a
/// distance.
#[derive(Clone, Copy)]
pub struct Near {
    fine: u64,
    pub sheets: u64,
    pub at_distances: AtDistances<u64>,
}

impl Near {
    fn none(fine: u64) -> Near {
        Near {
            fine,
            sheets: 0,
            at_distances: AtDistances::default(),
        }
    }

    pub fn of(threshold: &Threshold, fine: u64, workings: &[(Sheet, Working)]) -> Near {
        let mut near = Near::none(fine);
        for (sheet, working) in workings {
            if sheet.fine == fine {
                near.count(threshold, sheet, working);
            }
        }
        near
    }

    /// Counts a sheet, once for each end and distance that its pairs show.
    fn count(&mut self, threshold: &Threshold, sheet: &Sheet, working: &Working) {
        let shown = shown(threshold.distances(sheet, working));
        let counts = self.at_distances.iter_mut().flatten();
        for (count, &shown) in counts.zip(shown.as_flattened()) {
            *count += u64::from(shown);
        }
        self.sheets += u64::from(shown.as_flattened().contains(&true));
    }

    /// The fewest sheets at an end and a distance that occur.
    pub fn fewest(&self, threshold: &Threshold) -> u64 {
        let counts = self.at_distances.iter().flatten();
        let occur = threshold.occur(self.fine);
        let occurring = counts.zip(occur.as_flattened());
        let occurring = occurring.filter(|(_, &occurs)| occurs).map(|(&n, _)| n);
        occurring.min().expect("some occur")
    }
}

const TRIES: u64 = 5_000_000;

/// Sheets of a fineness near a threshold, so many for each end and distance, unless that
/// takes too many tries.
pub fn search(threshold: &Threshold, fine: u64, chance: &mut Chance, wanted: u64) -> Vec<Sheet> {
    let mut found = Vec::new();
    let mut near = Near::none(fine);
    for _ in 0..TRIES {
        if near.fewest(threshold) >= wanted {
            break;
        }
        for sheet in threshold.candidates(fine, chance).unwrap_or_default() {
            let mut with_it = near;
            with_it.count(threshold, &sheet, &worked(&sheet));
            let counts = near.at_distances.iter().flatten();
            let mut counts = counts.zip(with_it.at_distances.iter().flatten());
            if counts.any(|(&n, &more)| n < more && n < wanted) {
                found.push(sheet);
                near = with_it;
            }
        }
    }
    found
}

/// So many sheets of each fineness are kept for each end and distance. At the finer scale
/// they are ten times as rare.
pub const KEPT: [(u64, u64); 2] = [(FINENESSES[0], 12), (FINENESSES[1], 2)];

/// The sheets of thresholds.txt, which `sections --thresholds` writes.
pub fn kept() -> Vec<Sheet> {
    let lines = include_str!("../thresholds.txt").lines();
    lines
        .filter(|line| !line.starts_with('#'))
        .map(sheet_of)
        .collect()
}

fn sheet_of(line: &str) -> Sheet {
    let words = line.split(' ').map(|word| word.parse().expect("a number"));
    let numbers: Vec<u64> = words.collect();
    Sheet::from_numbers(numbers.try_into().expect("a sheet's numbers"))
}
