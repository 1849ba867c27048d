//! Sheets of which χ rose with the rounds before W-205, found by search: one for each kind
//! of rise, accepted with every number of rounds.

use crate::chance::{Chance, SEED};
use crate::generate::crossing;
use crate::pair::Pair;
use crate::random::{any_section, meets_questions};
use crate::refining::worked_before;
use crate::rules::{straddles_jump, thousandths, FACTOR_JUMPS_AT};
use crate::sheet::place::{H, ROUNDS};
use crate::sheet::{ask_numbers, Sheet, FINENESSES, RANGES};
use crate::working::{Round, Working};
use std::sync::OnceLock;

/// The most refining rounds.
pub const MOST_ROUNDS: u64 = RANGES[ROUNDS].ends().1;

/// The ends of a flange's χ that rise from one round to the next.
#[derive(Clone, Copy, Debug, PartialEq, Eq)]
pub enum Rise {
    Neither,
    Lower,
    Upper,
    Both,
}

impl Rise {
    fn between(old: Pair, new: Pair) -> Rise {
        match (new.lo > old.lo, new.hi > old.hi) {
            (false, false) => Rise::Neither,
            (true, false) => Rise::Lower,
            (false, true) => Rise::Upper,
            (true, true) => Rise::Both,
        }
    }
}

/// How ud of a flange lies to 1.38.
#[derive(Clone, Copy, Debug, PartialEq, Eq)]
pub enum Side {
    Below,
    Across,
    Above,
}

impl Side {
    fn of(ud: Pair) -> Side {
        if straddles_jump(ud) {
            return Side::Across;
        }
        match ud.lo < thousandths(ud.scale, FACTOR_JUMPS_AT) {
            true => Side::Below,
            false => Side::Above,
        }
    }
}

/// Between which rounds χ rises.
#[derive(Clone, Copy, Debug, PartialEq, Eq)]
pub enum When {
    /// From this round to the next.
    From(usize),
    /// In some round, and in none before.
    First,
    /// Where ud of each flange that rises goes from one side of the jump to another.
    Jump(Side, Side),
}
use When::{First, From, Jump};

/// A kind of rise: what each flange's χ does, and when.
#[derive(Clone, Copy, Debug)]
pub struct Rising {
    pub when: When,
    pub flanges: [Rise; 2],
}

/// From each round to the next one flange alone, and both; the first rise of one end alone;
/// and rises past the jump.
pub fn kinds() -> Vec<Rising> {
    use Rise::{Both, Lower, Neither, Upper};
    use Side::{Above, Across, Below};
    let mut kinds = Vec::new();
    let mut add = |when, flanges| kinds.push(Rising { when, flanges });
    for round in 0..MOST_ROUNDS as usize {
        add(From(round), [Both, Neither]);
        add(From(round), [Neither, Both]);
    }
    // From the other rounds both rise together too seldom.
    for round in [0, 1, 2, 3, 4, 6] {
        add(From(round), [Both, Both]);
    }
    for end in [Lower, Upper] {
        add(First, [end, Neither]);
        add(First, [Neither, end]);
        add(First, [end, end]);
    }
    for [from, to] in [[Below, Above], [Above, Below]] {
        add(Jump(from, to), [Both, Neither]);
        add(Jump(from, to), [Neither, Both]);
        add(Jump(from, to), [Both, Both]);
    }
    add(Jump(Below, Across), [Upper, Neither]);
    add(Jump(Below, Across), [Upper, Upper]);
    kinds
}

/// What the flanges' χ do from one round to the next.
fn rises(old: &Round, new: &Round) -> [Rise; 2] {
    [0, 1].map(|i| Rise::between(old.stiffeners[i].chi, new.stiffeners[i].chi))
}

const TRIES: usize = 1_000_000;

impl Rising {
    /// Whether rounds whose χ may rise show it.
    pub fn shown_by(&self, rounds: &[Round]) -> bool {
        let mut steps = rounds.windows(2).map(|pair| (&pair[0], &pair[1]));
        let is_it = |(old, new): (&Round, &Round)| rises(old, new) == self.flanges;
        match self.when {
            From(round) => steps.nth(round).is_some_and(is_it),
            First => steps
                .find(|(old, new)| rises(old, new) != [Rise::Neither; 2])
                .is_some_and(is_it),
            Jump(from, to) => steps.any(|step| is_it(step) && self.passes(step, from, to)),
        }
    }

    /// Whether ud of each flange that rises goes so.
    fn passes(&self, (old, new): (&Round, &Round), from: Side, to: Side) -> bool {
        let side = |round: &Round, i: usize| Side::of(round.stiffeners[i].ud);
        let rising = |i: &usize| self.flanges[*i] != Rise::Neither;
        let mut flanges = [0, 1].into_iter().filter(rising);
        flanges.all(|i| (side(old, i), side(new, i)) == (from, to))
    }

    /// Sheets that may show it. Its number decides on the form, the fineness and, where both
    /// flanges do the same, whether they are equal, so that every sort comes up.
    fn candidates(&self, number: usize, chance: &mut Chance) -> Vec<Sheet> {
        let mut sheet = Sheet {
            form: number as u64 % 2,
            fine: FINENESSES[number / 2 % 2],
            rounds: MOST_ROUNDS,
            allow: 1000,
            ..any_section(chance)
        };
        if self.flanges[0] == self.flanges[1] && !number.is_multiple_of(3) {
            sheet.b2 = sheet.b1;
        }
        if !meets_questions(&sheet) {
            return Vec::new();
        }
        match self.when {
            Jump(..) => at_jump(&sheet, chance),
            _ => vec![sheet],
        }
    }

    /// The first sheet found that shows it and is accepted with every number of rounds.
    fn search(&self, number: usize, chance: &mut Chance) -> Sheet {
        let shows = |sheet: &Sheet| {
            let rounds = worked_before(sheet, sheet.scale()).rounds;
            self.shown_by(&rounds) && accepted_throughout(sheet)
        };
        for _ in 0..TRIES {
            let found = self.candidates(number, chance).into_iter().find(shows);
            if let Some(sheet) = found {
                return sheet;
            }
        }
        panic!("none found: {self:?}");
    }
}

/// The neighbours, by their depth, between which ud of a flange passes 1.38 in some
/// refining round.
fn at_jump(sheet: &Sheet, chance: &mut Chance) -> Vec<Sheet> {
    let round = chance.between(1, MOST_ROUNDS) as usize;
    let i = chance.place(2);
    let ud = |w: &Working| w.rounds[round].stiffeners[i].ud.hi;
    let found = crossing(sheet, H, ud, FACTOR_JUMPS_AT);
    let mut found = found.map_or_else(Vec::new, |sheets| sheets.to_vec());
    found.retain(meets_questions);
    found
}

fn accepted_throughout(sheet: &Sheet) -> bool {
    let mut all = with_all_rounds(sheet).into_iter();
    all.all(|sheet| ask_numbers(sheet.numbers()).is_ok())
}

/// The sheet with each number of rounds, from none.
pub fn with_all_rounds(sheet: &Sheet) -> Vec<Sheet> {
    let with = |rounds| Sheet { rounds, ..*sheet };
    (0..=MOST_ROUNDS).map(with).collect()
}

/// A sheet of each kind, with the most rounds. Searched once.
pub fn rising() -> Vec<(Rising, Sheet)> {
    static FOUND: OnceLock<Vec<(Rising, Sheet)>> = OnceLock::new();
    FOUND.get_or_init(search_all).clone()
}

fn search_all() -> Vec<(Rising, Sheet)> {
    let mut chance = Chance::seeded(SEED);
    let kinds = kinds().into_iter().enumerate();
    kinds
        .map(|(number, kind)| (kind, kind.search(number, &mut chance)))
        .collect()
}
