//! Refining as it was before W-205: each round took the new χ, also where it was larger
//! than the old one.

use crate::pair::Scale;
use crate::sheet::place::ROUNDS;
use crate::sheet::Sheet;
use crate::working::{Round, Working};
use std::iter::successors;

/// The working of a sheet by rounds whose χ may rise.
pub fn worked_before(sheet: &Sheet, scale: Scale) -> Working {
    let unrefined = sheet.with_number(ROUNDS, 0);
    let working = Working::of(&unrefined, scale);
    let first = working.rounds[0];
    let next = |round: &Round| Some(round.next(&working.lengths, &first));
    let rounds = successors(Some(first), next).take(sheet.rounds as usize + 1);
    working.with_rounds(rounds.collect())
}
