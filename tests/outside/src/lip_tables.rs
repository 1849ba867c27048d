//! What is tried of the table of lip coefficients and of the lookup in it, in groups.

use crate::calls;
use crate::compare::{Agreed, Call};
use crate::groups::Tried;
use reference::chance::Chance;
use reference::finer::MULTIPLES;
use reference::lip_table::{
    coefficient, finely_worked, ratios_near_entries, worked_coefficient, Coefficient, GREATEST,
    LEAST, STEP, TABLE_LENGTH,
};

/// Buffers of every length from 0 to more than the table.
pub fn every_room() -> Tried {
    let mut agreed = Agreed::default();
    agreed.cases += 1;
    for room in 0..=TABLE_LENGTH + 20 {
        agreed.call(Call::LipTable, room)?;
    }
    agreed.call(Call::LipTable, 3 * TABLE_LENGTH)?;
    Ok(agreed)
}

/// Looks up a ratio; what both answer, or how they differ.
fn try_ratio(agreed: &mut Agreed, ratio: u64) -> Result<Coefficient, String> {
    agreed.cases += 1;
    let (seen, right) = (calls::lip_coefficient(ratio), coefficient(ratio));
    if seen != right {
        return Err(format!(
            "hm_lip_coefficient({ratio})\narchive: {seen:?}\nreference: {right:?}\n"
        ));
    }
    agreed.calls[seen.answer.refusal as usize] += 1;
    Ok(seen)
}

/// Looks up a ratio in the range. k, worked at m times the scale, lies between the ends.
fn try_within(agreed: &mut Agreed, ratio: u64, multiples: &[i128]) -> Result<(), String> {
    let found = try_ratio(agreed, ratio)?;
    for &m in multiples {
        let k = worked_coefficient(ratio, m);
        if !found.holds(k, m) {
            return Err(format!(
                "hm_lip_coefficient({ratio}): k at m = {m} is {k:?}, not within {found:?}\n"
            ));
        }
    }
    Ok(())
}

/// At an entry's ratio the ends are those of its line in the table.
pub fn every_entry() -> Tried {
    let mut agreed = Agreed::default();
    let table = agreed.call(Call::LipTable, TABLE_LENGTH)?;
    let ratios = (LEAST..=GREATEST).step_by(STEP as usize);
    let mut lines = String::new();
    for ratio in ratios {
        let Coefficient { lower, upper, .. } = try_ratio(&mut agreed, ratio)?;
        lines += &format!("{lower} {upper}\n");
    }
    match lines.as_bytes() == table {
        true => Ok(agreed),
        false => Err("the entries looked up are not the table\n".to_string()),
    }
}

/// Every ratio from the least to the greatest.
pub fn every_ratio() -> Tried {
    let mut agreed = Agreed::default();
    for ratio in LEAST..=GREATEST {
        try_within(&mut agreed, ratio, &[1])?;
    }
    Ok(agreed)
}

/// Every ratio below the table, as many above it, those near its ends with one bit more, and
/// the greatest words.
pub fn ratios_outside() -> Tried {
    let mut agreed = Agreed::default();
    let above = GREATEST + 1..=GREATEST + LEAST;
    let near = [0, LEAST - 1, LEAST, 475_000, GREATEST, GREATEST + 1];
    let far = (20..64).flat_map(|bit| near.map(|ratio| ratio | 1 << bit));
    let greatest = u64::MAX - GREATEST..=u64::MAX;
    for ratio in (0..LEAST).chain(above).chain(far).chain(greatest) {
        try_ratio(&mut agreed, ratio)?;
    }
    Ok(agreed)
}

/// Ratios at and beside the entries, and random ones, worked at finer scales.
pub fn finer_workings(seed: u64, count: u64) -> Tried {
    let mut agreed = Agreed::default();
    let mut chance = Chance::seeded(seed);
    let random = (0..count).map(|_| chance.between(LEAST, GREATEST));
    for ratio in ratios_near_entries().chain(random) {
        try_within(&mut agreed, ratio, &MULTIPLES)?;
    }
    Ok(agreed)
}

/// A ratio of more than six places is looked up twice: rounded down for the lower end, and up
/// for the upper.
fn try_between(agreed: &mut Agreed, units: u64, m: i128) -> Result<(), String> {
    let below = try_ratio(agreed, units / m as u64)?;
    let above = try_ratio(agreed, units.div_ceil(m as u64))?;
    let found = Coefficient {
        upper: above.upper,
        ..below
    };
    let k = finely_worked(units.into(), m);
    match found.holds(k, m) {
        true => Ok(()),
        false => Err(format!(
            "hm_lip_coefficient: k at {units} units, m = {m}, is {k:?}, not within {found:?}\n"
        )),
    }
}

/// Such ratios beside the entries, and random ones.
pub fn more_places(seed: u64, count: u64) -> Tried {
    let mut agreed = Agreed::default();
    let mut chance = Chance::seeded(seed);
    for m in MULTIPLES {
        let [least, greatest] = [LEAST, GREATEST].map(|ratio| ratio * m as u64);
        let beside = (LEAST..GREATEST).step_by(STEP as usize);
        for ratio in beside {
            try_between(&mut agreed, ratio * m as u64 + 1, m)?;
            try_between(&mut agreed, (ratio + STEP) * m as u64 - 1, m)?;
        }
        for _ in 0..count {
            try_between(&mut agreed, chance.between(least, greatest), m)?;
        }
    }
    Ok(agreed)
}
