//! Random operands of the pair operations: ends of their ranges, neighbours of
//! powers of two, and operands whose result just fits 64 bits come up often.

use crate::pair_calls::{Integer, Pair, Signed};
use reference::chance::Chance;

pub const MOST: u64 = u64::MAX;

fn word(chance: &mut Chance) -> u64 {
    let half = u64::from(u32::MAX);
    chance.between(0, half) << 32 | chance.between(0, half)
}

/// A number from 0 to the limit.
pub fn up_to(chance: &mut Chance, limit: u64) -> u64 {
    let power = 1 << chance.between(0, 63);
    let number = match chance.between(0, 7) {
        0 => limit - chance.between(0, 2).min(limit),
        1 => chance.between(0, 2),
        2 => chance.one_of(&[power - 1, power, power + 1]),
        // a length in units of 1/1,000,000 mm
        3 => chance.between(50_000, 500_000_000),
        _ => word(chance) >> chance.between(0, 63),
    };
    if number <= limit {
        number
    } else {
        word(chance) % (limit + 1)
    }
}

/// A number from the least to the greatest of 64 bits.
pub fn at_least(chance: &mut Chance, least: u64) -> u64 {
    least + up_to(chance, MOST - least)
}

pub fn scale(chance: &mut Chance) -> u64 {
    match chance.between(0, 3) {
        0 | 1 => chance.one_of(&[1_000_000, 10_000_000]),
        _ => at_least(chance, 1),
    }
}

/// A scale of a root: a multiple of 64, up to a limit.
pub fn root_scale(chance: &mut Chance, limit: u64) -> u64 {
    match chance.between(0, 3) {
        0 | 1 => chance.one_of(&[1_000_000, 10_000_000]),
        _ => 64 * up_to(chance, limit / 64),
    }
}

/// How far apart two ends may lie: none, a little, or up to the limit.
fn gap(chance: &mut Chance, limit: u64) -> u64 {
    match chance.between(0, 2) {
        0 => 0,
        1 => chance.between(0, 4).min(limit),
        _ => up_to(chance, limit),
    }
}

/// A pair up to a limit.
pub fn ends(chance: &mut Chance, limit: u64) -> Pair {
    let hi = up_to(chance, limit);
    let lo = hi - gap(chance, hi);
    Pair { lo, hi }
}

/// A pair from a least number on.
pub fn ends_at_least(chance: &mut Chance, least: u64) -> Pair {
    let lo = at_least(chance, least);
    let hi = lo + gap(chance, MOST - lo);
    Pair { lo, hi }
}

/// The greatest b for which a × b ÷ d rounded up is a number of 64 bits.
pub fn most_factor(a: u64, d: u64) -> u64 {
    match a {
        0 => MOST,
        _ => (u128::from(MOST) * u128::from(d) / u128::from(a)).min(MOST.into()) as u64,
    }
}

/// The same for rounding down.
pub fn most_factor_down(a: u64, d: u64) -> u64 {
    match a {
        0 => MOST,
        _ => (((u128::from(d) << 64) - 1) / u128::from(a)).min(MOST.into()) as u64,
    }
}

/// The least divisor for which a × b over it, rounded up, is a number of 64 bits.
pub fn least_divisor(a: u64, b: u64) -> u64 {
    let product = u128::from(a) * u128::from(b);
    product.div_ceil(MOST.into()).max(1) as u64
}

/// An integer from -limit to limit; 0 in both of its forms.
pub fn signed_end(chance: &mut Chance, limit: u64) -> Integer {
    Integer {
        below: chance.one_in(2),
        size: up_to(chance, limit),
    }
}

/// A signed pair from -limit to limit.
pub fn signed_ends(chance: &mut Chance, limit: u64) -> Signed {
    let lo = signed_end(chance, limit);
    let mut hi = signed_end(chance, limit);
    if chance.one_in(2) {
        hi = lo;
        if lo.below {
            hi.size -= gap(chance, lo.size);
        } else {
            hi.size += gap(chance, limit - lo.size);
        }
    }
    if value(lo) <= value(hi) {
        Signed { lo, hi }
    } else {
        Signed { lo: hi, hi: lo }
    }
}

/// Two integers, often equal but for their signs or nearly so.
pub fn close(chance: &mut Chance) -> [Integer; 2] {
    let a = signed_end(chance, MOST);
    let mut b = signed_end(chance, MOST);
    if chance.one_in(2) {
        b.size = a.size ^ chance.between(0, 1);
    }
    [a, b]
}

/// A number beside a power of that order, or any.
pub fn near_power(chance: &mut Chance, order: u32) -> u64 {
    let n = up_to(chance, MOST);
    let root = up_to(chance, (MOST as f64).powf(1.0 / f64::from(order)) as u64);
    match (chance.one_in(2), root.checked_pow(order)) {
        (true, Some(power)) => power.saturating_sub(chance.between(0, 1)) + chance.between(0, 1),
        _ => n,
    }
}

/// A pair up to a limit, often with a power of that order at or beside its upper
/// end.
pub fn ends_at_power(chance: &mut Chance, limit: u64, order: u32) -> Pair {
    let hi = near_power(chance, order);
    if hi > limit {
        return ends(chance, limit);
    }
    let lo = hi - gap(chance, hi);
    Pair { lo, hi }
}

/// The greatest number of 64 bits whose product with the factor is below the bound.
pub fn most_under(bound: i128, factor: i128) -> u64 {
    match factor {
        0 => MOST,
        _ => ((bound - 1) / factor).min(MOST.into()) as u64,
    }
}

/// Numbers a, from the least on, and b above zero, of which a × s ÷ b is whole.
pub fn exact_ratio(chance: &mut Chance, s: u64, least: u64) -> (u64, u64) {
    let b = at_least(chance, 1);
    let part = b / common_divisor(b, s);
    let times = least + up_to(chance, MOST / part - least);
    (part * times, b)
}

fn common_divisor(mut a: u64, mut b: u64) -> u64 {
    while b > 0 {
        (a, b) = (b, a % b);
    }
    a
}

/// The integer that C's form stands for.
pub fn value(end: Integer) -> i128 {
    let size = i128::from(end.size);
    if end.below {
        -size
    } else {
        size
    }
}

/// How far from zero an end lies.
pub fn reach(a: Signed) -> u64 {
    a.lo.size.max(a.hi.size)
}

impl From<Pair> for [i128; 2] {
    fn from(ends: Pair) -> [i128; 2] {
        [ends.lo.into(), ends.hi.into()]
    }
}

impl From<Signed> for [i128; 2] {
    fn from(ends: Signed) -> [i128; 2] {
        [value(ends.lo), value(ends.hi)]
    }
}

/// An argument as it is written in C.
pub trait Argument {
    fn in_c(&self) -> String;
}

impl Argument for u64 {
    fn in_c(&self) -> String {
        format!("{self}u")
    }
}

impl Argument for Integer {
    fn in_c(&self) -> String {
        format!("(Integer){{{}, {}u}}", self.below, self.size)
    }
}

impl Argument for Signed {
    fn in_c(&self) -> String {
        let [lo, hi] = [self.lo, self.hi].map(|end| format!("{{{}, {}u}}", end.below, end.size));
        format!("(Signed){{{lo}, {hi}}}")
    }
}
