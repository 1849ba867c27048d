//! Every operation of crate pair on random operands: an exact result of values
//! between the operands' ends lies between the ends of the result, and those are
//! the exact ones at the operands' ends, rounded down and up.

use crate::exact::{rounded_outward, Fraction};
use crate::operands::*;
use crate::pair_calls::*;
use reference::chance::Chance;

type Tried = Result<(), String>;

/// The result of a call, and the call in words.
macro_rules! called {
    ($call:ident($($argument:expr),*)) => {{
        let result = unsafe { $call($($argument),*) };
        let call = move || {
            let arguments = [$($argument.in_c()),*].join(", ");
            format!("{}({arguments}) gives {result:?}\n", stringify!($call))
        };
        (result, call)
    }};
}

mod pairs;
mod signed;
mod words;

/// An operation's name, and one call of it.
pub type Operation = (&'static str, fn(&mut Chance) -> Tried);

pub const OPERATIONS: [Operation; 36] = [
    ("high", words::high),
    ("product_by", words::product_by),
    ("floor_of", words::floor_of),
    ("ceil_of", words::ceil_of),
    ("square_of", words::square_of),
    ("cube_of", words::cube_of),
    ("exact", pairs::exact),
    ("ratio", pairs::ratio),
    ("plus", pairs::plus),
    ("minus", pairs::minus),
    ("times", pairs::times),
    ("over", pairs::over),
    ("times_ratio", pairs::times_ratio),
    ("over_ratio", pairs::over_ratio),
    ("root", pairs::root),
    ("roots", pairs::roots),
    ("cube_root", pairs::cube_root),
    ("smaller", pairs::smaller),
    ("Integer difference", signed::difference),
    ("Integer negated", signed::negated),
    ("Integer plus", signed::sum),
    ("Integer at_most", signed::at_most),
    ("Integer least", signed::least),
    ("Integer greatest", signed::greatest),
    ("Integer floor_by", signed::floor_by),
    ("Integer ceil_by", signed::ceil_by),
    ("Integer floor_product", signed::floor_product),
    ("Integer ceil_product", signed::ceil_product),
    ("Signed of", signed::signed),
    ("Signed between", signed::between),
    ("Signed plus", signed::signed_plus),
    ("Signed minus", signed::signed_minus),
    ("Signed times", signed::signed_times),
    ("Signed times_signed", signed::times_signed),
    ("Signed over", signed::signed_over),
    ("Signed coarser", signed::coarser),
];

fn hold(holds: bool, call: impl Fn() -> String) -> Tried {
    if holds {
        Ok(())
    } else {
        Err(call())
    }
}

/// A value between two ends is taken in so many steps of a unit.
const STEPS: i128 = 1000;

/// A value between the ends, in steps.
fn inside(chance: &mut Chance, [lo, hi]: [i128; 2]) -> i128 {
    let [first, second] = [0, 1].map(|_| u128::from(up_to(chance, MOST)));
    let part = (first << 64 | second) % ((hi - lo) * STEPS + 1) as u128;
    if chance.one_in(2) {
        lo * STEPS + part as i128
    } else {
        hi * STEPS - part as i128
    }
}

/// Whether the result encloses what the operation gives of the operands as
/// narrowly as it can. `exact` has operands of so many steps to a unit.
fn encloses(
    chance: &mut Chance,
    result: impl Into<[i128; 2]>,
    p: impl Into<[i128; 2]>,
    q: impl Into<[i128; 2]>,
    exact: impl Fn(i128, i128, i128) -> Fraction,
) -> bool {
    let (result, p, q) = (result.into(), p.into(), q.into());
    let corners = p.map(|x| q.map(|y| exact(x, y, 1)));
    rounded_outward(result, corners.as_flattened())
        && (0..3).all(|_| {
            let (x, y) = (inside(chance, p), inside(chance, q));
            exact(x, y, STEPS).lies_in(result)
        })
}

/// Whether the ends are the roots of that order of the pair's ends times the
/// factor, rounded down and up, and enclose those of values between.
fn encloses_roots(chance: &mut Chance, result: Pair, p: Pair, factor: i128, order: u32) -> bool {
    let power = |root: i128| root.saturating_pow(order);
    let [[lo, hi], p]: [[i128; 2]; 2] = [result.into(), p.into()];
    let [least, greatest] = p.map(|end| end * factor);
    power(lo) <= least
        && least < power(lo + 1)
        && greatest <= power(hi)
        && (hi == 0 || power(hi - 1) < greatest)
        && (0..3).all(|_| {
            let between = inside(chance, p) * factor;
            power(lo) <= between / STEPS && between <= power(hi).saturating_mul(STEPS)
        })
}

/// The other operand of an operation that has one only.
const NONE: [i128; 2] = [0, 0];
