//! Operations on integers, and on pairs that may lie below zero.

use super::*;

pub fn difference(chance: &mut Chance) -> Tried {
    let (a, b) = (up_to(chance, MOST), up_to(chance, MOST));
    let (r, call) = called!(pair_difference(a, b));
    hold(value(r) == i128::from(a) - i128::from(b), call)
}

pub fn negated(chance: &mut Chance) -> Tried {
    let a = signed_end(chance, MOST);
    let (r, call) = called!(pair_negated(a));
    hold(value(r) == -value(a), call)
}

pub fn sum(chance: &mut Chance) -> Tried {
    let a = signed_end(chance, MOST);
    let b = signed_end(chance, MOST - a.size);
    let (r, call) = called!(pair_sum(a, b));
    hold(value(r) == value(a) + value(b), call)
}

pub fn at_most(chance: &mut Chance) -> Tried {
    let [a, b] = close(chance);
    let (r, call) = called!(pair_at_most(a, b));
    hold(r == (value(a) <= value(b)), call)
}

pub fn least(chance: &mut Chance) -> Tried {
    let [a, b] = close(chance);
    let (r, call) = called!(pair_least(a, b));
    hold(value(r) == value(a).min(value(b)), call)
}

pub fn greatest(chance: &mut Chance) -> Tried {
    let [a, b] = close(chance);
    let (r, call) = called!(pair_greatest(a, b));
    hold(value(r) == value(a).max(value(b)), call)
}

pub fn floor_by(chance: &mut Chance) -> Tried {
    let (a, d) = (signed_end(chance, MOST), at_least(chance, 1));
    let x = up_to(chance, most_factor(a.size, d));
    let (r, call) = called!(pair_floor_by(a, x, d));
    let exact = Fraction::new(value(a), x.into(), d.into());
    hold(exact.floor_is(value(r)), call)
}

pub fn ceil_by(chance: &mut Chance) -> Tried {
    let (a, d) = (signed_end(chance, MOST), at_least(chance, 1));
    let x = up_to(chance, most_factor(a.size, d));
    let (r, call) = called!(pair_ceil_by(a, x, d));
    let exact = Fraction::new(value(a), x.into(), d.into());
    hold(exact.ceil_is(value(r)), call)
}

pub fn floor_product(chance: &mut Chance) -> Tried {
    let (a, d) = (signed_end(chance, MOST), at_least(chance, 1));
    let b = signed_end(chance, most_factor(a.size, d));
    let (r, call) = called!(pair_floor_product(a, b, d));
    let exact = Fraction::new(value(a), value(b), d.into());
    hold(exact.floor_is(value(r)), call)
}

pub fn ceil_product(chance: &mut Chance) -> Tried {
    let (a, d) = (signed_end(chance, MOST), at_least(chance, 1));
    let b = signed_end(chance, most_factor(a.size, d));
    let (r, call) = called!(pair_ceil_product(a, b, d));
    let exact = Fraction::new(value(a), value(b), d.into());
    hold(exact.ceil_is(value(r)), call)
}

pub fn signed(chance: &mut Chance) -> Tried {
    let p = ends(chance, MOST);
    let (r, call) = called!(pair_signed(p.lo, p.hi));
    hold([value(r.lo), value(r.hi)] == <[i128; 2]>::from(p), call)
}

pub fn between(chance: &mut Chance) -> Tried {
    let (p, q) = (ends(chance, MOST), ends(chance, MOST));
    let (r, call) = called!(pair_between(p.lo, p.hi, q.lo, q.hi));
    let exact = |x, y, steps| Fraction::new(x - y, 1, steps);
    hold(encloses(chance, r, p, q, exact), call)
}

pub fn signed_plus(chance: &mut Chance) -> Tried {
    let a = signed_ends(chance, MOST);
    let b = signed_ends(chance, MOST - reach(a));
    let (r, call) = called!(pair_signed_plus(a, b));
    let exact = |x, y, steps| Fraction::new(x + y, 1, steps);
    hold(encloses(chance, r, a, b, exact), call)
}

pub fn signed_minus(chance: &mut Chance) -> Tried {
    let a = signed_ends(chance, MOST);
    let b = signed_ends(chance, MOST - reach(a));
    let (r, call) = called!(pair_signed_minus(a, b));
    let exact = |x, y, steps| Fraction::new(x - y, 1, steps);
    hold(encloses(chance, r, a, b, exact), call)
}

pub fn signed_times(chance: &mut Chance) -> Tried {
    let (s, a) = (scale(chance), signed_ends(chance, MOST));
    let p = ends(chance, most_factor(reach(a), s));
    let (r, call) = called!(pair_signed_times(a, p.lo, p.hi, s));
    let exact = |x, y, steps| Fraction::new(x, y, steps * steps * i128::from(s));
    hold(encloses(chance, r, a, p, exact), call)
}

pub fn times_signed(chance: &mut Chance) -> Tried {
    let (s, a) = (scale(chance), signed_ends(chance, MOST));
    let b = signed_ends(chance, most_factor(reach(a), s));
    let (r, call) = called!(pair_times_signed(a, b, s));
    let exact = |x, y, steps| Fraction::new(x, y, steps * steps * i128::from(s));
    hold(encloses(chance, r, a, b, exact), call)
}

pub fn signed_over(chance: &mut Chance) -> Tried {
    let (s, a) = (scale(chance), signed_ends(chance, MOST));
    let q = ends_at_least(chance, least_divisor(reach(a), s));
    let (r, call) = called!(pair_signed_over(a, q.lo, q.hi, s));
    let exact = |x, y, _| Fraction::new(x, s.into(), y);
    hold(encloses(chance, r, a, q, exact), call)
}

pub fn coarser(chance: &mut Chance) -> Tried {
    let (a, k) = (signed_ends(chance, MOST), at_least(chance, 1));
    let (r, call) = called!(pair_coarser(a, k));
    let exact = |x, _, steps| Fraction::new(x, 1, steps * i128::from(k));
    hold(encloses(chance, r, a, NONE, exact), call)
}
