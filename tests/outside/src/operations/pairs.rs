//! Operations on pairs that have nothing below zero.

use super::*;

pub fn exact(chance: &mut Chance) -> Tried {
    let v = up_to(chance, MOST);
    let (r, call) = called!(pair_exact(v));
    hold(r.lo == v && r.hi == v, call)
}

pub fn ratio(chance: &mut Chance) -> Tried {
    let (s, b) = (scale(chance), at_least(chance, 1));
    let a = up_to(chance, MOST / s);
    let (r, call) = called!(pair_ratio(a, b, s));
    let exact = Fraction::new(a.into(), s.into(), b.into());
    hold(r.lo == r.hi && exact.floor_is(r.lo.into()), call)
}

pub fn plus(chance: &mut Chance) -> Tried {
    let p = ends(chance, MOST);
    let q = ends(chance, MOST - p.hi);
    let (r, call) = called!(pair_plus(p.lo, p.hi, q.lo, q.hi));
    let exact = |x, y, steps| Fraction::new(x + y, 1, steps);
    hold(encloses(chance, r, p, q, exact), call)
}

pub fn minus(chance: &mut Chance) -> Tried {
    let p = ends(chance, MOST);
    let q = ends(chance, p.lo);
    let (r, call) = called!(pair_minus(p.lo, p.hi, q.lo, q.hi));
    let exact = |x, y, steps| Fraction::new(x - y, 1, steps);
    hold(encloses(chance, r, p, q, exact), call)
}

pub fn times(chance: &mut Chance) -> Tried {
    let (s, p) = (scale(chance), ends(chance, MOST));
    let q = ends(chance, most_factor(p.hi, s));
    let (r, call) = called!(pair_times(p.lo, p.hi, q.lo, q.hi, s));
    let exact = |x, y, steps| Fraction::new(x, y, steps * steps * i128::from(s));
    hold(encloses(chance, r, p, q, exact), call)
}

pub fn over(chance: &mut Chance) -> Tried {
    let (s, p) = (scale(chance), ends(chance, MOST));
    let q = ends_at_least(chance, least_divisor(p.hi, s));
    let (r, call) = called!(pair_over(p.lo, p.hi, q.lo, q.hi, s));
    let exact = |x, y, _| Fraction::new(x, s.into(), y);
    hold(encloses(chance, r, p, q, exact), call)
}

pub fn times_ratio(chance: &mut Chance) -> Tried {
    let s = scale(chance);
    let (a, b) = exact_ratio(chance, s, 0);
    let p = ends(chance, most_factor(a, b));
    let (r, call) = called!(pair_times_ratio(p.lo, p.hi, a, b, s));
    let exact = |x, _, steps| Fraction::new(x, a.into(), steps * i128::from(b));
    hold(encloses(chance, r, p, NONE, exact), call)
}

pub fn over_ratio(chance: &mut Chance) -> Tried {
    let s = scale(chance);
    let (a, b) = exact_ratio(chance, s, 1);
    let p = ends(chance, most_factor(b, a));
    let (r, call) = called!(pair_over_ratio(p.lo, p.hi, a, b, s));
    let exact = |x, _, steps| Fraction::new(x, b.into(), steps * i128::from(a));
    hold(encloses(chance, r, p, NONE, exact), call)
}

pub fn root(chance: &mut Chance) -> Tried {
    let s = root_scale(chance, MOST);
    let p = ends_at_power(chance, most_under(1 << 70, s.into()), 2);
    let (r, call) = called!(pair_root(p.lo, p.hi, s));
    hold(encloses_roots(chance, r, p, s.into(), 2), call)
}

/// Two pairs of any two lengths: the longer tells how many digits both are given.
pub fn roots(chance: &mut Chance) -> Tried {
    let s = root_scale(chance, MOST);
    let most = most_under(1 << 70, s.into());
    let p = ends_at_power(chance, most, 2);
    let q = ends_at_power(chance, most, 2);
    let (r, call) = called!(pair_roots(p.lo, p.hi, q.lo, q.hi, s));
    let first = encloses_roots(chance, r.one, p, s.into(), 2);
    hold(first && encloses_roots(chance, r.two, q, s.into(), 2), call)
}

pub fn cube_root(chance: &mut Chance) -> Tried {
    let s = root_scale(chance, 1 << 38);
    let square = i128::from(s) * i128::from(s);
    let p = ends_at_power(chance, most_under(1 << 76, square), 3);
    let (r, call) = called!(pair_cube_root(p.lo, p.hi, s));
    hold(encloses_roots(chance, r, p, square, 3), call)
}

/// Any two pairs, or one inside the other: then each gives one end.
pub fn smaller(chance: &mut Chance) -> Tried {
    let p = ends(chance, MOST);
    let mut q = ends(chance, MOST);
    if chance.one_in(2) {
        let (lo, hi) = (up_to(chance, p.lo), at_least(chance, p.hi));
        q = Pair { lo, hi };
    }
    let (p, q) = if chance.one_in(2) { (p, q) } else { (q, p) };
    let (r, call) = called!(pair_smaller(p.lo, p.hi, q.lo, q.hi));
    let is_least = |end, a, b| end <= a && end <= b && (end == a || end == b);
    let each_end = is_least(r.lo, p.lo, q.lo) && is_least(r.hi, p.hi, q.hi);
    let exact = |x: i128, y, steps| Fraction::new(x.min(y), 1, steps);
    hold(each_end && encloses(chance, r, p, q, exact), call)
}
