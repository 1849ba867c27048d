//! Operations on whole numbers of 64 bits.

use super::*;

pub fn high(chance: &mut Chance) -> Tried {
    let (a, b) = (up_to(chance, MOST), up_to(chance, MOST));
    let (r, call) = called!(pair_high(a, b));
    let exact = Fraction::new(a.into(), b.into(), 1 << 64);
    hold(exact.floor_is(r.into()), call)
}

pub fn product_by(chance: &mut Chance) -> Tried {
    let (a, d) = (up_to(chance, MOST), at_least(chance, 1));
    let b = up_to(chance, most_factor_down(a, d));
    let (r, call) = called!(pair_product_by(a, b, d));
    let [a, b, d, whole, rest] = [a, b, d, r.whole, r.rest].map(u128::from);
    hold(whole * d + rest == a * b && rest < d, call)
}

pub fn floor_of(chance: &mut Chance) -> Tried {
    let (a, d) = (up_to(chance, MOST), at_least(chance, 1));
    let b = up_to(chance, most_factor_down(a, d));
    let (r, call) = called!(pair_floor_of(a, b, d));
    let exact = Fraction::new(a.into(), b.into(), d.into());
    hold(exact.floor_is(r.into()), call)
}

pub fn ceil_of(chance: &mut Chance) -> Tried {
    let (a, d) = (up_to(chance, MOST), at_least(chance, 1));
    let b = up_to(chance, most_factor(a, d));
    let (r, call) = called!(pair_ceil_of(a, b, d));
    let exact = Fraction::new(a.into(), b.into(), d.into());
    hold(exact.ceil_is(r.into()), call)
}

pub fn square_of(chance: &mut Chance) -> Tried {
    let n = near_power(chance, 2);
    let (r, call) = called!(pair_square_of(n));
    let [n, whole, rest] = [n, r.whole, r.rest].map(u128::from);
    hold(whole * whole + rest == n && rest <= 2 * whole, call)
}

pub fn cube_of(chance: &mut Chance) -> Tried {
    let n = near_power(chance, 3);
    let (r, call) = called!(pair_cube_of(n));
    let [n, whole, rest] = [n, r.whole, r.rest].map(u128::from);
    let small = whole < 1 << 22;
    hold(
        small && whole.pow(3) + rest == n && rest <= 3 * whole * whole + 3 * whole,
        call,
    )
}
