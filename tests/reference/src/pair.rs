//! Pairs and the scale (document 01, "Pairs and the scale").

use std::ops::{Add, Div, Mul, Sub};

/// Units to one: S = m × 1,000,000.
#[derive(Clone, Copy, Debug, PartialEq, Eq)]
pub struct Scale {
    units: i128,
}

impl Scale {
    /// The scale m × 1,000,000, m any whole number from 1.
    pub fn multiple(m: i128) -> Scale {
        assert!(m >= 1);
        Scale {
            units: m * 1_000_000,
        }
    }

    pub fn units(self) -> i128 {
        self.units
    }

    /// A sheet number or written constant: both ends equal.
    pub fn exact(self, numerator: i128, denominator: i128) -> Pair {
        let scaled = numerator * self.units;
        assert!(scaled % denominator == 0, "not a whole number of units");
        self.pair(scaled / denominator, scaled / denominator)
    }

    pub fn whole(self, number: i128) -> Pair {
        self.exact(number, 1)
    }

    /// A pair from its ends in units.
    pub fn pair(self, lo: i128, hi: i128) -> Pair {
        assert!(lo <= hi, "lower end {lo} above upper end {hi}");
        Pair {
            lo,
            hi,
            scale: self,
        }
    }
}

/// A lower and an upper end, in units of 1/S.
#[derive(Clone, Copy, Debug, PartialEq, Eq)]
pub struct Pair {
    pub lo: i128,
    pub hi: i128,
    pub scale: Scale,
}

impl Pair {
    pub fn ends(self) -> (i128, i128) {
        (self.lo, self.hi)
    }

    /// The smaller of two values, end by end.
    pub fn smaller(self, other: Pair) -> Pair {
        common_scale(self, other).pair(self.lo.min(other.lo), self.hi.min(other.hi))
    }

    /// Square root of x/S is the root of x×S, in units.
    pub fn root(self) -> Pair {
        let s = self.scale.units;
        self.scale
            .pair(root_down(self.lo * s), root_up(self.hi * s))
    }

    /// Cube root of x/S is the cube root of x×S×S, in units.
    pub fn cube_root(self) -> Pair {
        let s = self.scale.units;
        self.scale.pair(
            cube_root_down(self.lo * s * s),
            cube_root_up(self.hi * s * s),
        )
    }
}

fn common_scale(x: Pair, y: Pair) -> Scale {
    assert_eq!(x.scale, y.scale);
    x.scale
}

/// All four ways to take one end of each.
fn corners(x: Pair, y: Pair) -> [(i128, i128); 4] {
    [(x.lo, y.lo), (x.lo, y.hi), (x.hi, y.lo), (x.hi, y.hi)]
}

/// The quotient, a dividend and a divisor, for each way to take one end of each:
/// the least rounded down and the greatest rounded up.
fn outward(x: Pair, y: Pair, quotient: impl Fn(i128, i128) -> (i128, i128)) -> Pair {
    let quotients = corners(x, y).map(|(x, y)| quotient(x, y));
    let down = quotients.map(|(dividend, divisor)| divide_down(dividend, divisor));
    let up = quotients.map(|(dividend, divisor)| divide_up(dividend, divisor));
    let [least, greatest] = [down.into_iter().min(), up.into_iter().max()];
    common_scale(x, y).pair(least.expect("four"), greatest.expect("four"))
}

impl Add for Pair {
    type Output = Pair;
    fn add(self, other: Pair) -> Pair {
        common_scale(self, other).pair(self.lo + other.lo, self.hi + other.hi)
    }
}

impl Sub for Pair {
    type Output = Pair;
    fn sub(self, other: Pair) -> Pair {
        common_scale(self, other).pair(self.lo - other.hi, self.hi - other.lo)
    }
}

impl Mul for Pair {
    type Output = Pair;
    fn mul(self, other: Pair) -> Pair {
        let s = self.scale.units;
        outward(self, other, |x, y| (x * y, s))
    }
}

impl Div for Pair {
    type Output = Pair;
    fn div(self, other: Pair) -> Pair {
        assert!(other.lo > 0, "divisor not above zero");
        let s = self.scale.units;
        outward(self, other, |x, y| (x * s, y))
    }
}

/// Quotient rounded toward minus infinity; the divisor is above zero.
pub fn divide_down(dividend: i128, divisor: i128) -> i128 {
    assert!(divisor > 0);
    dividend.div_euclid(divisor)
}

/// Quotient rounded toward plus infinity; the divisor is above zero.
pub fn divide_up(dividend: i128, divisor: i128) -> i128 {
    -divide_down(-dividend, divisor)
}

/// The largest r with r×r ≤ x, found bit by bit.
fn root_down(x: i128) -> i128 {
    assert!(x >= 0);
    let mut r: i128 = 0;
    for bit in (0..63).rev() {
        let next = r + (1 << bit);
        if next * next <= x {
            r = next;
        }
    }
    assert!(r * r <= x && x < (r + 1) * (r + 1));
    r
}

/// The smallest r with r×r ≥ x.
fn root_up(x: i128) -> i128 {
    let r = root_down(x);
    if r * r == x {
        r
    } else {
        r + 1
    }
}

/// The largest r with r×r×r ≤ x, found bit by bit.
fn cube_root_down(x: i128) -> i128 {
    assert!(x >= 0);
    let mut r: i128 = 0;
    for bit in (0..42).rev() {
        let next = r + (1 << bit);
        if next * next * next <= x {
            r = next;
        }
    }
    assert!(r * r * r <= x && x < (r + 1) * (r + 1) * (r + 1));
    r
}

/// The smallest r with r×r×r ≥ x.
fn cube_root_up(x: i128) -> i128 {
    let r = cube_root_down(x);
    if r * r * r == x {
        r
    } else {
        r + 1
    }
}

#[cfg(test)]
mod tests {
    use super::*;

    fn s() -> Scale {
        Scale::multiple(1)
    }

    #[test]
    fn rounding_goes_toward_both_infinities() {
        assert_eq!((divide_down(7, 2), divide_up(7, 2)), (3, 4));
        assert_eq!((divide_down(-7, 2), divide_up(-7, 2)), (-4, -3));
        assert_eq!((divide_down(-6, 2), divide_up(-6, 2)), (-3, -3));
        assert_eq!((divide_down(0, 2), divide_up(0, 2)), (0, 0));
    }

    #[test]
    fn roots_are_exact_around_squares_and_cubes() {
        for r in [0, 1, 2, 3, 1_000, 1_414_213, 999_999_999, 1 << 40] {
            for step in -1..=1i128 {
                let x = r * r + step;
                if x >= 0 {
                    let (down, up) = (root_down(x), root_up(x));
                    assert!(down * down <= x && (down + 1) * (down + 1) > x);
                    assert!(up * up >= x && (up == 0 || (up - 1) * (up - 1) < x));
                }
                let x = r * r * r + step;
                if x >= 0 {
                    let (down, up) = (cube_root_down(x), cube_root_up(x));
                    assert!(down.pow(3) <= x && (down + 1).pow(3) > x);
                    assert!(up.pow(3) >= x && (up == 0 || (up - 1).pow(3) < x));
                }
            }
        }
    }

    #[test]
    fn signed_products_take_the_ends_by_sign() {
        let x = s().pair(1, 3);
        let below = s().pair(-1_500_000, -500_000);
        assert_eq!((x * below).ends(), (-5, 0));
        let across = s().pair(-1_500_000, 500_000);
        assert_eq!((x * across).ends(), (-5, 2));
    }

    #[test]
    fn signed_quotients_take_the_ends_by_sign() {
        let divisor = s().pair(2_000_000, 4_000_000);
        assert_eq!((s().pair(-10, -7) / divisor).ends(), (-5, -1));
        assert_eq!((s().pair(-10, 7) / divisor).ends(), (-5, 4));
    }

    #[test]
    fn the_smaller_takes_each_end_by_itself() {
        let pairs =
            [(10, 20), (5, 30), (5, 20), (12, 15), (10, 15), (1, 2)].map(|(l, h)| s().pair(l, h));
        let [x, wide, both, narrow, upper, below] = pairs;
        assert_eq!((x.smaller(wide), wide.smaller(x)), (both, both));
        assert_eq!((x.smaller(narrow), narrow.smaller(x)), (upper, upper));
        assert_eq!((x.smaller(below), below.smaller(x)), (below, below));
        assert_eq!(x.smaller(x), x);
    }

    #[test]
    fn differences_cross_the_ends() {
        let x = s().pair(10, 20);
        let y = s().pair(1, 5);
        assert_eq!((x - y).ends(), (5, 19));
        assert_eq!((y - x).ends(), (-19, -5));
    }
}
