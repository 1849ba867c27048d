//! Exact results, held against whole numbers by products of 256 bits. No quotient
//! and no root is worked here.

use std::cmp::Ordering;

/// The value factor × other ÷ divisor; the divisor is above zero.
#[derive(Clone, Copy)]
pub struct Fraction {
    factor: i128,
    other: i128,
    divisor: i128,
}

impl Fraction {
    pub fn new(factor: i128, other: i128, divisor: i128) -> Fraction {
        assert!(divisor > 0);
        Fraction {
            factor,
            other,
            divisor,
        }
    }

    fn cmp(self, whole: i128) -> Ordering {
        let (left, right) = (signs(self.factor, self.other), whole.signum());
        if left != right {
            return left.cmp(&right);
        }
        let order = product(self.factor, self.other).cmp(&product(whole, self.divisor));
        if left < 0 {
            order.reverse()
        } else {
            order
        }
    }

    pub fn floor_is(self, whole: i128) -> bool {
        self.cmp(whole).is_ge() && self.cmp(whole + 1).is_lt()
    }

    pub fn ceil_is(self, whole: i128) -> bool {
        self.cmp(whole).is_le() && self.cmp(whole - 1).is_gt()
    }

    /// Neither below the lower nor above the upper end.
    pub fn lies_in(self, [lo, hi]: [i128; 2]) -> bool {
        self.cmp(lo).is_ge() && self.cmp(hi).is_le()
    }
}

fn signs(a: i128, b: i128) -> i128 {
    a.signum() * b.signum()
}

/// The size of a product, its upper 128 bits first.
fn product(a: i128, b: i128) -> [u128; 2] {
    const HALF: u128 = 1 << 64;
    let (a, b) = (a.unsigned_abs(), b.unsigned_abs());
    let (a1, a0, b1, b0) = (a / HALF, a % HALF, b / HALF, b % HALF);
    let cross = a1 * b0 + a0 * b0 / HALF;
    let lower = a0 * b1 + cross % HALF;
    [
        a1 * b1 + cross / HALF + lower / HALF,
        lower % HALF * HALF + a0 * b0 % HALF,
    ]
}

/// Whether the ends are the least result rounded down and the greatest rounded up.
pub fn rounded_outward([lo, hi]: [i128; 2], results: &[Fraction]) -> bool {
    results.iter().all(|result| result.lies_in([lo, hi]))
        && results.iter().any(|result| result.floor_is(lo))
        && results.iter().any(|result| result.ceil_is(hi))
}

#[cfg(test)]
mod tests {
    use super::*;

    #[test]
    fn products_of_256_bits() {
        let most = i128::MAX; // 2^127 - 1, squared 2^254 - 2^128 + 1
        assert_eq!(product(most, -most), [(1 << 126) - 1, 1]);
        assert_eq!(product(i128::MIN, i128::MIN), [1 << 126, 0]);
        assert_eq!(product(7, 6), [0, 42]);
    }

    #[test]
    fn ends_too_wide_or_too_narrow_are_found() {
        let thirds = [Fraction::new(-1, 7, 3), Fraction::new(1, 7, 3)];
        assert!(rounded_outward([-3, 3], &thirds));
        for wrong in [[-4, 3], [-2, 3], [-3, 2], [-3, 4]] {
            assert!(!rounded_outward(wrong, &thirds));
        }
        assert!(rounded_outward([2, 2], &[Fraction::new(2, 3, 3)]));
    }
}
