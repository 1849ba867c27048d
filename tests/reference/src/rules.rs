//! Slenderness, ρ, k and χ (document 01, "Widths and slenderness" and
//! "Stiffener of each flange").

use crate::pair::{divide_down, divide_up, Pair, Scale};

/// Division with a rounding: `divide_down` or `divide_up`.
type Rounded = fn(i128, i128) -> i128;

/// u² = (w÷t)×(w÷t)×fyb÷189541.6÷k.
pub fn slenderness_squared(w: Pair, t: Pair, fyb: Pair, k: Pair) -> Pair {
    let ratio = w / t;
    ratio * ratio * fyb / w.scale.exact(1_895_416, 10) / k
}

/// The rule for ρ of one sort of plane, in thousandths.
#[derive(Clone, Copy)]
pub struct WidthRule {
    pub full_to: i128,
    pub less: i128,
}

/// Web and flanges: 1 for u ≤ 0.673, else (u − 0.22)/u².
pub const SUPPORTED: WidthRule = WidthRule {
    full_to: 673,
    less: 220,
};

/// Lip: 1 for u ≤ 0.748, else (u − 0.188)/u².
pub const OUTSTAND: WidthRule = WidthRule {
    full_to: 748,
    less: 188,
};

impl WidthRule {
    /// ρ at the ends; it falls, so the lower end comes from the upper u.
    pub fn rho(self, u: Pair) -> Pair {
        u.scale.pair(
            self.at(u.hi, u.scale, divide_down),
            self.at(u.lo, u.scale, divide_up),
        )
    }

    /// Exact at one u, rounded once, at most 1.
    fn at(self, u: i128, scale: Scale, rounded: Rounded) -> i128 {
        let s = scale.units();
        if u <= thousandths(scale, self.full_to) {
            return s;
        }
        let less = thousandths(scale, self.less);
        rounded((u - less) * s * s, u * u).min(s)
    }
}

/// The greatest q of a lip whose k is 0.5, in thousandths.
pub const LIP_HALF_TO: i128 = 350;

/// k of a lip from q, end by end: each operation rounded down for the lower
/// end and up for the upper.
pub fn lip_coefficient(q: Pair) -> Pair {
    let lower = coefficient_at(q.scale.pair(q.lo, q.lo)).lo;
    let upper = coefficient_at(q.scale.pair(q.hi, q.hi)).hi;
    q.scale.pair(lower, upper)
}

/// 0.5 for q ≤ 0.35, else 0.5 + 0.83 × cube root of ((q − 0.35)×(q − 0.35)),
/// for a q with equal ends.
fn coefficient_at(q: Pair) -> Pair {
    let s = q.scale;
    let threshold = s.exact(LIP_HALF_TO, 1000);
    let half = s.exact(1, 2);
    if q.lo <= threshold.lo {
        return half;
    }
    half + s.exact(83, 100) * ((q - threshold) * (q - threshold)).cube_root()
}

/// χ is 1 up to the first ud and jumps at the second, in thousandths.
pub const FACTOR_ONE_TO: i128 = 650;
pub const FACTOR_JUMPS_AT: i128 = 1380;

/// The thickness factor χ of the stiffener's slenderness ud.
pub fn thickness_factor(ud: Pair) -> Pair {
    let at_upper = factor_at(ud.hi, ud.scale, divide_down);
    let at_lower = factor_at(ud.lo, ud.scale, divide_up);
    if straddles_jump(ud) {
        let s = ud.scale;
        let below_jump = s.exact(47_226, 100_000).lo;
        let above_jump = factor_at(thousandths(s, FACTOR_JUMPS_AT), s, divide_up);
        return s.pair(below_jump.min(at_upper), above_jump.max(at_lower));
    }
    ud.scale.pair(at_upper, at_lower)
}

/// The lower end is below 1.38 and the upper is not.
pub fn straddles_jump(ud: Pair) -> bool {
    let jump = thousandths(ud.scale, FACTOR_JUMPS_AT);
    ud.lo < jump && ud.hi >= jump
}

/// χ exact at one ud, rounded once.
fn factor_at(ud: i128, scale: Scale, rounded: Rounded) -> i128 {
    let s = scale.units();
    if ud <= thousandths(scale, FACTOR_ONE_TO) {
        s
    } else if ud < thousandths(scale, FACTOR_JUMPS_AT) {
        rounded(1470 * s - 723 * ud, 1000).min(s)
    } else {
        rounded(66 * s * s, 100 * ud)
    }
}

/// A constant of n thousandths, in units.
pub fn thousandths(scale: Scale, n: i128) -> i128 {
    scale.exact(n, 1000).lo
}

#[cfg(test)]
mod tests {
    use super::*;

    fn pair(lo: i128, hi: i128) -> Pair {
        Scale::multiple(1).pair(lo, hi)
    }

    fn chi(lo: i128, hi: i128) -> (i128, i128) {
        thickness_factor(pair(lo, hi)).ends()
    }

    const ONE: (i128, i128) = (1_000_000, 1_000_000);

    #[test]
    fn linear_chi_never_passes_one() {
        assert_eq!(chi(650_000, 650_001), ONE);
        assert_eq!(chi(650_069, 650_069), ONE);
        assert_eq!(chi(650_070, 650_070), (999_999, 1_000_000));
    }

    #[test]
    fn chi_across_the_jump_keeps_the_outer_values() {
        assert_eq!(chi(1_380_000, 1_380_000), (478_260, 478_261));
        assert_eq!(chi(1_379_999, 1_379_999), (472_260, 472_261));
        assert_eq!(chi(600_000, 2_000_000), (330_000, 1_000_000));
    }

    #[test]
    fn rho_is_one_to_the_threshold_and_just_past_it() {
        for past in 0..=2 {
            let (supported, outstand) = (673_000 + past, 748_000 + past);
            assert_eq!(SUPPORTED.rho(pair(supported, supported)).ends(), ONE);
            assert_eq!(OUTSTAND.rho(pair(outstand, outstand)).ends(), ONE);
        }
        assert!(SUPPORTED.rho(pair(680_000, 680_000)).hi < 1_000_000);
        assert!(OUTSTAND.rho(pair(760_000, 760_000)).hi < 1_000_000);
    }

    #[test]
    fn coefficient_rises_from_035() {
        let k = |lo, hi| lip_coefficient(pair(lo, hi)).ends();
        assert_eq!(k(350_000, 350_000), (500_000, 500_000));
        // (0.000001)² is below one unit: (0, 1), whose cube root is (0, 0.01).
        assert_eq!(k(350_000, 350_001), (500_000, 508_300));
        assert_eq!(k(600_000, 600_000), (829_385, 829_387));
    }
}
