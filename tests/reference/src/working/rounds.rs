//! The stiffener of each flange, in round 0 and in every refining round.

use super::{half_kept, Lengths, Plane};
use crate::pair::Pair;
use crate::rules::{thickness_factor, OUTSTAND, SUPPORTED};

/// The stiffener of one flange in one round.
#[derive(Clone, Copy, Debug, PartialEq, Eq)]
pub struct Stiffener {
    pub flange: Plane,
    pub lip: Plane,
    pub be2: Pair,
    pub c_eff: Pair,
    pub a: Pair,
    pub g: Pair,
    pub j: Pair,
    pub big_t: Pair,
    pub kf: Pair,
    pub d: Pair,
    pub ud: Pair,
    /// χ of this round's ud.
    pub chi_new: Pair,
    /// χ of the round: in a refining round the smaller of the new and the old one.
    pub chi: Pair,
}

/// Both flanges in one round; round 0 is the first working.
#[derive(Clone, Copy, Debug, PartialEq, Eq)]
pub struct Round {
    pub stiffeners: [Stiffener; 2],
}

/// Widths of one stiffener, before the other flange comes in.
struct Widths {
    flange: Plane,
    lip: Plane,
    be2: Pair,
    c_eff: Pair,
    a: Pair,
    g: Pair,
}

impl Widths {
    fn of(lengths: &Lengths, bp: Pair, flange: Plane, lip: Plane) -> Widths {
        let s = bp.scale;
        let be2 = half_kept(flange.rho, bp);
        let c_eff = lip.rho * lengths.cp;
        let a = be2 + c_eff;
        let g = bp - be2 * be2 / (s.whole(2) * a);
        Widths {
            flange,
            lip,
            be2,
            c_eff,
            a,
            g,
        }
    }

    /// J = be2×t×t÷12 + c×c×c÷12 + c×c×c×be2÷(4×a), c being c_eff.
    fn second_moment(&self, t: Pair) -> Pair {
        let s = t.scale;
        let (be2, c, a) = (self.be2, self.c_eff, self.a);
        be2 * t * t / s.whole(12) + c * c * c / s.whole(12) + c * c * c * be2 / (s.whole(4) * a)
    }

    /// T = fyb×a÷t÷210.
    fn big_t(&self, lengths: &Lengths) -> Pair {
        lengths.fyb * self.a / lengths.t / lengths.t.scale.whole(210)
    }

    /// kf, D, ud and χ: this is the flange under study, and kf is the other's a over
    /// its own (W-201); o is the other's g.
    fn stiffener(&self, lengths: &Lengths, other: &Widths) -> Stiffener {
        let s = self.a.scale;
        let (g, o, hp) = (self.g, other.g, lengths.hp);
        let kf = other.a / self.a;
        let j = self.second_moment(lengths.t);
        let big_t = self.big_t(lengths);
        let d = g * g * hp + g * g * g + s.exact(1, 2) * g * o * hp * kf;
        let fourth = d / j * big_t * big_t * s.exact(91, 100) / s.whole(1_000_000);
        let ud = fourth.root().root();
        let chi_new = thickness_factor(ud);
        Stiffener {
            flange: self.flange,
            lip: self.lip,
            be2: self.be2,
            c_eff: self.c_eff,
            a: self.a,
            g,
            j,
            big_t,
            kf,
            d,
            ud,
            chi_new,
            chi: chi_new,
        }
    }
}

impl Round {
    /// One round from u² of both flanges and of both lips, with its new χ.
    fn of(lengths: &Lengths, flange_u2: [Pair; 2], lip_u2: [Pair; 2]) -> Round {
        let widths = [0, 1].map(|i| {
            let flange = Plane::of(flange_u2[i], SUPPORTED);
            let lip = Plane::of(lip_u2[i], OUTSTAND);
            Widths::of(lengths, lengths.bp[i], flange, lip)
        });
        let stiffeners = [0, 1].map(|i| widths[i].stiffener(lengths, &widths[1 - i]));
        Round { stiffeners }
    }

    /// The round behind this one, with its new χ: it multiplies u² of the first round by
    /// its own flange's χ of this one.
    pub fn next(&self, lengths: &Lengths, first: &Round) -> Round {
        let times_chi = |u2: fn(&Stiffener) -> Pair| {
            [0, 1].map(|i| u2(&first.stiffeners[i]) * self.stiffeners[i].chi)
        };
        Round::of(lengths, times_chi(|s| s.flange.u2), times_chi(|s| s.lip.u2))
    }

    /// Each flange's χ is the smaller of the new one and that of the round before, end by
    /// end; all else is of the new round (W-205).
    fn not_above(mut self, before: &Round) -> Round {
        for (new, old) in self.stiffeners.iter_mut().zip(&before.stiffeners) {
            new.chi = new.chi_new.smaller(old.chi);
        }
        self
    }
}

/// Round 0 and the refining rounds.
pub(super) fn all_rounds(
    lengths: &Lengths,
    flange_u2: [Pair; 2],
    lip_u2: [Pair; 2],
    refining: u64,
) -> Vec<Round> {
    let first = Round::of(lengths, flange_u2, lip_u2);
    let mut rounds = vec![first];
    for _ in 0..refining {
        let before = rounds[rounds.len() - 1];
        rounds.push(before.next(lengths, &first).not_above(&before));
    }
    rounds
}
