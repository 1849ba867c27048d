//! The parts of a section that carry: their length and their neutral axis.

use super::{half_kept, Lengths, Plane, Round};
use crate::pair::Pair;

/// The parts that carry, of the effective or the gross section.
#[derive(Clone, Copy, Debug)]
pub struct Parts {
    pub hp: Pair,
    pub he: Pair,
    pub be1: [Pair; 2],
    pub be2: [Pair; 2],
    pub c_eff: [Pair; 2],
    pub chi: [Pair; 2],
}

impl Parts {
    /// The effective section: be1 is of the first round, the rest of the last.
    pub(super) fn effective(hp: Pair, web: Plane, rounds: &[Round]) -> Parts {
        let last = rounds[rounds.len() - 1].stiffeners;
        Parts {
            hp,
            he: half_kept(web.rho, hp),
            be1: rounds[0].stiffeners.map(|s| s.be2),
            be2: last.map(|s| s.be2),
            c_eff: last.map(|s| s.c_eff),
            chi: last.map(|s| s.chi),
        }
    }

    /// The gross section: all full, χ = 1.
    pub(super) fn full(lengths: &Lengths) -> Parts {
        let s = lengths.hp.scale;
        let halves = lengths.bp.map(|bp| bp / s.whole(2));
        Parts {
            hp: lengths.hp,
            he: lengths.hp / s.whole(2),
            be1: halves,
            be2: halves,
            c_eff: [lengths.cp; 2],
            chi: [s.whole(1); 2],
        }
    }

    /// L = be1 + be1 + he + he + a1×χ1 + a2×χ2.
    fn total_length(&self) -> Pair {
        let a = [0, 1].map(|i| self.be2[i] + self.c_eff[i]);
        self.be1[0] + self.be1[1] + self.he + self.he + a[0] * self.chi[0] + a[1] * self.chi[1]
    }

    /// The dividend of z.
    fn moment(&self) -> Pair {
        let two = self.hp.scale.whole(2);
        let (hp, he) = (self.hp, self.he);
        let [c1, c2] = self.c_eff;
        let [chi1, chi2] = self.chi;
        c2 * chi2 * (hp - c2 / two)
            + hp * (self.be2[1] * chi2 + self.be1[1])
            + he * (hp - he / two)
            + he * he / two
            + c1 * c1 * chi1 / two
    }

    pub fn axis(&self) -> Axis {
        let (length, moment) = (self.total_length(), self.moment());
        let z = moment / length;
        Axis { length, moment, z }
    }
}

/// The length L of the parts, and z, how far their neutral axis lies from flange 1.
#[derive(Clone, Copy, Debug)]
pub struct Axis {
    pub length: Pair,
    pub moment: Pair,
    pub z: Pair,
}
