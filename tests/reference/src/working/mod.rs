//! The working of a section with every intermediate pair (document 01,
//! "Widths and slenderness" to "Area, resistance, shift").

mod names;
mod parts;
mod rounds;

pub use parts::{Axis, Parts};
pub use rounds::{Round, Stiffener};

use crate::pair::{Pair, Scale};
use crate::rules::{lip_coefficient, slenderness_squared, WidthRule, SUPPORTED};
use crate::sheet::Sheet;
use rounds::all_rounds;

/// Lengths and steel of the sheet as exact pairs: mid-line lengths from the
/// nominal thickness, t the core thickness.
#[derive(Clone, Copy, Debug)]
pub struct Lengths {
    pub hp: Pair,
    pub bp: [Pair; 2],
    pub cp: Pair,
    pub t: Pair,
    pub fyb: Pair,
}

impl Lengths {
    pub fn of(sheet: &Sheet, scale: Scale) -> Lengths {
        let length = |hundredths: u64| scale.exact(hundredths as i128, 100);
        let tnom = length(sheet.tnom);
        Lengths {
            hp: length(sheet.h) - tnom,
            bp: [length(sheet.b1) - tnom, length(sheet.b2) - tnom],
            cp: length(sheet.c) - tnom / scale.whole(2),
            t: length(sheet.t),
            fyb: scale.whole(sheet.fyb as i128),
        }
    }
}

/// Slenderness of a plane and the part of its width that counts.
#[derive(Clone, Copy, Debug, PartialEq, Eq)]
pub struct Plane {
    pub u2: Pair,
    pub u: Pair,
    pub rho: Pair,
}

impl Plane {
    fn of(u2: Pair, rule: WidthRule) -> Plane {
        let u = u2.root();
        let rho = rule.rho(u);
        Plane { u2, u, rho }
    }
}

/// A lip's ratio to its own flange and its buckling coefficient.
#[derive(Clone, Copy, Debug)]
pub struct LipRatio {
    pub q: Pair,
    pub k: Pair,
}

impl LipRatio {
    fn of(cp: Pair, bp: Pair) -> LipRatio {
        let q = cp / bp;
        LipRatio {
            q,
            k: lip_coefficient(q),
        }
    }
}

/// 0.5×ρ×width, left to right.
fn half_kept(rho: Pair, width: Pair) -> Pair {
    rho.scale.exact(1, 2) * rho * width
}

/// The whole working.
#[derive(Clone, Debug)]
pub struct Working {
    pub scale: Scale,
    pub lengths: Lengths,
    pub web: Plane,
    pub lip_ratios: [LipRatio; 2],
    pub rounds: Vec<Round>,
    pub parts: Parts,
    pub effective: Axis,
    pub area: Pair,
    pub gross: Axis,
    pub shift: Pair,
}

/// The working at the sheet's own scale.
pub fn worked(sheet: &Sheet) -> Working {
    Working::of(sheet, sheet.scale())
}

impl Working {
    pub fn of(sheet: &Sheet, scale: Scale) -> Working {
        let lengths = Lengths::of(sheet, scale);
        let Lengths { hp, bp, cp, t, fyb } = lengths;
        let four = scale.whole(4);

        let web = Plane::of(slenderness_squared(hp, t, fyb, four), SUPPORTED);
        let flange_u2 = bp.map(|bp| slenderness_squared(bp, t, fyb, four));
        let lip_ratios = bp.map(|bp| LipRatio::of(cp, bp));
        let lip_u2 = lip_ratios.map(|lip| slenderness_squared(cp, t, fyb, lip.k));
        let rounds = all_rounds(&lengths, flange_u2, lip_u2, sheet.rounds);
        Working::of_rounds(lengths, web, lip_ratios, rounds)
    }

    /// What follows from the rounds.
    fn of_rounds(
        lengths: Lengths,
        web: Plane,
        lip_ratios: [LipRatio; 2],
        rounds: Vec<Round>,
    ) -> Working {
        let parts = Parts::effective(lengths.hp, web, &rounds);
        let (effective, gross) = (parts.axis(), Parts::full(&lengths).axis());
        Working {
            scale: lengths.t.scale,
            lengths,
            web,
            lip_ratios,
            rounds,
            parts,
            effective,
            area: lengths.t * effective.length,
            gross,
            shift: effective.z - gross.z,
        }
    }

    /// The same section with other rounds.
    pub fn with_rounds(&self, rounds: Vec<Round>) -> Working {
        Working::of_rounds(self.lengths, self.web, self.lip_ratios, rounds)
    }
}
