//! A C section on its mid-lines, in mm, and its walls in the picture.

use crate::svg::{at, At, Svg};
use reference::pair::Pair;
use reference::working::Working;

/// Units of the picture for a mm of length.
pub const PER_MM: f64 = 3.2;

/// So many times as thick as it is to scale a wall is drawn.
pub const THICKER: f64 = 3.0;

/// Where the web and flange 1 lie in the picture.
const WEB: f64 = 230.0;
const FLANGE_1: f64 = 185.0;

/// The place x mm from the web.
pub fn across(x: f64) -> f64 {
    WEB + PER_MM * x
}

/// The place z mm from flange 1.
pub fn down(z: f64) -> f64 {
    FLANGE_1 + PER_MM * z
}

fn place(x: f64, z: f64) -> At {
    at(across(x), down(z))
}

/// A flange with its lip.
pub struct Flange {
    pub number: usize,
    /// How far it lies from flange 1.
    pub z: f64,
    /// 1 where its lip goes away from flange 1, otherwise -1.
    pub inward: f64,
    pub bp: f64,
    pub be1: f64,
    pub be2: f64,
    pub cp: f64,
    pub c_eff: f64,
    pub chi: f64,
}

pub struct Section {
    pub t: f64,
    pub hp: f64,
    pub he: f64,
    pub flanges: [Flange; 2],
    /// How far the neutral axes lie from flange 1.
    pub z: f64,
    pub gross_z: f64,
}

/// The middle of a pair.
fn value(pair: Pair) -> f64 {
    (pair.lo + pair.hi) as f64 / (2 * pair.scale.units()) as f64
}

impl Flange {
    fn of(working: &Working, i: usize) -> Flange {
        let (lengths, parts) = (&working.lengths, &working.parts);
        let (z, inward) = [(0.0, 1.0), (value(lengths.hp), -1.0)][i];
        Flange {
            number: i + 1,
            z,
            inward,
            bp: value(lengths.bp[i]),
            be1: value(parts.be1[i]),
            be2: value(parts.be2[i]),
            cp: value(lengths.cp),
            c_eff: value(parts.c_eff[i]),
            chi: value(parts.chi[i]),
        }
    }

    /// The point x mm from the web, so many mm from the flange toward the other.
    pub fn point(&self, x: f64, from_flange: f64) -> At {
        place(x, self.z + self.inward * from_flange)
    }
}

impl Section {
    pub fn of(working: &Working) -> Section {
        Section {
            t: value(working.lengths.t),
            hp: value(working.lengths.hp),
            he: value(working.parts.he),
            flanges: [0, 1].map(|i| Flange::of(working, i)),
            z: value(working.effective.z),
            gross_z: value(working.gross.z),
        }
    }

    /// Thickness of a wall as it is drawn.
    pub fn drawn_thickness(&self) -> f64 {
        PER_MM * THICKER * self.t
    }

    /// From a mid-line to the wall's face as it is drawn.
    pub fn face(&self) -> f64 {
        self.drawn_thickness() / 2.0
    }

    /// The whole section pale, and above it what counts.
    pub fn walls(&self, svg: &mut Svg) {
        let thickness = self.drawn_thickness();
        let [one, two] = self.flanges.each_ref().map(|flange| {
            let corners = [(flange.bp, flange.cp), (flange.bp, 0.0), (0.0, 0.0)];
            corners.map(|(x, from_flange)| flange.point(x, from_flange))
        });
        let [tip, corner, web] = two;
        svg.pale_wall(thickness, &[&one[..], &[web, corner, tip]].concat());
        for flange in &self.flanges {
            let at_web = [(flange.be1, 0.0), (0.0, 0.0), (0.0, self.he)];
            let at_lip = [
                (flange.bp - flange.be2, 0.0),
                (flange.bp, 0.0),
                (flange.bp, flange.c_eff),
            ];
            for (points, factor) in [(at_web, 1.0), (at_lip, flange.chi)] {
                let points = points.map(|(x, from_flange)| flange.point(x, from_flange));
                svg.wall("counts", thickness * factor, &points);
            }
        }
    }
}
