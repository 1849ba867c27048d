//! Demand 3: a working at m times the sheet's scale against the printed figures.

use crate::pair::Pair;
use crate::sheet::{axial_resistance, Figures, Sheet};
use crate::working::Working;

/// Each m that is tried.
pub const MULTIPLES: [i128; 4] = [2, 3, 10, 1000];

/// How an end has to lie to its bound.
#[derive(Clone, Copy, Debug, PartialEq, Eq)]
pub enum Relation {
    AtLeast,
    AtMost,
    LessThan,
}
use Relation::{AtLeast, AtMost, LessThan};

/// One of the twelve: an end of the finer working and its bound, both times the
/// divisor, in the unit of the printed figure.
#[derive(Clone, Copy, Debug)]
pub struct Inequality {
    pub figure: &'static str,
    pub end: &'static str,
    pub value: i128,
    pub relation: Relation,
    pub bound: i128,
    pub divisor: i128,
}

impl Inequality {
    pub fn holds(&self) -> bool {
        match self.relation {
            AtLeast => self.value >= self.bound,
            AtMost => self.value <= self.bound,
            LessThan => self.value < self.bound,
        }
    }

    pub fn name(&self) -> String {
        let side = match self.relation {
            AtLeast => "below",
            AtMost | LessThan => "above",
        };
        format!("{} {} from {side}", self.figure, self.end)
    }
}

/// The twelve inequalities; all must hold.
pub fn inequalities(sheet: &Sheet, figures: &Figures, m: i128) -> Vec<Inequality> {
    let scale = sheet.finer_scale(m);
    let s = scale.units();
    let working = Working::of(sheet, scale);
    let allow = sheet.allow as i128;
    // 10 × allow × fyb ÷ gm0 newtons, times the divisor of the axial resistance.
    let allowed = 10 * allow * sheet.fyb as i128 * s;
    let mut found = Vec::new();
    for (end, area) in ends(working.area) {
        let [least, most] = [figures.area, figures.area + allow].map(|bound| bound * s);
        let bounds = [(AtLeast, least), (AtMost, most)];
        found.extend(bounded("area", end, (area * 100, s), bounds));
    }
    for (end, area) in ends(working.area) {
        let (axial, divisor) = axial_resistance(sheet, area, scale);
        let [least, next] = [figures.axial, figures.axial + 1].map(|bound| bound * divisor);
        let bounds = [(AtLeast, least), (LessThan, next + allowed)];
        found.extend(bounded("axial", end, (axial, divisor), bounds));
    }
    for (end, shift) in ends(working.shift) {
        let [least, most] = [figures.shiftlo, figures.shifthi].map(|bound| bound * s);
        let bounds = [(AtLeast, least), (AtMost, most)];
        found.extend(bounded("shift", end, (shift * 100, s), bounds));
    }
    found
}

/// An end of a figure, as a dividend and a divisor, and its two bounds.
fn bounded(
    figure: &'static str,
    end: &'static str,
    (value, divisor): (i128, i128),
    bounds: [(Relation, i128); 2],
) -> [Inequality; 2] {
    bounds.map(|(relation, bound)| Inequality {
        figure,
        end,
        value,
        relation,
        bound,
        divisor,
    })
}

/// Names of the inequalities that fail, none if demand 3 holds at m.
pub fn failures(sheet: &Sheet, figures: &Figures, m: i128) -> Vec<String> {
    inequalities(sheet, figures, m)
        .iter()
        .filter(|claim| !claim.holds())
        .map(Inequality::name)
        .collect()
}

fn ends(pair: Pair) -> [(&'static str, i128); 2] {
    [("lower", pair.lo), ("upper", pair.hi)]
}
