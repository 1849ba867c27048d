//! The pairs of a working by their names.

use super::{Plane, Round, Stiffener, Working};
use crate::pair::Pair;

impl Working {
    /// Every pair with its name, in the paper's order.
    pub fn named(&self) -> Vec<(String, Pair)> {
        let mut names = Names(Vec::new());
        let first = self.rounds[0].stiffeners;
        names.add("hp", self.lengths.hp);
        names.add("bp1", self.lengths.bp[0]);
        names.add("bp2", self.lengths.bp[1]);
        names.add("cp", self.lengths.cp);
        names.plane("", "web", self.web);
        names.plane("", "flange1", first[0].flange);
        names.plane("", "flange2", first[1].flange);
        for (i, ratio) in self.lip_ratios.iter().enumerate() {
            names.add(format!("q.lip{}", i + 1), ratio.q);
            names.add(format!("k.lip{}", i + 1), ratio.k);
            names.plane("", &format!("lip{}", i + 1), first[i].lip);
        }
        names.add("be1.flange1", self.parts.be1[0]);
        names.add("be1.flange2", self.parts.be1[1]);
        for (number, round) in self.rounds.iter().enumerate() {
            names.round(number, round);
        }
        names.add("he", self.parts.he);
        names.add("L", self.effective.length);
        names.add("area", self.area);
        names.add("moment", self.effective.moment);
        names.add("z", self.effective.z);
        names.add("gross.L", self.gross.length);
        names.add("gross.moment", self.gross.moment);
        names.add("gross.z", self.gross.z);
        names.add("shift", self.shift);
        names.0
    }
}

/// Pairs with their names, as they are added.
struct Names(Vec<(String, Pair)>);

impl Names {
    fn add(&mut self, name: impl Into<String>, pair: Pair) {
        self.0.push((name.into(), pair));
    }

    fn plane(&mut self, before: &str, name: &str, plane: Plane) {
        self.add(format!("{before}u2.{name}"), plane.u2);
        self.add(format!("{before}u.{name}"), plane.u);
        self.add(format!("{before}rho.{name}"), plane.rho);
    }

    /// A pair of each stiffener.
    fn both(&mut self, name: String, round: &Round, pick: fn(&Stiffener) -> Pair) {
        self.add(format!("{name}1"), pick(&round.stiffeners[0]));
        self.add(format!("{name}2"), pick(&round.stiffeners[1]));
    }

    fn round(&mut self, number: usize, round: &Round) {
        let before = format!("round{number}.");
        let [one, two] = round.stiffeners;
        self.plane(&before, "flange1", one.flange);
        self.plane(&before, "flange2", two.flange);
        self.plane(&before, "lip1", one.lip);
        self.plane(&before, "lip2", two.lip);
        self.both(before.clone() + "be2.flange", round, |s| s.be2);
        self.both(before.clone() + "c_eff.flange", round, |s| s.c_eff);
        self.both(before.clone() + "a", round, |s| s.a);
        self.both(before.clone() + "g", round, |s| s.g);
        self.both(before.clone() + "J", round, |s| s.j);
        self.both(before.clone() + "T", round, |s| s.big_t);
        self.both(before.clone() + "kf", round, |s| s.kf);
        self.both(before.clone() + "D", round, |s| s.d);
        self.both(before.clone() + "ud", round, |s| s.ud);
        self.both(before.clone() + "new chi", round, |s| s.chi_new);
        self.both(before + "chi", round, |s| s.chi);
    }
}
