//! How soon refining settles, and what W-205 changes: prints, for random sheets that are
//! accepted, how many rounds are worked until one leaves both χ as they were, before W-205
//! and now, how many sheets would print a larger χ after the first round, and of how many
//! the figures are others. For equal and for unequal flanges, at either scale.

use reference::chance::{Chance, SEED};
use reference::refining::worked_before;
use reference::rising::MOST_ROUNDS;
use reference::sheet::place::{B1, B2};
use reference::sheet::{ask_before_working, ask_numbers, Figures, Sheet, FINENESSES, RANGES};
use reference::working::{worked, Round, Working};

const SHEETS: usize = 20_000;

/// Drawn as the benchmark's (tests/bench/sheets.h): each value anywhere in its range until
/// questions 2 to 10 are met, and accepted with an allowance of 10 mm² whether its rounds
/// are 0, 3 or 8, at both scales.
fn accepted_sheet(chance: &mut Chance, equal_flanges: bool) -> Sheet {
    loop {
        let mut numbers = RANGES.map(|range| chance.one_in_range(range));
        if equal_flanges {
            numbers[B2] = numbers[B1];
        }
        let Ok(sheet) = ask_before_working(numbers) else {
            continue;
        };
        let sheet = Sheet {
            allow: 1000,
            ..sheet
        };
        if accepted_at_both_scales(&sheet) {
            return sheet;
        }
    }
}

fn accepted_at_both_scales(sheet: &Sheet) -> bool {
    let is_accepted = |rounds, fine| {
        let sheet = Sheet {
            rounds,
            fine,
            ..*sheet
        };
        ask_numbers(sheet.numbers()).is_ok()
    };
    let mut all = [0, 3, 8].into_iter();
    all.all(|rounds| FINENESSES.iter().all(|&fine| is_accepted(rounds, fine)))
}

/// The refining rounds up to the first that leaves both χ as they were, or to the last.
fn until_settled(rounds: &[Round], most: usize) -> usize {
    let chi = |round: &Round| round.stiffeners.map(|s| s.chi);
    let settled = |&i: &usize| chi(&rounds[i]) == chi(&rounds[i - 1]);
    (1..most).find(settled).unwrap_or(most)
}

/// Sums over sheets.
#[derive(Default)]
struct Sums {
    sheets: usize,
    /// Rounds until settled, with rounds=3 and rounds=8, before W-205 and now.
    worked: [[usize; 2]; 2],
    would_rise: usize,
    /// With rounds from 1 on, and of these with other figures.
    refined: usize,
    changed: usize,
}

fn before(sheet: &Sheet) -> Working {
    worked_before(sheet, sheet.scale())
}

impl Sums {
    fn add(&mut self, sheet: &Sheet) {
        let with = |rounds| Sheet { rounds, ..*sheet };
        let most = with(MOST_ROUNDS);
        let rounds = [before(&most).rounds, worked(&most).rounds];
        for (sums, most) in self.worked.iter_mut().zip([3, 8]) {
            for (sum, rounds) in sums.iter_mut().zip(&rounds) {
                *sum += until_settled(rounds, most);
            }
        }
        let [none, one] = [0, 1].map(|n| Figures::of(sheet, &before(&with(n))));
        self.would_rise += usize::from(one.chi1 > none.chi1 || one.chi2 > none.chi2);
        let figures = [before(sheet), worked(sheet)].map(|working| Figures::of(sheet, &working));
        self.sheets += 1;
        self.refined += usize::from(sheet.rounds > 0);
        self.changed += usize::from(figures[0] != figures[1]);
    }

    fn print(&self, name: &str) {
        let mean = |sum: usize| format!("{:.2}", sum as f64 / self.sheets as f64);
        let share = |n: usize, of: usize| format!("{:.1} %", n as f64 * 100.0 / of as f64);
        let [three, eight] = self.worked.map(|sums| sums.map(mean));
        println!("{name}, {} sheets", self.sheets);
        println!("  rounds=3: {} rounds before, {} now", three[0], three[1]);
        println!("  rounds=8: {} rounds before, {} now", eight[0], eight[1]);
        let rise = share(self.would_rise, self.sheets);
        println!("  chi1 or chi2 would rise from rounds=0 to 1: {rise}");
        let (n, changed) = (self.refined, share(self.changed, self.refined));
        println!("  other figures, of {n} with rounds from 1 on: {changed}");
    }
}

fn main() {
    for (name, equal) in [("equal flanges", true), ("unequal flanges", false)] {
        let mut chance = Chance::seeded(SEED);
        let mut sums = FINENESSES.map(|_| Sums::default());
        for _ in 0..SHEETS {
            let sheet = accepted_sheet(&mut chance, equal);
            for (sums, fine) in sums.iter_mut().zip(FINENESSES) {
                sums.add(&Sheet { fine, ..sheet });
            }
        }
        for (sums, fine) in sums.iter().zip(FINENESSES) {
            sums.print(&format!("{name}, fine={fine}"));
        }
    }
}
