//! Which `allow` suffices: prints, for random sections that meet questions 2 to
//! 10, the least allowance that the eleventh leaves, as README quotes it. Over
//! the whole ranges, and for ordinary sections; worked at either scale.

use reference::chance::{Chance, SEED};
use reference::generate::needed_allowance;
use reference::random::random_section;
use reference::sheet::{ask_before_working, Sheet, FINENESSES};

const SECTIONS: usize = 100_000;

/// An ordinary section: h 100 to 300 mm, b 40 to 100 mm, t 1 to 3 mm, steel of
/// 220 to 450 N/mm², up to three rounds.
fn ordinary_section(chance: &mut Chance) -> Option<Sheet> {
    let tnom = chance.between(104, 304);
    let sheet = Sheet::from_numbers([
        chance.between(0, 1),
        chance.between(10_000, 30_000),
        chance.between(4_000, 10_000),
        chance.between(4_000, 10_000),
        chance.between(800, 6_000),
        chance.between(0, 500),
        tnom,
        tnom - 4,
        chance.between(220, 450),
        1000,
        chance.between(0, 3),
        0,
        FINENESSES[0],
    ]);
    ask_before_working(sheet.numbers()).ok()
}

/// Least allowances of so many sections, worked with the fineness, from the smallest.
fn needed(section: fn(&mut Chance) -> Option<Sheet>, fine: u64) -> Vec<u64> {
    let mut chance = Chance::seeded(SEED);
    let mut needed: Vec<u64> = std::iter::repeat_with(|| section(&mut chance))
        .flatten()
        .take(SECTIONS)
        .map(|sheet| needed_allowance(&Sheet { fine, ..sheet }))
        .collect();
    needed.sort_unstable();
    needed
}

fn print(name: &str, fine: u64, needed: &[u64]) {
    println!("{name}, fine={fine}, {} sections", needed.len());
    for thousandths in [500, 900, 990, 999] {
        let place = needed.len() * thousandths / 1000;
        println!(
            "  {:.1} %: allow={}",
            thousandths as f64 / 10.0,
            needed[place]
        );
    }
    println!("  largest: {}", needed[needed.len() - 1]);
    for allow in [0, 1, 2, 5, 10, 100, 1000] {
        let enough = needed.partition_point(|n| *n <= allow);
        let share = enough as f64 * 100.0 / needed.len() as f64;
        println!("  allow={allow} suffices for {share:.2} %");
    }
}

fn main() {
    for fine in FINENESSES {
        print("whole ranges", fine, &needed(random_section, fine));
        print("ordinary", fine, &needed(ordinary_section, fine));
    }
}
