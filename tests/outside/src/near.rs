//! Sheets near the thresholds of the rules and at the limits of the questions,
//! with a table of how many lie where.

use reference::chance::Chance;
use reference::limits::{at_limit, limits};
use reference::sheet::{Numbers, Sheet};
use reference::thresholds::{kept, search, Near, KEPT, THRESHOLDS};
use reference::working::worked;

/// The kept sheets near every threshold, at either scale, and, where the run is long,
/// twice as many that are searched for. Fewer than were kept, at an end and distance that
/// occur, are an error.
pub fn thresholds(seed: u64, long: bool) -> Result<Vec<Sheet>, String> {
    let mut sheets = kept();
    if long {
        let mut chance = Chance::seeded(seed);
        for threshold in &THRESHOLDS {
            for (fine, kept) in KEPT {
                sheets.extend(search(threshold, fine, &mut chance, 2 * kept));
            }
        }
    }
    print_near(&sheets)?;
    Ok(sheets)
}

fn print_near(sheets: &[Sheet]) -> Result<(), String> {
    println!(
        "\n{:40} {:4} {:>6}  {:23}  {:23}",
        "sheets within two units of", "fine", "", "lower end -2 .. 2", "upper end -2 .. 2"
    );
    let workings: Vec<_> = sheets.iter().map(|&s| (s, worked(&s))).collect();
    for threshold in &THRESHOLDS {
        for (fine, kept) in KEPT {
            let near = Near::of(threshold, fine, &workings);
            let [lower, upper] = near.at_distances.map(row);
            let (name, sheets) = (threshold.name, near.sheets);
            println!("{name:40} {fine:4} {sheets:6}  {lower}  {upper}");
            if near.fewest(threshold) < kept {
                return Err(format!("too few sheets: {name}, fine={fine}\n"));
            }
        }
    }
    println!("where 0 stands no end can lie: tests/reference/src/thresholds.rs says why");
    Ok(())
}

fn row(counts: [u64; 5]) -> String {
    counts.map(|n| format!("{n:4} ")).concat()
}

/// Sheets at every limit of questions 2 to 10, so many at each distance from it.
pub fn at_limits(seed: u64, wanted: usize) -> Vec<Numbers> {
    println!(
        "\n{:40} {:>6}  {:23}",
        "sheets at a limit, met up to 0", "", "at -2 .. 2"
    );
    let mut chance = Chance::seeded(seed);
    let mut all = Vec::new();
    for limit in limits() {
        let found = at_limit(&limit, &mut chance, wanted);
        let counts = found.each_ref().map(|sheets| sheets.len() as u64);
        let (name, sum) = (limit.name(), counts.iter().sum::<u64>());
        println!("{name:40} {sum:6}  {}", row(counts));
        all.extend(found.concat());
    }
    println!(
        "where 0 stands a number would lie below 0, be a third form, or a fine between 1 and 10"
    );
    all
}
