//! Calls the archives of crates honemagenta and pair_c from outside: the
//! calls for certificates, reports and lip coefficients beside the reference,
//! answers and every byte of the buffers, and the pair operations beside exact
//! results.
//!
//! outside                  in some seconds
//! outside --long           in some minutes, 200,000 of each sort of random case
//! outside --seed NUMBER    with other random cases

mod calls;
mod catalogues;
mod compare;
mod exact;
mod groups;
mod lip_tables;
mod near;
mod operands;
mod operations;
mod pair_calls;

use groups::Tried;
use operations::OPERATIONS;
use reference::chance::Chance;
use reference::finer::MULTIPLES;
use reference::text::REFUSALS;
use std::env;
use std::process::ExitCode;
use std::time::Instant;

/// What the switches ask for.
struct Asked {
    long: bool,
    seed: u64,
}

fn asked(mut arguments: impl Iterator<Item = String>) -> Option<Asked> {
    let mut asked = Asked {
        long: false,
        seed: 81_985_529_216_486_895,
    };
    while let Some(argument) = arguments.next() {
        match argument.as_str() {
            "--long" => asked.long = true,
            "--seed" => asked.seed = arguments.next()?.parse().ok().filter(|&seed| seed > 0)?,
            _ => return None,
        }
    }
    Some(asked)
}

fn main() -> ExitCode {
    let Some(asked) = asked(env::args().skip(1)) else {
        eprintln!("outside [--long] [--seed NUMBER], the number above 0");
        return ExitCode::FAILURE;
    };
    match run(&asked) {
        Ok(()) => ExitCode::SUCCESS,
        Err(difference) => {
            println!(
                "outside: seed {}: not as it should be\n{difference}",
                asked.seed
            );
            ExitCode::FAILURE
        }
    }
}

fn run(asked: &Asked) -> Result<(), String> {
    let started = Instant::now();
    let count = if asked.long { 200_000 } else { 10_000 };
    println!(
        "outside: seed {}, {count} random cases of each sort",
        asked.seed
    );
    let operations = pair_operations(asked.seed, count)?;
    let calls = certificates(asked, count)?
        + reports(asked.seed, count)?
        + lip_coefficients(asked.seed, count)?;
    println!(
        "\noutside: {operations} pair operations and {calls} calls are as they should be, in {:.0} s",
        started.elapsed().as_secs_f64()
    );
    Ok(())
}

/// How many calls were tried.
fn pair_operations(seed: u64, count: u64) -> Result<u64, String> {
    let names = OPERATIONS.map(|(name, _)| name).join(", ");
    println!(
        "\n{count} random operands of each of {} operations of pair: {names}",
        OPERATIONS.len()
    );
    let mut chance = Chance::seeded(seed);
    for (name, operation) in OPERATIONS {
        for _ in 0..count {
            operation(&mut chance).map_err(|call| format!("{name}: {call}"))?;
        }
    }
    Ok(count * OPERATIONS.len() as u64)
}

/// How many calls were tried.
fn certificates(asked: &Asked, count: u64) -> Result<u64, String> {
    let seed = asked.seed;
    let near = near::thresholds(seed, asked.long)?;
    let limits = near::at_limits(seed, if asked.long { 100 } else { 12 });
    let step = if asked.long { 1 } else { 60 };
    let near_numbers = || near.iter().map(|sheet| sheet.numbers());
    println!(
        "\n{:24} {:>7} {:>8}   calls with refusal 0, 1, .. {REFUSALS}",
        "", "cases", "s"
    );
    tried(&[
        ("near thresholds", &|| groups::given(near_numbers())),
        ("at limits", &|| groups::given(limits.iter().copied())),
        ("kept cases", &groups::kept_cases),
        ("extreme numbers", &groups::extreme_numbers),
        ("every room", &|| groups::every_room(step)),
        ("cut at every byte", &groups::every_cut),
        ("a fault at every place", &groups::every_place),
        ("figures moved", &|| groups::figures_moved(step)),
        ("random sections", &|| groups::random_sections(seed, count)),
        ("rounds side by side", &|| {
            groups::rounds_side_by_side(seed, count / 20)
        }),
        ("random numbers", &|| groups::random_numbers(seed, count)),
        ("damaged sheets", &|| groups::damaged_sheets(seed, count)),
        ("damaged certificates", &|| {
            groups::damaged_certificates(seed, count)
        }),
        (&multiples(), &|| {
            groups::finer_workings(seed, count / 4, &near)
        }),
    ])
}

/// How many calls were tried. A catalogue of random sheets is some cases in one.
fn reports(seed: u64, count: u64) -> Result<u64, String> {
    tried(&[
        ("catalogues: kept", &catalogues::kept_catalogues),
        ("  numbers of sheets", &catalogues::numbers_of_sheets),
        ("  every room", &catalogues::every_room),
        ("  cut at every byte", &catalogues::every_cut),
        ("  faulty sheets", &catalogues::faulty_sheets),
        ("  random", &|| {
            catalogues::random_catalogues(seed, count / 10)
        }),
        ("  random, large", &|| {
            catalogues::large_catalogues(seed, count / 1000)
        }),
    ])
}

/// How many calls were tried.
fn lip_coefficients(seed: u64, count: u64) -> Result<u64, String> {
    let finer = format!("  {}", multiples());
    tried(&[
        ("lips: every room", &lip_tables::every_room),
        ("  every entry", &lip_tables::every_entry),
        ("  every ratio, m = 1", &lip_tables::every_ratio),
        ("  ratios outside", &lip_tables::ratios_outside),
        (&finer, &|| lip_tables::finer_workings(seed, count)),
        ("  more places", &|| lip_tables::more_places(seed, count)),
    ])
}

/// The scales of the finer workings.
fn multiples() -> String {
    format!("m = {}", MULTIPLES.map(|m| m.to_string()).join(", "))
}

/// Tries groups; how many calls there were.
fn tried(groups: &[(&str, &dyn Fn() -> Tried)]) -> Result<u64, String> {
    let mut calls = 0;
    for (name, group) in groups {
        calls += timed(name, *group)?;
    }
    Ok(calls)
}

/// Tries a group and prints its line of the table; how many calls there were.
fn timed(name: &str, group: &dyn Fn() -> Tried) -> Result<u64, String> {
    let started = Instant::now();
    let agreed = group()?;
    let counts = agreed.calls.map(|n| n.to_string()).join(" ");
    let seconds = started.elapsed().as_secs_f64();
    println!("{name:24} {:7} {seconds:8.1}   {counts}", agreed.cases);
    Ok(agreed.calls.iter().sum())
}
