//! Section 18 of docs/WORKING.md: sheet B worked with every pair. Each formula is
//! worked from its text and held against the pair that the working has kept.

mod axes;
mod figures;
mod stiffeners;

use crate::named::SHEET_B;
use crate::pair::Pair;
use crate::rules::{thousandths, WidthRule, LIP_HALF_TO, OUTSTAND, SUPPORTED};
use crate::sheet::{ask_numbers, Accepted, Sheet};
use crate::steps::{decimal, fixed, Steps};
use crate::text::sheet_text;
use crate::working::{Plane, Working};

/// Sections of docs/WORKING.md.
mod section {
    pub const MID_LINES: u32 = 4;
    pub const SLENDERNESS: u32 = 5;
    pub const WEB_AND_FLANGES: u32 = 6;
    pub const LIP: u32 = 7;
    pub const STIFFENER: u32 = 8;
    pub const FACTOR: u32 = 9;
    pub const ROUNDS: u32 = 10;
    pub const AREA: u32 = 11;
    pub const AXIS: u32 = 12;
}
use section::*;

/// The first line of the section.
pub const HEADING: &str = "## 18 Sheet B, worked";

pub fn worked_example() -> String {
    let accepted = ask_numbers(SHEET_B.numbers()).expect("sheet B is accepted");
    let Accepted { sheet, working, .. } = &accepted;
    let mut steps = Steps::new(working.scale);
    steps.lines(HEADING);
    for paragraph in INTRODUCTION {
        steps.paragraph(paragraph);
    }
    sheet_lines(&mut steps, sheet);
    mid_lines(&mut steps, working);
    web_and_flanges(&mut steps, working);
    lips(&mut steps, working);
    for number in 0..working.rounds.len() {
        stiffeners::round(&mut steps, working, number);
    }
    axes::effective_area(&mut steps, working);
    axes::shift(&mut steps, working);
    figures::printed(&mut steps, &accepted);
    figures::allowance(&mut steps, &accepted);
    figures::finer_working(&mut steps, &accepted);
    steps.text()
}

const INTRODUCTION: [&str; 3] = [
    "Every pair of the working of sheet B, in the order of the sections above. A row is a step: its symbol, its formula, \
     the section that says it, and both ends in the unit named. The formula is worked as it is written, each operation \
     rounded outward to six decimals, as fine=1 asks (section 3). Its symbols stand for the pairs of steps before it, those of the flange, \
     the lip and the round that the titles name. A row without a symbol is a part of a formula that follows. fyb is taken \
     as a plain number, in N/mm², so that u², T and ud have no unit.",
    "With a calculator the same steps give figures between the two ends, or outside them by no more than the calculator's \
     own rounding. The first step in which yours lie farther outside is the one to look at.",
    "`sections --worked` of `tests/reference` prints this section, `tests/worked_example.sh --write` puts it here, and \
     `tests/run.sh` fails where the two differ.",
];

const FLANGES: [&str; 2] = ["flange 1", "flange 2"];
const LIPS: [&str; 2] = ["lip of flange 1", "lip of flange 2"];
const MID_WIDTHS: [&str; 2] = ["bp1", "bp2"];
const FACTORS: [&str; 2] = ["χ1", "χ2"];

/// Keeps what symbols stand for, by the name of their flange or lip.
fn keep(steps: &mut Steps, symbols: &[&str], owner: &str) {
    for symbol in symbols {
        steps.alias(&format!("{symbol} of {owner}"), symbol);
    }
}

/// Symbols stand again for those of a flange or a lip.
fn take(steps: &mut Steps, symbols: &[&str], owner: &str) {
    for symbol in symbols {
        steps.alias(symbol, &format!("{symbol} of {owner}"));
    }
}

/// `SYMBOL of step N`, for symbols that are taken from far above.
fn from_step(steps: &Steps, symbol: &str) -> String {
    format!("{symbol} of step {}", steps.step_of(symbol))
}

fn titled(title: &str) -> String {
    title[..1].to_uppercase() + &title[1..]
}

/// The number of a subsection behind those of the rounds.
fn after_rounds(working: &Working, place: usize) -> usize {
    5 + working.rounds.len() + place
}

fn sheet_lines(steps: &mut Steps, sheet: &Sheet) {
    let lines = sheet_text(sheet.numbers());
    steps.lines("### 18.1 The sheet");
    steps.lines(format!("```\n{lines}```"));
    let scale = sheet.scale();
    let mut shown = Vec::new();
    // The radius is not worked with.
    for (symbol, hundredths) in sheet.lengths().into_iter().filter(|&(key, _)| key != "r") {
        steps.given(symbol, scale.exact(hundredths as i128, 100), 1);
        shown.push(format!("{symbol} = {}", decimal(hundredths as i128, 100)));
    }
    steps.given("fyb", scale.whole(sheet.fyb as i128), 0);
    steps.paragraph(format!(
        "In millimetres, {}; fyb = {} N/mm², and the partial factor is {}. These are exact: both ends are equal.",
        shown.join(", "),
        sheet.fyb,
        decimal(sheet.gm0 as i128, 1000),
    ));
}

fn mid_lines(steps: &mut Steps, working: &Working) {
    let lengths = working.lengths;
    steps.lines("### 18.2 Mid-lines");
    steps.begin();
    steps.symbol(MID_LINES, "hp", "h − tnom").is(lengths.hp);
    steps
        .symbol(MID_LINES, "bp1", "b1 − tnom")
        .is(lengths.bp[0]);
    steps
        .symbol(MID_LINES, "bp2", "b2 − tnom")
        .is(lengths.bp[1]);
    steps.part(MID_LINES, "tnom/2");
    steps.symbol(MID_LINES, "cp", "c − tnom/2").is(lengths.cp);
}

/// u² of a plane, of which w and k are set, then u and ρ.
fn plane(steps: &mut Steps, plane: &Plane, rule: (u32, WidthRule)) {
    let u2 = "(w÷t)×(w÷t)×fyb÷189541.6÷k";
    for part in [
        "w÷t",
        "(w÷t)×(w÷t)",
        "(w÷t)×(w÷t)×fyb",
        "(w÷t)×(w÷t)×fyb÷189541.6",
    ] {
        steps.part(SLENDERNESS, part);
    }
    steps.symbol(SLENDERNESS, "u²", u2).is(plane.u2);
    width_that_counts(steps, plane, rule);
}

/// u from u², and ρ.
fn width_that_counts(steps: &mut Steps, plane: &Plane, (section, rule): (u32, WidthRule)) {
    steps.symbol(SLENDERNESS, "u", "root of u²").is(plane.u);
    let limit = thousandths(plane.u.scale, rule.full_to);
    let [full_to, less] = [rule.full_to, rule.less].map(|n| decimal(n, 1000));
    let words = if plane.u.hi <= limit {
        format!("1, as u ≤ {full_to}")
    } else {
        assert!(plane.u.lo > limit, "u on both sides of its limit");
        format!("(u − {less})÷(u×u), {}", at_the_ends("u", plane.u))
    };
    steps.by_rule(section, "ρ", &words, plane.rho);
}

/// Where a falling function takes its two ends.
fn at_the_ends(symbol: &str, argument: Pair) -> String {
    let [lo, hi] = [argument.lo, argument.hi].map(|end| fixed(end, argument.scale));
    format!("lower end at {symbol} = {hi}, upper at {lo}")
}

fn web_and_flanges(steps: &mut Steps, working: &Working) {
    steps.lines("### 18.3 Web and flanges");
    steps.paragraph(
        "ρ = 1 for u ≤ 0.673, else the smaller of 1 and (u − 0.22)÷(u×u), at the ends: exact there, and rounded once.",
    );
    let [one, two] = working.rounds[0].stiffeners;
    steps.given("k", working.scale.whole(4), 0);
    for (owner, width, worked) in [
        ("web", "hp", working.web),
        (FLANGES[0], MID_WIDTHS[0], one.flange),
        (FLANGES[1], MID_WIDTHS[1], two.flange),
    ] {
        steps.begin_titled(format!("{}: w = {width}, k = 4", titled(owner)));
        steps.alias("w", width);
        plane(steps, &worked, (WEB_AND_FLANGES, SUPPORTED));
        keep(steps, &["u²", "ρ"], owner);
    }
}

fn lips(steps: &mut Steps, working: &Working) {
    steps.lines("### 18.4 Lips");
    steps.paragraph(
        "k = 0.5 for q ≤ 0.35, else 0.5 + 0.83 × cube root of ((q − 0.35)×(q − 0.35)), end by end. \
         ρ = 1 for u ≤ 0.748, else the smaller of 1 and (u − 0.188)÷(u×u), at the ends.",
    );
    for i in 0..2 {
        let ratio = working.lip_ratios[i];
        let (owner, bp) = (LIPS[i], MID_WIDTHS[i]);
        steps.begin_titled(format!("{}: w = cp, bp = {bp}", titled(owner)));
        steps.alias("w", "cp");
        steps.alias("bp", bp);
        steps.symbol(LIP, "q", "cp÷bp").is(ratio.q);
        assert!(ratio.q.hi <= thousandths(working.scale, LIP_HALF_TO));
        steps.by_rule(LIP, "k", "0.5, as q ≤ 0.35", ratio.k);
        plane(steps, &working.rounds[0].stiffeners[i].lip, (LIP, OUTSTAND));
        keep(steps, &["u²", "ρ"], owner);
    }
}
