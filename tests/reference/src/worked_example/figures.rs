//! What is printed, question 11 and a finer working.

use super::after_rounds;
use crate::finer::{inequalities, Inequality, Relation};
use crate::pair::Pair;
use crate::sheet::{
    ask_allowance, ask_numbers, axial_resistance, Accepted, Figures, Refusal, Sheet,
    CERTIFICATE_LINES,
};
use crate::steps::{decimal, fixed, Steps};
use crate::text::{line_of, BEHIND_SHEET};
use crate::working::Working;

/// m of the finer working that is shown.
const FINER: i128 = 10;

pub fn printed(steps: &mut Steps, accepted: &Accepted) {
    let Accepted {
        working, figures, ..
    } = accepted;
    steps.lines(format!(
        "### 18.{} What is printed",
        after_rounds(working, 2)
    ));
    steps.paragraph(format!(
        "Lines {BEHIND_SHEET} to {CERTIFICATE_LINES} of the certificate (section 13)."
    ));
    let figures = figures.numbers();
    let rows = sources(accepted).into_iter().enumerate();
    let rows = rows.map(|(i, (what, value))| {
        let (unit, rounded) = ROUNDED[i];
        let key = Figures::KEYS[i];
        let line = line_of(key).to_string();
        let printed = format!("`{key}={}`", figures[i]);
        [line, what, value, unit.into(), rounded.into(), printed]
    });
    let columns = ["line", "worked from", "value", "unit", "rounded", "printed"];
    steps.table(columns, rows.collect());
}

/// Unit and rounding of the figures.
const ROUNDED: [(&str, &str); Figures::LINES] = [
    ("0.01 mm²", "down"),
    ("N", "down, once"),
    ("thousandths", "down"),
    ("thousandths", "down"),
    ("0.01 mm", "toward minus infinity"),
    ("0.01 mm", "toward plus infinity"),
];

/// For each figure what it comes from, and the value of that in the figure's unit.
fn sources(accepted: &Accepted) -> [(String, String); Figures::LINES] {
    let Accepted { sheet, working, .. } = accepted;
    let [chi1, chi2] = working.parts.chi;
    let (area, shift) = (working.area, working.shift);
    let (dividend, divisor) = axial_resistance(sheet, area.lo, working.scale);
    let resistance = format!(
        "lower end of the area × fyb ÷ partial factor, {} × {} ÷ {}",
        fixed(area.lo, working.scale),
        sheet.fyb,
        decimal(sheet.gm0 as i128, 1000),
    );
    let from = |what: &str, end: i128, units| {
        let value = decimal(end * units, working.scale.units());
        (what.to_string(), value)
    };
    [
        from("lower end of the area", area.lo, 100),
        (resistance, decimal(dividend, divisor)),
        from("lower end of χ1", chi1.lo, 1000),
        from("lower end of χ2", chi2.lo, 1000),
        from("lower end of the shift", shift.lo, 100),
        from("upper end of the shift", shift.hi, 100),
    ]
}

pub fn allowance(steps: &mut Steps, accepted: &Accepted) {
    let Accepted {
        sheet,
        working,
        figures,
    } = accepted;
    let upper = decimal(working.area.hi * 100, working.scale.units());
    let (area, allow) = (figures.area, sheet.allow);
    let none = Sheet { allow: 0, ..*sheet };
    let refused = ask_allowance(&none, working, figures);
    let Refusal { number, line } = refused.expect_err("with allow=0 sheet B is refused");
    steps.lines(format!("### 18.{} Question 11", after_rounds(working, 3)));
    steps.paragraph(format!(
        "The upper end of the area, {upper} in 0.01 mm², has to be at most area + allow = {area} + {allow} = {} \
         (section 15). It is, and the certificate is written. With allow=0 it would have to be at most {area}, which it is \
         not: that sheet is refused, with number {number} and line {line}.",
        area + allow as i128,
    ));
}

pub fn finer_working(steps: &mut Steps, accepted: &Accepted) {
    let Accepted {
        sheet,
        working,
        figures,
    } = accepted;
    let scale = sheet.finer_scale(FINER);
    let finer = Working::of(sheet, scale);
    let ends = |pair: Pair| [pair.lo, pair.hi].map(|end| fixed(end, scale)).join(" to ");
    steps.lines(format!(
        "### 18.{} A finer working",
        after_rounds(working, 4)
    ));
    steps.paragraph(format!(
        "What every finer working meets (section 16), at m = {FINER}: all of the above worked anew, each operation rounded \
         outward to seven decimals. The area is then {} mm², the shift {} mm. In the units of the certificate:",
        ends(finer.area),
        ends(finer.shift),
    ));
    let claims = inequalities(sheet, figures, FINER);
    let rows = claims.iter().enumerate().map(|(i, claim)| {
        let [value, bound] = [claim.value, claim.bound].map(|side| decimal(side, claim.divisor));
        let (words, sign) = claim_words(claim);
        let holds = if claim.holds() { "yes" } else { "no" };
        let compared = format!("{value} {sign} {bound}");
        [(i + 1).to_string(), words, compared, holds.to_string()]
    });
    steps.table(["", "inequality", "here", "holds"], rows.collect());
    with_finer_sheet(steps, sheet);
}

/// What the same sheet prints where its own line fine asks for that working.
fn with_finer_sheet(steps: &mut Steps, sheet: &Sheet) {
    let fine = FINER as u64;
    let finer = Sheet { fine, ..*sheet };
    let figures = ask_numbers(finer.numbers()).expect("a certificate").figures;
    let lines = Figures::KEYS.into_iter().zip(figures.numbers());
    let shown: Vec<String> = lines.map(|(key, n)| format!("`{key}={n}`")).collect();
    steps.paragraph(format!(
        "With fine={fine} this is the sheet's own working (section 3), and the figures are those of its ends: {}.",
        shown.join(", "),
    ));
}

/// An inequality in words, and its sign.
fn claim_words(claim: &Inequality) -> (String, &'static str) {
    let (figure, unit, least, most) = match claim.figure {
        "area" => ("area", "0.01 mm²", "area", "area + allow"),
        "axial" => (
            "axial resistance",
            "N",
            "axial",
            "axial + 1 + 10 × allow × fyb ÷ gm0",
        ),
        _ => ("shift", "0.01 mm", "shiftlo", "shifthi"),
    };
    let (sign, bound) = match claim.relation {
        Relation::AtLeast => ("≥", least),
        Relation::AtMost => ("≤", most),
        Relation::LessThan => ("<", most),
    };
    let end = claim.end;
    (
        format!("{end} end of the {figure} in {unit} {sign} {bound}"),
        sign,
    )
}
