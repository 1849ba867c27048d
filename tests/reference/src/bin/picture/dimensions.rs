//! The dimensions of a section, in mm, its stiffeners and its axes.

use crate::section::{across, down, Flange, Section};
use crate::svg::{at, Svg};
use reference::sheet::Figures;

/// From a mid-line to where its extension lines begin.
const CLEAR: f64 = 16.0;

/// From a mid-line to the first and the second row of dimensions.
const FIRST: f64 = 40.0;
const SECOND: f64 = 82.0;

/// How far an extension line goes past its dimension.
const PAST: f64 = 8.0;

/// Where the dimensions of the gross and the effective axis stand, and the shift.
const GROSS: f64 = 640.0;
const EFFECTIVE: f64 = 715.0;
const SHIFT: f64 = 530.0;

/// A gap that would be printed as 0.00 is not labelled.
const LEAST: f64 = 0.005;

pub fn all(svg: &mut Svg, section: &Section) {
    web(svg, section);
    for flange in &section.flanges {
        flange_widths(svg, flange);
        lip(svg, flange);
        stiffener(svg, flange, section);
        flange_gap(svg, flange, section.face());
    }
    web_gap(svg, section);
}

/// Where a label just above or just below a line at `y` stands.
fn base_beside(y: f64, above: bool) -> f64 {
    if above {
        y - 7.0
    } else {
        y + 19.0
    }
}

/// A dimension between two places across, so far from the wall at `y`: above it
/// where `away` is below zero.
fn horizontal(svg: &mut Svg, ends: [f64; 2], y: f64, away: f64, label: &str) {
    let line = y + away;
    for x in ends {
        let begin = at(x, y + CLEAR.copysign(away));
        svg.line("", begin, at(x, line + PAST.copysign(away)));
    }
    svg.line("dim", at(ends[0], line), at(ends[1], line));
    let base = base_beside(line, away < 0.0);
    svg.text("mid", at((ends[0] + ends[1]) / 2.0, base), label);
}

/// A dimension between two places down, so far from the wall at `x`: left of it
/// where `away` is below zero.
fn vertical(svg: &mut Svg, ends: [f64; 2], x: f64, away: f64, label: &[String]) {
    let line = x + away;
    for y in ends {
        let begin = at(x + CLEAR.copysign(away), y);
        svg.line("", begin, at(line + PAST.copysign(away), y));
    }
    vertical_alone(svg, ends, line, away, label);
}

/// The same without extension lines, its label on the side of `away`.
fn vertical_alone(svg: &mut Svg, ends: [f64; 2], line: f64, away: f64, label: &[String]) {
    svg.line("dim", at(line, ends[0]), at(line, ends[1]));
    let class = if away < 0.0 { "end" } else { "" };
    let middle = (ends[0] + ends[1]) / 2.0;
    let first = at(line + PAST.copysign(away), middle - 4.0);
    svg.texts(class, first, label);
}

fn named(name: &str, mm: f64) -> [String; 2] {
    [name.to_string(), format!("{mm:.2}")]
}

fn web(svg: &mut Svg, section: &Section) {
    let (hp, he, x) = (section.hp, section.he, across(0.0));
    let mut part = |from: f64, to: f64, away: f64, label: [String; 2]| {
        vertical(svg, [down(from), down(to)], x, -away, &label);
    };
    part(0.0, hp, FIRST + SECOND, named("hp", hp));
    part(0.0, he, FIRST, named("he", he));
    part(hp - he, hp, FIRST, named("he", he));
}

fn flange_widths(svg: &mut Svg, flange: &Flange) {
    let (bp, be1, be2) = (flange.bp, flange.be1, flange.be2);
    let (y, number) = (down(flange.z), flange.number);
    let mut part = |from: f64, to: f64, away: f64, label: String| {
        let ends = [across(from), across(to)];
        horizontal(svg, ends, y, -away * flange.inward, &label);
    };
    let whole = format!("flange {number}: bp{number} {bp:.2}");
    part(0.0, bp, SECOND, whole);
    part(0.0, be1, FIRST, format!("be1 {be1:.2}"));
    part(bp - be2, bp, FIRST, format!("be2 {be2:.2}"));
}

fn lip(svg: &mut Svg, flange: &Flange) {
    let ends = [0.0, flange.c_eff].map(|from_flange| flange.point(0.0, from_flange).y);
    let label = [
        format!("c_eff {:.2}", flange.c_eff),
        format!("of cp {:.2}", flange.cp),
    ];
    vertical(svg, ends, across(flange.bp), FIRST, &label);
}

/// An arrow to the stiffener's corner.
fn stiffener(svg: &mut Svg, flange: &Flange, section: &Section) {
    let corner = flange.point(flange.bp, 0.0);
    let out = -flange.inward;
    let tail = at(corner.x + 45.0, corner.y + 45.0 * out);
    let face = section.face() * flange.chi;
    let tip = at(corner.x + face, corner.y + face * out);
    svg.line("arrow", tail, tip);
    let n = flange.number;
    let label = [
        format!("stiffener {n}:"),
        "be2 and c_eff,".to_string(),
        format!("thickness χ{n}·t = {:.2}", flange.chi * section.t),
    ];
    let first = if out < 0.0 { -34.0 } else { 6.0 };
    svg.texts("", at(tail.x + 5.0, tail.y + first), &label);
}

/// The lines that say that so much of a wall does not count, and how much it is.
fn gap_label(mm: f64, wall: &str) -> [String; 2] {
    [format!("{mm:.2} of {wall}"), "does not count".to_string()]
}

/// The line to the label begins at the wall's face.
fn flange_gap(svg: &mut Svg, flange: &Flange, face: f64) {
    let width = flange.bp - flange.be1 - flange.be2;
    if width < LEAST {
        return;
    }
    let gap = flange.point(flange.be1 + width / 2.0, 0.0);
    let to = at(gap.x, gap.y + 32.0 * flange.inward);
    svg.line("", at(gap.x, gap.y + face * flange.inward), to);
    let first = if flange.inward > 0.0 { 18.0 } else { -26.0 };
    let label = gap_label(width, &format!("flange {}", flange.number));
    svg.texts("mid", at(to.x, to.y + first), &label);
}

fn web_gap(svg: &mut Svg, section: &Section) {
    let width = section.hp - 2.0 * section.he;
    if width < LEAST {
        return;
    }
    let gap = at(across(0.0), down(section.he + width / 4.0));
    let to = at(gap.x + 32.0, gap.y);
    svg.line("", at(gap.x + section.face(), gap.y), to);
    svg.texts("", at(to.x + 6.0, to.y - 4.0), &gap_label(width, "the web"));
}

/// Both neutral axes with z and gross z, and the shift.
pub fn axes(svg: &mut Svg, section: &Section, figures: &Figures) {
    let flange_1 = down(0.0);
    let lip = across(section.flanges[0].bp);
    svg.line(
        "",
        at(lip + CLEAR, flange_1),
        at(EFFECTIVE + PAST, flange_1),
    );
    let [gross, effective] = [section.gross_z, section.z].map(down);
    axis(svg, "gross", gross, GROSS, gross < effective);
    axis(svg, "effective", effective, EFFECTIVE, effective < gross);
    let label = named("gross z", section.gross_z);
    vertical_alone(svg, [flange_1, gross], GROSS, -1.0, &label);
    let label = named("z", section.z);
    vertical_alone(svg, [flange_1, effective], EFFECTIVE, 1.0, &label);
    shift(svg, gross.min(effective), gross.max(effective), figures);
}

/// The axis of a section, as far as its dimension.
fn axis(svg: &mut Svg, which: &str, y: f64, dimension: f64, label_above: bool) {
    let web = across(0.0);
    svg.line(which, at(web - 24.0, y), at(dimension + PAST, y));
    let base = base_beside(y, label_above);
    let label = format!("neutral axis, {which} section");
    svg.text("", at(web + 22.0, base), &label);
}

/// Arrows to both axes from outside, since they are too near for one between them.
fn shift(svg: &mut Svg, upper: f64, lower: f64, figures: &Figures) {
    svg.line("arrow", at(SHIFT, upper - 36.0), at(SHIFT, upper));
    svg.line("arrow", at(SHIFT, lower + 36.0), at(SHIFT, lower));
    let mm = |hundredths: i128| hundredths as f64 / 100.0;
    let (least, most) = (mm(figures.shiftlo), mm(figures.shifthi));
    let label = format!("shift {least:.2} to {most:.2}");
    svg.text("", at(SHIFT + 10.0, lower + 34.0), &label);
}
