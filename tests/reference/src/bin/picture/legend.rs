//! The texts beside the section.

use crate::section::{Section, PER_MM, THICKER};
use crate::svg::{at, Svg};
use reference::sheet::{Accepted, Sheet};
use reference::text::certificate_text;

const LEFT: f64 = 670.0;
const FIGURES: f64 = 590.0;
const FILLS: f64 = 752.0;
const SCALE: f64 = 860.0;

pub fn heading(svg: &mut Svg, sheet: &Sheet) {
    let mm = |hundredths: u64| hundredths as f64 / 100.0;
    let lengths: Vec<String> = sheet
        .lengths()
        .into_iter()
        .map(|(key, length)| format!("{key} {}", mm(length)))
        .collect();
    let title = "Sheet B to scale: what counts, and what does not";
    svg.text("head", at(24.0, 34.0), title);
    let line = format!(
        "C, {} mm; fyb {} N/mm², partial factor {:.3}, refining rounds {}",
        lengths.join(", "),
        sheet.fyb,
        sheet.gm0 as f64 / 1000.0,
        sheet.rounds
    );
    svg.text("", at(24.0, 58.0), &line);
}

/// The figures of the certificate, and what they say.
pub fn figures(svg: &mut Svg, accepted: &Accepted) {
    let text = certificate_text(accepted);
    let lines: Vec<String> = text
        .lines()
        .skip(Sheet::LINES)
        .map(str::to_string)
        .collect();
    let hundredths = |number: i128| number as f64 / 100.0;
    let thousandths = |number: i128| number as f64 / 1000.0;
    let figures = &accepted.figures;
    let meaning = [
        format!("{:.2} mm² at least", hundredths(figures.area)),
        format!("{} N at least", figures.axial),
        format!("χ1 at least {:.3}", thousandths(figures.chi1)),
        format!("χ2 at least {:.3}", thousandths(figures.chi2)),
        format!("{:.2} mm at least", hundredths(figures.shiftlo)),
        format!("{:.2} mm at most", hundredths(figures.shifthi)),
    ];
    svg.text("head", at(LEFT, FIGURES), "What the certificate says");
    svg.texts("code", at(LEFT, FIGURES + 26.0), &lines);
    svg.texts("", at(LEFT + 135.0, FIGURES + 26.0), &meaning);
}

pub fn fills(svg: &mut Svg, section: &Section) {
    let thickness = section.drawn_thickness();
    let [one, two] = section.flanges.each_ref().map(|flange| flange.chi);
    let rows = [
        (Some(1.0), format!("counts, thickness t = {:.2}", section.t)),
        (
            Some(one.min(two)),
            "stiffener: counts, thickness χ·t".to_string(),
        ),
        (None, "does not count".to_string()),
    ];
    for (i, (factor, label)) in rows.iter().enumerate() {
        let y = FILLS + 32.0 * i as f64;
        let ends = [at(LEFT, y), at(LEFT + 60.0, y)];
        svg.pale_wall(thickness, &ends);
        if let Some(factor) = factor {
            svg.wall("counts", thickness * factor, &ends);
        }
        svg.text("", at(LEFT + 72.0, y + 5.0), label);
    }
}

/// A length to compare with, and what is not to scale.
pub fn scale(svg: &mut Svg) {
    let mm = 50.0;
    let end = at(LEFT + PER_MM * mm, SCALE);
    svg.line("bar", at(LEFT, SCALE), end);
    svg.text("", at(end.x + 10.0, SCALE + 5.0), &format!("{mm} mm"));
    let notes = [
        "Lengths in mm, on mid-lines, to scale;".to_string(),
        format!("thickness drawn {THICKER} times as large."),
    ];
    svg.texts("", at(LEFT, SCALE + 30.0), &notes);
}
