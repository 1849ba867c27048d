//! Effective area, axis and shift.

use super::section::{AREA, AXIS};
use super::{after_rounds, from_step, take, FACTORS};
use crate::steps::{Steps, Worked};
use crate::working::{Axis, Working};

/// L of the parts whose symbols are set.
fn total_length(steps: &mut Steps, section: u32) -> Worked {
    for part in [
        "be1 of flange 1 + be1 of flange 2",
        "be1 of flange 1 + be1 of flange 2 + he + he",
        "a1×χ1",
        "a2×χ2",
    ] {
        steps.part(section, part);
    }
    let l = "be1 of flange 1 + be1 of flange 2 + he + he + a1×χ1 + a2×χ2";
    steps.symbol(section, "L", l)
}

pub fn effective_area(steps: &mut Steps, working: &Working) {
    steps.lines(format!(
        "### 18.{} Effective area",
        after_rounds(working, 0)
    ));
    let both = |symbols: [&str; 2]| symbols.map(|s| steps.step_of(s).to_string()).join(" and ");
    let sources = format!(
        "1 and 2 mark the flange. be1 is that of the first working (steps {}); a and χ are those of the last round \
         (steps {}, {}).",
        both(["be1 of flange 1", "be1 of flange 2"]),
        both(["a1", "a2"]),
        both(FACTORS),
    );
    steps.paragraph(sources);
    steps.begin();
    take(steps, &["ρ"], "web");
    let part = format!("0.5×ρ, {}", from_step(steps, "ρ"));
    steps.part(AREA, &part);
    steps.symbol(AREA, "he", "0.5×ρ×hp").is(working.parts.he);
    total_length(steps, AREA).is(working.effective.length);
    steps.symbol(AREA, "area", "t×L").is(working.area);
}

pub fn shift(steps: &mut Steps, working: &Working) {
    steps.lines(format!(
        "### 18.{} Axis and shift",
        after_rounds(working, 1)
    ));
    let [c1, c2] = ["c1", "c2"].map(|symbol| steps.step_of(symbol));
    steps.paragraph(format!(
        "c1 and c2 are c_eff of the last round (steps {c1} and {c2})."
    ));
    steps.begin_titled("Effective section");
    axis(steps, "z", &working.effective);
    steps.alias("effective z", "z");

    steps.begin_titled("Gross section, all full");
    for (symbols, formula) in [
        ("be1 of flange 1 = be2 of flange 1", "bp1÷2"),
        ("be1 of flange 2 = be2 of flange 2", "bp2÷2"),
        ("he", "hp÷2"),
        ("c1 = c2", "cp"),
        ("χ1 = χ2", "1"),
        ("a1", "be2 of flange 1 + c1"),
        ("a2", "be2 of flange 2 + c2"),
    ] {
        steps.symbol(AXIS, symbols, formula).is_not_kept();
    }
    total_length(steps, AXIS).is(working.gross.length);
    axis(steps, "gross z", &working.gross);

    steps.begin_titled("Shift");
    steps.alias("z", "effective z");
    let formula = format!("z − gross z, {}", from_step(steps, "z"));
    steps.symbol(AXIS, "shift", &formula).is(working.shift);
}

/// z of the parts whose symbols are set.
fn axis(steps: &mut Steps, symbol: &str, axis: &Axis) {
    let terms: [(&[&str], &str); 5] = [
        (&["c2×χ2", "c2÷2", "hp − c2÷2"], "c2×χ2×(hp − c2÷2)"),
        (
            &[
                "be2 of flange 2 × χ2",
                "be2 of flange 2 × χ2 + be1 of flange 2",
            ],
            "hp×(be2 of flange 2 × χ2 + be1 of flange 2)",
        ),
        (&["he÷2", "hp − he÷2"], "he×(hp − he÷2)"),
        (&["he×he"], "he×he÷2"),
        (&["c1×c1", "c1×c1×χ1"], "c1×c1×χ1÷2"),
    ];
    for (parts, term) in terms {
        for part in parts {
            steps.part(AXIS, part);
        }
        steps.part(AXIS, term);
    }
    let terms = terms.map(|(_, term)| term);
    steps.part(AXIS, &terms[..3].join(" + "));
    let dividend = terms.join(" + ");
    steps
        .symbol(AXIS, "dividend of z", &dividend)
        .is(axis.moment);
    let z = format!("({dividend})÷L");
    steps.symbol(AXIS, symbol, &z).is(axis.z);
}
