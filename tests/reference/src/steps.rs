//! A working step by step, as Markdown: paragraphs, and tables with a row for each
//! step.

use crate::formula::{Quantity, Symbols};
use crate::pair::{Pair, Scale};
use std::collections::BTreeMap;

/// The steps so far, and what their symbols stand for.
pub struct Steps {
    symbols: Symbols,
    /// The step that gave a symbol.
    given_in: BTreeMap<String, usize>,
    text: String,
    count: usize,
}

/// A line of text is no longer.
const LINE: usize = 120;

const COLUMNS: [&str; 7] = [
    "step",
    "symbol",
    "formula",
    "section",
    "lower end",
    "upper end",
    "unit",
];

/// The last column, by the power of the millimetre.
pub const UNITS: [&str; 5] = ["none", "mm", "mm²", "mm³", "mm⁴"];

impl Steps {
    pub fn new(scale: Scale) -> Steps {
        Steps {
            symbols: Symbols::new(scale),
            given_in: BTreeMap::new(),
            text: String::new(),
            count: 0,
        }
    }

    pub fn text(self) -> String {
        self.text
    }

    /// Lines as they are, with an empty line before them.
    pub fn lines(&mut self, lines: impl AsRef<str>) {
        if !self.text.is_empty() {
            self.text += "\n";
        }
        self.text += lines.as_ref().trim_end();
        self.text += "\n";
    }

    /// A paragraph, in lines that are not too long.
    pub fn paragraph(&mut self, words: impl AsRef<str>) {
        let mut lines: Vec<String> = Vec::new();
        for word in words.as_ref().split_whitespace() {
            match lines.last_mut() {
                Some(line) if line.chars().count() + word.chars().count() < LINE => {
                    *line += " ";
                    *line += word;
                }
                _ => lines.push(word.to_string()),
            }
        }
        self.lines(lines.join("\n"));
    }

    /// A table of other things than steps.
    pub fn table<const N: usize>(&mut self, columns: [&str; N], rows: Vec<[String; N]>) {
        let mut lines = table_line(columns.map(String::from));
        lines += &table_line(["---"; N].map(String::from));
        lines.extend(rows.into_iter().map(table_line));
        self.lines(lines);
    }

    /// A table of steps begins.
    pub fn begin(&mut self) {
        let rule = ["---:", "---", "---", "---", "---:", "---:", "---"];
        let columns = table_line(COLUMNS.map(String::from));
        self.lines(columns + &table_line(rule.map(String::from)));
    }

    /// A table of steps begins, with a title.
    pub fn begin_titled(&mut self, title: impl AsRef<str>) {
        self.lines(format!("#### {}", title.as_ref()));
        self.begin();
    }

    /// A symbol of given value, without a step.
    pub fn given(&mut self, symbol: &str, pair: Pair, power: i32) {
        self.symbols.set(symbol, Quantity { pair, power });
        self.given_in.remove(symbol);
    }

    /// From now on the symbol stands for what the other now stands for.
    pub fn alias(&mut self, symbol: &str, other: &str) {
        self.symbols.set(symbol, self.symbols.worked(other));
        match self.given_in.get(other).copied() {
            Some(step) => self.given_in.insert(symbol.to_string(), step),
            None => self.given_in.remove(symbol),
        };
    }

    /// The step that gave the symbol.
    pub fn step_of(&self, symbol: &str) -> usize {
        self.given_in[symbol]
    }

    /// A part of a formula that follows.
    pub fn part(&mut self, section: u32, formula: &str) {
        let worked = self.symbols.worked(without_remark(formula));
        self.row(section, "", formula, worked);
    }

    /// A symbol and its formula. Two symbols of one formula have ` = ` between them.
    pub fn symbol(&mut self, section: u32, symbols: &str, formula: &str) -> Worked {
        let worked = self.symbols.worked(without_remark(formula));
        self.row(section, symbols, formula, worked);
        let symbols = symbols.to_string();
        Worked { symbols, worked }
    }

    /// A symbol without a unit that a rule in words gives.
    pub fn by_rule(&mut self, section: u32, symbol: &str, words: &str, pair: Pair) {
        self.row(section, symbol, words, Quantity { pair, power: 0 });
    }

    fn row(&mut self, section: u32, symbols: &str, formula: &str, worked: Quantity) {
        self.count += 1;
        for symbol in symbols.split(" = ").filter(|symbol| !symbol.is_empty()) {
            self.symbols.set(symbol, worked);
            self.given_in.insert(symbol.to_string(), self.count);
        }
        let Quantity { pair, power } = worked;
        let [lower, upper] = [pair.lo, pair.hi].map(|end| fixed(end, pair.scale));
        self.text += &table_line([
            self.count.to_string(),
            symbols.to_string(),
            formula.to_string(),
            section.to_string(),
            lower,
            upper,
            UNITS[power as usize].to_string(),
        ]);
    }
}

/// A remark stands behind a comma.
fn without_remark(formula: &str) -> &str {
    formula.split(", ").next().expect("a formula")
}

fn table_line<const N: usize>(cells: [String; N]) -> String {
    format!("| {} |\n", cells.join(" | "))
}

/// What a formula gave for a symbol.
#[must_use]
pub struct Worked {
    symbols: String,
    worked: Quantity,
}

impl Worked {
    /// It is what the working has kept.
    pub fn is(self, kept: Pair) {
        let worked = self.worked.pair;
        assert_eq!(worked, kept, "{} by its formula, and kept", self.symbols);
    }

    /// The working keeps no such pair.
    pub fn is_not_kept(self) {}
}

/// An end with all decimals of its scale.
pub fn fixed(end: i128, scale: Scale) -> String {
    let places = scale.units().ilog10();
    assert_eq!(10i128.pow(places), scale.units());
    with_point(end, places as usize)
}

/// A quotient that has an end as a decimal, with as many decimals as it needs.
pub fn decimal(dividend: i128, divisor: i128) -> String {
    let scaled = |places| dividend * 10i128.pow(places);
    let places = (0..20).find(|&places| scaled(places) % divisor == 0);
    let places = places.expect("a decimal that ends");
    with_point(scaled(places) / divisor, places as usize)
}

/// A whole number of units, one to 10 ^ places of them.
fn with_point(units: i128, places: usize) -> String {
    let sign = if units < 0 { "−" } else { "" };
    let digits = format!("{:0width$}", units.abs(), width = places + 1);
    match digits.split_at(digits.len() - places) {
        (whole, "") => format!("{sign}{whole}"),
        (whole, decimals) => format!("{sign}{whole}.{decimals}"),
    }
}

#[cfg(test)]
mod tests {
    use super::*;

    #[test]
    fn decimals_of_an_end() {
        let ends = [
            (0, "0.000000"),
            (-5, "−0.000005"),
            (12_300_000, "12.300000"),
        ];
        for (end, shown) in ends {
            assert_eq!(fixed(end, Scale::multiple(1)), shown);
        }
        assert_eq!(fixed(1, Scale::multiple(10)), "0.0000001");
    }

    #[test]
    fn decimals_of_a_quotient() {
        let quotients = [(7, 1, "7"), (-1, 4, "−0.25"), (1001, 1000, "1.001")];
        for (dividend, divisor, shown) in quotients {
            assert_eq!(decimal(dividend, divisor), shown);
        }
    }
}
