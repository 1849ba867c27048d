//! Formulas worked from their text: operations as written, left to right, brackets
//! first, × and ÷ before + and − (document 01, "Pairs and the scale").

use crate::pair::{Pair, Scale};
use std::collections::BTreeMap;
use std::ops::{Add, Div, Mul, Sub};

/// A pair and the power of the millimetre in its unit.
#[derive(Clone, Copy, Debug, PartialEq, Eq)]
pub struct Quantity {
    pub pair: Pair,
    pub power: i32,
}

fn quantity(pair: Pair, power: i32) -> Quantity {
    Quantity { pair, power }
}

impl Quantity {
    fn root(self) -> Quantity {
        assert!(self.power % 2 == 0, "root of an odd power");
        quantity(self.pair.root(), self.power / 2)
    }

    /// The smaller of the two, end by end.
    fn smaller(self, other: Quantity) -> Quantity {
        quantity(self.pair.smaller(other.pair), self.common_power(other))
    }

    /// The unit that a sum of the two has.
    fn common_power(self, other: Quantity) -> i32 {
        assert_eq!(self.power, other.power, "a sum of different units");
        self.power
    }
}

impl Add for Quantity {
    type Output = Quantity;
    fn add(self, other: Quantity) -> Quantity {
        quantity(self.pair + other.pair, self.common_power(other))
    }
}

impl Sub for Quantity {
    type Output = Quantity;
    fn sub(self, other: Quantity) -> Quantity {
        quantity(self.pair - other.pair, self.common_power(other))
    }
}

impl Mul for Quantity {
    type Output = Quantity;
    fn mul(self, other: Quantity) -> Quantity {
        quantity(self.pair * other.pair, self.power + other.power)
    }
}

impl Div for Quantity {
    type Output = Quantity;
    fn div(self, other: Quantity) -> Quantity {
        quantity(self.pair / other.pair, self.power - other.power)
    }
}

/// What the symbols of a formula stand for. A symbol may have several words.
pub struct Symbols {
    scale: Scale,
    known: BTreeMap<String, Quantity>,
}

impl Symbols {
    pub fn new(scale: Scale) -> Symbols {
        let known = BTreeMap::new();
        Symbols { scale, known }
    }

    pub fn set(&mut self, symbol: &str, to: Quantity) {
        self.known.insert(symbol.to_string(), to);
    }

    pub fn worked(&self, formula: &str) -> Quantity {
        let mut reader = Reader {
            symbols: self,
            rest: formula,
        };
        let value = reader.sum();
        assert!(reader.rest.is_empty(), "{formula}: no {}", reader.rest);
        value
    }
}

/// The part of a formula that is not worked yet.
struct Reader<'a> {
    symbols: &'a Symbols,
    rest: &'a str,
}

impl Reader<'_> {
    /// Passes over the word, and blanks behind it, if it comes next.
    fn passes(&mut self, word: &str) -> bool {
        let rest = self.rest.strip_prefix(word).map(str::trim_start);
        self.rest = rest.unwrap_or(self.rest);
        rest.is_some()
    }

    fn sum(&mut self) -> Quantity {
        let mut value = self.product();
        loop {
            if self.passes("+") {
                value = value + self.product();
            } else if self.passes("−") {
                value = value - self.product();
            } else {
                return value;
            }
        }
    }

    fn product(&mut self) -> Quantity {
        let mut value = self.factor();
        loop {
            if self.passes("×") {
                value = value * self.factor();
            } else if self.passes("÷") || self.passes("/") {
                value = value / self.factor();
            } else {
                return value;
            }
        }
    }

    fn factor(&mut self) -> Quantity {
        if self.passes("root of ") {
            return self.factor().root();
        }
        if self.passes("the smaller of ") {
            let one = self.sum();
            assert!(self.passes("and "), "no second before {}", self.rest);
            return one.smaller(self.sum());
        }
        if self.passes("(") {
            let value = self.sum();
            assert!(self.passes(")"), "no bracket before {}", self.rest);
            return value;
        }
        match self.symbol() {
            Some(value) => value,
            None => self.number(),
        }
    }

    /// The longest symbol that comes next.
    fn symbol(&mut self) -> Option<Quantity> {
        let known = self.symbols.known.iter();
        let (name, value) = known
            .filter(|(name, _)| self.rest.starts_with(name.as_str()))
            .max_by_key(|(name, _)| name.len())?;
        self.passes(name);
        Some(*value)
    }

    /// A written constant, exact.
    fn number(&mut self) -> Quantity {
        let is_digit = |c: char| c.is_ascii_digit() || c == '.';
        let end = self.rest.find(|c| !is_digit(c)).unwrap_or(self.rest.len());
        let number = &self.rest[..end];
        let (whole, decimals) = number.split_once('.').unwrap_or((number, ""));
        let digits = format!("{whole}{decimals}").parse();
        let digits = digits.unwrap_or_else(|_| panic!("no number: {}", self.rest));
        let denominator = 10i128.pow(decimals.len() as u32);
        self.passes(number);
        quantity(self.symbols.scale.exact(digits, denominator), 0)
    }
}

#[cfg(test)]
mod tests {
    use super::*;

    fn symbols() -> Symbols {
        let scale = Scale::multiple(1);
        let mut symbols = Symbols::new(scale);
        symbols.set("a", quantity(scale.whole(2), 1));
        symbols.set("a of flange 2", quantity(scale.whole(3), 1));
        symbols.set("u²", quantity(scale.whole(5), 0));
        symbols
    }

    fn worked(formula: &str) -> (i128, i128, i32) {
        let Quantity { pair, power } = symbols().worked(formula);
        (pair.lo, pair.hi, power)
    }

    #[test]
    fn operations_go_left_to_right_and_brackets_first() {
        assert_eq!(worked("7 − 4 − 2"), (1_000_000, 1_000_000, 0));
        assert_eq!(worked("1 + 2×3"), (7_000_000, 7_000_000, 0));
        assert_eq!(worked("(1 + 2)×3"), (9_000_000, 9_000_000, 0));
        assert_eq!(worked("12÷2÷4"), (1_500_000, 1_500_000, 0));
        // Rounded at once, and not at the end.
        assert_eq!(worked("1÷3×3"), (999_999, 1_000_002, 0));
    }

    #[test]
    fn the_smaller_is_taken_end_by_end() {
        assert_eq!(
            worked("the smaller of a and a of flange 2"),
            (2_000_000, 2_000_000, 1)
        );
        assert_eq!(
            worked("the smaller of 1÷3×3 and 1"),
            (999_999, 1_000_000, 0)
        );
    }

    #[test]
    fn symbols_and_their_units() {
        assert_eq!(worked("a of flange 2 × a"), (6_000_000, 6_000_000, 2));
        assert_eq!(worked("a of flange 2÷a"), (1_500_000, 1_500_000, 0));
        assert_eq!(worked("root of (a×a)"), (2_000_000, 2_000_000, 1));
        assert_eq!(worked("root of root of 16"), (2_000_000, 2_000_000, 0));
        assert_eq!(worked("0.5×u²"), (2_500_000, 2_500_000, 0));
    }

    #[test]
    #[should_panic(expected = "a sum of different units")]
    fn units_of_a_sum_are_the_same() {
        worked("a + 1");
    }

    #[test]
    #[should_panic(expected = "no number: x")]
    fn unknown_symbols_are_reported() {
        worked("a×x");
    }

    #[test]
    #[should_panic(expected = "no )")]
    fn a_formula_is_worked_to_its_end() {
        worked("a×2)");
    }
}
