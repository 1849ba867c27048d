//! The numbers of a sheet, questions 2 to 11 and the printed figures
//! (document 01, "Sheet and certificate", "The questions, in this order",
//! "Printed").

use crate::pair::{divide_down, divide_up, Pair, Scale};
use crate::working::{worked, Working};

/// Hands the lines of a sheet to a macro, in order: key, place, and range, which is from
/// one value to another, or one of two. Only here do the lines stand one by one.
#[macro_export]
macro_rules! with_sheet_lines {
    ($to:ident) => {
        $to! {
            form   FORM   (0 or 1)
            h      H      (4000 to 50000)
            b1     B1     (2000 to 20000)
            b2     B2     (2000 to 20000)
            c      C      (500 to 12000)
            r      R      (0 to 3000)
            tnom   TNOM   (50 to 600)
            t      T      (45 to 600)
            fyb    FYB    (200 to 700)
            gm0    GM0    (1000 to 1500)
            rounds ROUNDS (0 to 8)
            allow  ALLOW  (0 to 1000)
            fine   FINE   (1 or 10)
        }
    };
}

/// A struct of the numbers of some lines: from the numbers in the order of the
/// lines, and back.
macro_rules! numbers_of_lines {
    ($(#[$about:meta])* $lines:ident of $number:ty: $($key:ident)*) => {
        $(#[$about])*
        #[derive(Clone, Copy, Debug, PartialEq, Eq)]
        pub struct $lines {
            $(pub $key: $number,)*
        }

        impl $lines {
            /// How many lines.
            pub const LINES: usize = [$(stringify!($key)),*].len();

            /// Their keys, in order.
            pub const KEYS: [&'static str; $lines::LINES] = [$(stringify!($key)),*];

            pub const fn from_numbers([$($key),*]: [$number; $lines::LINES]) -> $lines {
                $lines { $($key),* }
            }

            pub const fn numbers(&self) -> [$number; $lines::LINES] {
                [$(self.$key),*]
            }
        }
    };
}

/// The values that a line may have.
#[derive(Clone, Copy, Debug, PartialEq, Eq)]
pub enum Range {
    /// From the least to the greatest.
    Span(u64, u64),
    /// One of two, the smaller first.
    Either(u64, u64),
}

impl Range {
    /// The least value and the greatest.
    pub const fn ends(self) -> (u64, u64) {
        match self {
            Range::Span(least, greatest) | Range::Either(least, greatest) => (least, greatest),
        }
    }

    pub fn holds(self, value: u64) -> bool {
        match self {
            Range::Span(least, greatest) => (least..=greatest).contains(&value),
            Range::Either(one, other) => value == one || value == other,
        }
    }

    /// The values next to an end, on either side, that it does not hold.
    pub fn just_outside(self) -> Vec<u64> {
        let (least, greatest) = self.ends();
        let mut beside = vec![least + 1, greatest - 1, greatest + 1];
        beside.extend(least.checked_sub(1));
        beside.retain(|&value| !self.holds(value));
        beside
    }

    /// Its ends, and those values.
    pub fn ends_and_beside(self) -> Vec<u64> {
        let (least, greatest) = self.ends();
        let mut found = vec![least, greatest];
        found.extend(self.just_outside());
        found
    }
}

/// A range as `with_sheet_lines` has it.
macro_rules! range {
    (($least:literal to $greatest:literal)) => {
        Range::Span($least, $greatest)
    };
    (($one:literal or $other:literal)) => {
        Range::Either($one, $other)
    };
}

macro_rules! define_sheet {
    ($($key:ident $place:ident $range:tt)*) => {
        numbers_of_lines! {
            /// A sheet: lengths in 0.01 mm, fyb in N/mm², gm0 in thousandths, allow in
            /// 0.01 mm²; form 0 for C, 1 for Z; fine times 1,000,000 is its scale.
            Sheet of u64: $($key)*
        }

        /// Places of the numbers in a sheet. A line's number is its place and one.
        pub mod place {
            #[allow(clippy::upper_case_acronyms)]
            enum Place { $($place),* }
            $(pub const $place: usize = Place::$place as usize;)*
        }

        /// The range of each line.
        pub const RANGES: [Range; Sheet::LINES] = [$(range!($range)),*];
    };
}

with_sheet_lines!(define_sheet);

/// The values of fine.
pub const FINENESSES: [u64; 2] = {
    let (coarse, fine) = RANGES[place::FINE].ends();
    [coarse, fine]
};

numbers_of_lines! {
    /// The printed figures.
    Figures of i128: area axial chi1 chi2 shiftlo shifthi
}

/// The lines of a certificate: those of its sheet, then the figures.
pub const CERTIFICATE_LINES: usize = Sheet::LINES + Figures::LINES;

/// A sheet's numbers in the order of its lines, which may be out of range.
pub type Numbers = [u64; Sheet::LINES];

/// A certificate's figures in the order of its lines.
pub type FigureNumbers = [i128; Figures::LINES];

impl Sheet {
    pub fn is_z(&self) -> bool {
        self.form == 1
    }

    /// Its scale is so many times 1,000,000.
    pub fn fineness(&self) -> i128 {
        self.fine as i128
    }

    /// The scale of its working.
    pub fn scale(&self) -> Scale {
        self.finer_scale(1)
    }

    /// m times its scale.
    pub fn finer_scale(&self, m: i128) -> Scale {
        Scale::multiple(m * self.fineness())
    }

    /// The sheet with another number at a place.
    pub fn with_number(&self, place: usize, number: u64) -> Sheet {
        let mut numbers = self.numbers();
        numbers[place] = number;
        Sheet::from_numbers(numbers)
    }

    /// The lengths with their keys, in order.
    pub fn lengths(&self) -> Vec<(&'static str, u64)> {
        let lines = Sheet::KEYS.into_iter().zip(self.numbers());
        lines.take(place::T + 1).skip(place::H).collect()
    }
}

/// The question that is not met, by its number, and the line concerned.
#[derive(Clone, Copy, Debug, PartialEq, Eq)]
pub struct Refusal {
    pub number: u64,
    pub line: u64,
}

impl Refusal {
    /// By a question, about the line at a place.
    pub(crate) fn at(number: u64, place: usize) -> Refusal {
        let line = place as u64 + 1;
        Refusal { number, line }
    }
}

/// A question about the line at a place.
pub(crate) fn ask(met: bool, number: u64, place: usize) -> Result<(), Refusal> {
    if met {
        Ok(())
    } else {
        Err(Refusal::at(number, place))
    }
}

/// Questions 2 to 10 on plain numbers; the first that is not met decides.
pub fn ask_before_working(numbers: Numbers) -> Result<Sheet, Refusal> {
    ask_ranges(&numbers)?;
    let sheet = Sheet::from_numbers(numbers);
    ask_thickness(&sheet)?;
    ask_flange_slenderness(&sheet)?;
    ask_lip_slenderness(&sheet)?;
    ask_web_slenderness(&sheet)?;
    ask_lip_proportion(&sheet)?;
    ask_radius(&sheet)?;
    ask_midline_proportion(&sheet)?;
    ask_room_for_lips(&sheet)?;
    Ok(sheet)
}

/// Question 2: is every value in range?
fn ask_ranges(numbers: &Numbers) -> Result<(), Refusal> {
    for (place, number) in numbers.iter().enumerate() {
        ask(RANGES[place].holds(*number), 2, place)?;
    }
    Ok(())
}

/// Question 3: t ≤ tnom?
fn ask_thickness(sheet: &Sheet) -> Result<(), Refusal> {
    ask(sheet.t <= sheet.tnom, 3, place::T)
}

/// The first flange of which the claim is not true gives its line.
fn ask_flanges(sheet: &Sheet, number: u64, claim: impl Fn(u64) -> bool) -> Result<(), Refusal> {
    ask(claim(sheet.b1), number, place::B1)?;
    ask(claim(sheet.b2), number, place::B2)
}

/// Question 4: b ≤ 60t?
fn ask_flange_slenderness(sheet: &Sheet) -> Result<(), Refusal> {
    ask_flanges(sheet, 4, |b| b <= 60 * sheet.t)
}

/// Question 5: c ≤ 50t?
fn ask_lip_slenderness(sheet: &Sheet) -> Result<(), Refusal> {
    ask(sheet.c <= 50 * sheet.t, 5, place::C)
}

/// Question 6: h ≤ 500t?
fn ask_web_slenderness(sheet: &Sheet) -> Result<(), Refusal> {
    ask(sheet.h <= 500 * sheet.t, 6, place::H)
}

/// Question 7: b ≤ 5c and 5c ≤ 3b?
fn ask_lip_proportion(sheet: &Sheet) -> Result<(), Refusal> {
    ask_flanges(sheet, 7, |b| b <= 5 * sheet.c && 5 * sheet.c <= 3 * b)
}

/// Question 8: r ≤ 5t and 10r ≤ bp1 and 10r ≤ bp2?
fn ask_radius(sheet: &Sheet) -> Result<(), Refusal> {
    let small_beside = |b: u64| 10 * sheet.r <= b - sheet.tnom;
    let small = sheet.r <= 5 * sheet.t && small_beside(sheet.b1) && small_beside(sheet.b2);
    ask(small, 8, place::R)
}

/// Question 9: 5cp ≤ 3bp? Doubled, since cp has half hundredths.
fn ask_midline_proportion(sheet: &Sheet) -> Result<(), Refusal> {
    let five_lips = 5 * (2 * sheet.c - sheet.tnom);
    ask_flanges(sheet, 9, |b| five_lips <= 6 * (b - sheet.tnom))
}

/// Question 10: form Z, or 2c ≤ h?
fn ask_room_for_lips(sheet: &Sheet) -> Result<(), Refusal> {
    ask(sheet.is_z() || 2 * sheet.c <= sheet.h, 10, place::C)
}

impl Figures {
    pub fn of(sheet: &Sheet, working: &Working) -> Figures {
        let s = working.scale.units();
        let [chi1, chi2] = working.parts.chi;
        let thousandths = |chi: Pair| divide_down(chi.lo * 1000, s);
        let (dividend, divisor) = axial_resistance(sheet, working.area.lo, working.scale);
        Figures {
            area: divide_down(working.area.lo * 100, s),
            axial: divide_down(dividend, divisor),
            chi1: thousandths(chi1),
            chi2: thousandths(chi2),
            shiftlo: divide_down(working.shift.lo * 100, s),
            shifthi: divide_up(working.shift.hi * 100, s),
        }
    }
}

/// One end of the area × fyb ÷ partial factor, exact, in newtons: a dividend
/// and a divisor.
pub fn axial_resistance(sheet: &Sheet, area_end: i128, scale: Scale) -> (i128, i128) {
    let dividend = area_end * sheet.fyb as i128 * 1000;
    (dividend, scale.units() * sheet.gm0 as i128)
}

/// Question 11: is the area's upper end at most area + allow?
pub fn ask_allowance(sheet: &Sheet, working: &Working, figures: &Figures) -> Result<(), Refusal> {
    let bound = (figures.area + sheet.allow as i128) * working.scale.units();
    ask(working.area.hi * 100 <= bound, 11, place::ALLOW)
}

/// A sheet that meets questions 2 to 11, with its working and figures.
#[derive(Clone, Debug)]
pub struct Accepted {
    pub sheet: Sheet,
    pub working: Working,
    pub figures: Figures,
}

/// Questions 2 to 11 in order, worked at the sheet's scale.
pub fn ask_numbers(numbers: Numbers) -> Result<Accepted, Refusal> {
    let sheet = ask_before_working(numbers)?;
    let working = worked(&sheet);
    let figures = Figures::of(&sheet, &working);
    ask_allowance(&sheet, &working, &figures)?;
    Ok(Accepted {
        sheet,
        working,
        figures,
    })
}
