//! Sheets within two units of every limit of questions 2 to 10. A limit is a sum of
//! the numbers with factors, and is met where that is at most 0.

use crate::chance::Chance;
use crate::random::random_section;
use crate::sheet::place::{B1, B2, C, H, R, T, TNOM};
use crate::sheet::{ask_before_working, Numbers, Sheet, RANGES};

/// The sum of factors times the numbers at some places, less a constant.
pub struct Limit {
    pub question: u64,
    factors: Vec<(i128, usize)>,
    constant: i128,
}

/// Questions 3 to 10. The ninth is doubled, since cp has half hundredths:
/// 10c − 5tnom ≤ 6b − 6tnom.
const QUESTIONS_3_TO_10: [(u64, &[(i128, usize)]); 15] = [
    (3, &[(1, T), (-1, TNOM)]),
    (4, &[(1, B1), (-60, T)]),
    (4, &[(1, B2), (-60, T)]),
    (5, &[(1, C), (-50, T)]),
    (6, &[(1, H), (-500, T)]),
    (7, &[(1, B1), (-5, C)]),
    (7, &[(5, C), (-3, B1)]),
    (7, &[(1, B2), (-5, C)]),
    (7, &[(5, C), (-3, B2)]),
    (8, &[(1, R), (-5, T)]),
    (8, &[(10, R), (-1, B1), (1, TNOM)]),
    (8, &[(10, R), (-1, B2), (1, TNOM)]),
    (9, &[(10, C), (1, TNOM), (-6, B1)]),
    (9, &[(10, C), (1, TNOM), (-6, B2)]),
    (10, &[(2, C), (-1, H)]),
];

/// The ends of the ranges, then questions 3 to 10.
pub fn limits() -> Vec<Limit> {
    let range_end = |factor, place, end: u64| Limit {
        question: 2,
        factors: vec![(factor, place)],
        constant: factor * end as i128,
    };
    let mut limits = Vec::new();
    for (place, range) in RANGES.into_iter().enumerate() {
        let (least, greatest) = range.ends();
        limits.push(range_end(-1, place, least));
        limits.push(range_end(1, place, greatest));
    }
    limits.extend(QUESTIONS_3_TO_10.map(|(question, factors)| Limit {
        question,
        factors: factors.to_vec(),
        constant: 0,
    }));
    limits
}

impl Limit {
    /// The question, and the sum that is to be at most 0.
    pub fn name(&self) -> String {
        let term = |&(factor, place): &(i128, usize)| match factor {
            1 => format!(" + {}", Sheet::KEYS[place]),
            -1 => format!(" - {}", Sheet::KEYS[place]),
            0.. => format!(" + {factor} {}", Sheet::KEYS[place]),
            _ => format!(" - {} {}", -factor, Sheet::KEYS[place]),
        };
        let constant = match self.constant {
            0 => String::new(),
            1.. => format!(" - {}", self.constant),
            _ => format!(" + {}", -self.constant),
        };
        let sum = self.factors.iter().map(term).collect::<String>() + &constant;
        let sum = sum.trim_start_matches(" +").trim_start();
        format!("question {}: {sum}", self.question)
    }

    fn value(&self, numbers: Numbers) -> i128 {
        let product = |&(factor, place): &(i128, usize)| factor * numbers[place] as i128;
        self.factors.iter().map(product).sum::<i128>() - self.constant
    }

    /// The sheet with one number changed so that the sum has the value.
    fn with_value(&self, mut numbers: Numbers, changed: usize, value: i128) -> Option<Numbers> {
        let (factor, place) = self.factors[changed];
        let more = value - self.value(numbers);
        if more % factor != 0 {
            return None;
        }
        numbers[place] = (numbers[place] as i128 + more / factor).try_into().ok()?;
        Some(numbers)
    }

    /// Whether this limit decides: it is not met and is the first that is not,
    /// or it is met and the questions up to it are, with `strict` all of 2 to 10.
    fn decides(&self, numbers: Numbers, strict: bool) -> bool {
        let refused = ask_before_working(numbers)
            .err()
            .map(|refusal| refusal.number);
        match (self.value(numbers) > 0, refused) {
            (true, refused) => refused == Some(self.question),
            (false, None) => true,
            (false, Some(number)) => !strict && number > self.question,
        }
    }
}

const TRIES: usize = 100_000;

/// So many sheets with the sum at each of -2 to 2; fewer where they are not found.
pub fn at_limit(limit: &Limit, chance: &mut Chance, wanted: usize) -> [Vec<Numbers>; 5] {
    [-2, -1, 0, 1, 2].map(|value| {
        let mut found = Vec::new();
        for attempt in 0..TRIES {
            if found.len() == wanted {
                break;
            }
            let strict = attempt < TRIES / 2;
            found.extend(try_at(limit, chance, value).filter(|&n| limit.decides(n, strict)));
        }
        found
    })
}

fn try_at(limit: &Limit, chance: &mut Chance, value: i128) -> Option<Numbers> {
    let mut sheet = random_section(chance)?;
    sheet.allow = 1000;
    if limit.question == 10 {
        sheet.form = 0;
    }
    let changed = chance.place(limit.factors.len());
    limit.with_value(sheet.numbers(), changed, value)
}
