//! Class figures: order 13 of document 02 as a program of its own, written from its text alone. Every number that is worked out has 128 bits, so that none wraps.

mod fraction;

pub use fraction::*;

use crate::language::No;

/// "Up to 4,096 final marks, each from −10,000 to 10,000."
pub const MOST_MARKS: usize = 4096;
pub const HIGHEST: i32 = 10_000;

/// A class's count, sum and sum of squares, in the widths in which they are handed in.
#[derive(Clone, Copy, PartialEq, Eq, Debug)]
pub struct Totals {
    pub count: u32,
    pub sum: i64,
    pub squares: i64,
}

/// What is replied of a class.
#[derive(Clone, Copy, PartialEq, Eq, Debug)]
pub struct Figures {
    pub totals: Totals,
    pub mean: Fraction,
    pub variance: Fraction,
}

/// A refusal, and which of the things that it may be for it is for: that is not replied but counted.
pub struct Refused {
    pub no: No,
    pub why: String,
}

/// Answer 23, which has no place.
fn unfit(why: &str) -> Refused {
    Refused { no: No(23, 0), why: why.to_string() }
}

/// The figures of a list of marks.
pub fn of_list(marks: &[i32]) -> Result<Figures, Refused> {
    ask_count(marks.len() as i128)?;
    match marks.iter().position(|mark| !(-HIGHEST..=HIGHEST).contains(mark)) {
        Some(place) => Err(Refused { no: No(24, place), why: "mark".to_string() }),
        None => Ok(Figures::of(Totals::of(marks))),
    }
}

/// The figures of two classes joined.
pub fn of_join(first: Totals, second: Totals) -> Result<Figures, Refused> {
    ask_count(i128::from(first.count) + i128::from(second.count))?;
    for (class, totals) in [("first", first), ("second", second)] {
        if let Some(flaw) = totals.flaw() {
            return Err(unfit(&format!("{class} {flaw}")));
        }
    }
    Ok(Figures::of(Totals { count: first.count + second.count, sum: first.sum + second.sum, squares: first.squares + second.squares }))
}

/// "List or joint list empty or too long."
fn ask_count(count: i128) -> Result<(), Refused> {
    match count {
        0 => Err(unfit("empty")),
        _ if count > MOST_MARKS as i128 => Err(unfit("too long")),
        _ => Ok(()),
    }
}

impl Totals {
    /// Of marks of which each is in the range.
    pub fn of(marks: &[i32]) -> Totals {
        let sum: i128 = marks.iter().map(|&mark| i128::from(mark)).sum();
        let squares: i128 = marks.iter().map(|&mark| i128::from(mark) * i128::from(mark)).sum();
        Totals { count: marks.len() as u32, sum: sum.try_into().unwrap(), squares: squares.try_into().unwrap() }
    }

    /// What no class can have: "a sum beyond 10,000 per mark either way, a square sum below zero or beyond 100,000,000 per mark, or a variance below zero".
    fn flaw(&self) -> Option<&'static str> {
        let (count, sum, squares) = (i128::from(self.count), i128::from(self.sum), i128::from(self.squares));
        if sum < -10_000 * count {
            Some("sum too low")
        } else if sum > 10_000 * count {
            Some("sum too high")
        } else if squares < 0 {
            Some("squares below zero")
        } else if squares > 100_000_000 * count {
            Some("squares too high")
        } else if self.spread() < 0 {
            Some("variance below zero")
        } else {
            None
        }
    }

    /// "The number times the sum of squares, less the square of the sum."
    fn spread(&self) -> i128 {
        i128::from(self.count) * i128::from(self.squares) - i128::from(self.sum) * i128::from(self.sum)
    }
}

impl Figures {
    fn of(totals: Totals) -> Figures {
        let count = i128::from(totals.count);
        Figures { totals, mean: Fraction::lowest(totals.sum.into(), count), variance: Fraction::lowest(totals.spread(), count * count) }
    }

    /// Count, sum and sum of squares, the mean and the variance.
    pub fn numbers(&self) -> [i128; 7] {
        let Figures { totals, mean, variance } = self;
        [totals.count.into(), totals.sum.into(), totals.squares.into(), mean.numerator, mean.denominator, variance.numerator, variance.denominator]
    }
}

#[cfg(test)]
mod tests;
