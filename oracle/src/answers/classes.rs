//! `figures_classes`: the figures of lists of marks, and of two classes joined.
//!
//! A record of `classes.bin`: mode (1 byte), length of the title (1), length of the numbers in bytes (2), title, numbers. A case has no file: its numbers are all
//! that is asked about.

use super::{spaced, Told};
use crate::figures::*;
use crate::language::No;

/// What is asked about.
#[derive(Clone)]
pub enum Ask {
    /// 1: a list of marks, four bytes each.
    List(Vec<i32>),
    /// 2: two classes' totals, each the count in four bytes, the sum and the sum of squares in eight bytes each.
    Join(Totals, Totals),
}

/// The most marks that the program has room for.
pub const MARKS: usize = 5120;

impl Ask {
    pub fn told(&self) -> Told {
        let figures = match self {
            Ask::List(marks) => of_list(marks),
            Ask::Join(first, second) => of_join(*first, *second),
        };
        match figures {
            Ok(figures) => Told::plain(format!("0{}", spaced(&figures.numbers())), vec!["figures".to_string()]),
            // "Nothing is written": no totals, and both fractions zero.
            Err(Refused { no: No(number, place), why }) => Told::plain(format!("{number} {place} 0 0 0 0 1 0 1"), vec![format!("refused {number} {why}")]),
        }
    }

    pub fn record(&self, title: &str) -> Vec<u8> {
        let (mode, numbers) = self.packed();
        assert!(title.len() < 256 && numbers.len() <= 4 * MARKS, "{title}");
        let mut record = vec![mode, title.len() as u8];
        record.extend((numbers.len() as u16).to_be_bytes());
        record.extend(title.as_bytes());
        record.extend(numbers);
        record
    }

    /// Mode and numbers.
    fn packed(&self) -> (u8, Vec<u8>) {
        match self {
            Ask::List(marks) => (1, marks.iter().flat_map(|mark| mark.to_be_bytes()).collect()),
            Ask::Join(first, second) => (2, [packed_totals(first), packed_totals(second)].concat()),
        }
    }
}

fn packed_totals(totals: &Totals) -> Vec<u8> {
    [&totals.count.to_be_bytes()[..], &totals.sum.to_be_bytes(), &totals.squares.to_be_bytes()].concat()
}
