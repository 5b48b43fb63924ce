//! The cases of `figures_classes`.

mod damaged;
mod joins;
mod lists;
mod random;

use super::Out;
use crate::answers::classes::*;
use crate::answers::spaced;
use crate::figures::*;
use crate::making::*;
use std::collections::BTreeSet;
use std::io;
use std::path::Path;

pub fn store(folder: &Path) -> io::Result<()> {
    let mut out = Out::new();
    lists::one_mark(&mut out);
    lists::all_the_same(&mut out);
    lists::ends(&mut out);
    lists::terms(&mut out);
    lists::lengths(&mut out);
    lists::outside(&mut out);
    joins::lists(&mut out);
    joins::counts(&mut out);
    joins::of_no_list(&mut out);
    damaged::empty(&mut out);
    damaged::sums(&mut out);
    damaged::squares(&mut out);
    damaged::variances(&mut out);
    damaged::wide(&mut out);
    damaged::hidden(&mut out);
    random::lists(&mut out);
    random::joins(&mut out);
    random::damaged(&mut out);
    assert_eq!(out.tally.all().into_keys().collect::<BTreeSet<_>>(), every_answer());
    out.write(folder, "classes.bin")
}

/// The answers, and 23 for each of the things that it may be for: all of them are to occur.
fn every_answer() -> BTreeSet<String> {
    let mut every: BTreeSet<String> = ["figures", "refused 23 empty", "refused 23 too long", "refused 24 mark"].map(String::from).into();
    for class in ["first", "second"] {
        for flaw in ["sum too low", "sum too high", "squares below zero", "squares too high", "variance below zero"] {
            every.insert(format!("refused 23 {class} {flaw}"));
        }
    }
    every
}

/// What is printed where 23 is the answer, and 24 of a mark.
const UNFIT: &str = "23 0 0 0 0 0 1 0 1";

fn outside(place: usize) -> String {
    format!("24 {place} 0 0 0 0 1 0 1")
}

/// Adds a case, and hands back what is expected of it.
fn put(out: &mut Out, title: &str, ask: &Ask) -> String {
    out.add(title, ask.told(), |title| ask.record(title))
}

/// A case whose answer has been worked out in another way: a test of the oracle itself.
fn known(out: &mut Out, title: &str, ask: &Ask, expected: &str) {
    let told = put(out, title, ask);
    assert_eq!(told, expected, "{} {title}", out.group);
}

/// A list in the range whose figures are also worked out from the differences between all of its marks.
fn by_differences(out: &mut Out, title: &str, marks: &[i32]) {
    let wide: Vec<i128> = marks.iter().map(|&mark| mark.into()).collect();
    let (count, sum) = (wide.len() as i128, wide.iter().sum::<i128>());
    let squares: i128 = wide.iter().map(|mark| mark * mark).sum();
    // n (x² + y² + ..) - (x + y + ..)² has (x - y)² for each two marks.
    let pairs = wide.iter().enumerate().flat_map(|(k, x)| wide[..k].iter().map(move |y| x - y));
    let spread: i128 = pairs.map(|difference| difference * difference).sum();
    let expected = format!("0 {count} {sum} {squares} {} {}", least(sum, count), least(spread, count * count));
    known(out, title, &Ask::List(marks.to_vec()), &expected);
}

/// A fraction with the least denominator that it can have.
fn least(numerator: i128, denominator: i128) -> String {
    let least = (1..=denominator).find(|k| numerator * k % denominator == 0).unwrap();
    format!("{} {least}", numerator * least / denominator)
}

/// Marks all over the range, no two alike.
fn scattered(count: usize) -> Vec<i32> {
    (0..count).map(|k| (k * 7919 % 20_001) as i32 - HIGHEST).collect()
}

fn class(count: u32, sum: i64, squares: i64) -> Totals {
    Totals { count, sum, squares }
}

/// No mark at all.
const NONE: Totals = Totals { count: 0, sum: 0, squares: 0 };
