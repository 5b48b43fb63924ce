//! Two classes joined, neither of them damaged.

use super::*;

/// Two lists' totals, whose answer is that of the joint list.
pub fn joined(out: &mut Out, title: &str, first: &[i32], second: &[i32]) {
    let joint = Ask::List([first, second].concat()).told().line;
    known(out, title, &Ask::Join(Totals::of(first), Totals::of(second)), &joint);
}

/// How many marks the first class has, and the second: most come to a fit number.
const SPLITS: [(usize, usize); 19] = [
    (0, 0),
    (0, 1),
    (1, 0),
    (1, 1),
    (1, 2),
    (3, 5),
    (5, 3),
    (10, 10),
    (100, 1),
    (1, 4094),
    (1, 4095),
    (4095, 1),
    (0, 4096),
    (4096, 0),
    (2048, 2048),
    (1000, 3000),
    (1, 4096),
    (4096, 1),
    (2048, 2049),
];

pub fn lists(out: &mut Out) {
    out.group("lists");
    known(out, "3 4 4 and -7", &Ask::Join(class(3, 11, 41), class(1, -7, 49)), "0 4 4 90 1 1 43 2");
    for (a, b) in SPLITS {
        let marks = scattered(a + b);
        joined(out, &format!("{a} and {b}"), &marks[..a], &marks[a..]);
        joined(out, &format!("{a} low and {b} high"), &vec![-HIGHEST; a], &vec![HIGHEST; b]);
        joined(out, &format!("{a} high and {b} low"), &vec![HIGHEST; a], &vec![-HIGHEST; b]);
        joined(out, &format!("{a} and {b} of 7"), &vec![7; a], &vec![7; b]);
    }
}

/// The joint count at its ends; and counts whose sum is a fit one in fewer bits, which must not be taken for it.
pub fn counts(out: &mut Out) {
    out.group("count");
    for (a, b) in [(0, 1), (1, 0), (1, 1), (0, 4095), (1, 4095), (4095, 1), (0, 4096), (4096, 0), (2048, 2048), (1365, 2731)] {
        known(out, &format!("{a} and {b}"), &zeros(a, b), &format!("0 {} 0 0 0 1 0 1", a + b));
    }
    let greatest = u32::MAX;
    for (a, b) in [
        (0, 0),
        (0, 4097),
        (4097, 0),
        (1, 4096),
        (4096, 1),
        (2048, 2049),
        (4095, 2),
        (4096, 4096),
        (0, 65_536),
        (65_535, 2),
        (1 << 24, 1),
        (0, greatest),
        (greatest, 0),
        (greatest, greatest),
    ] {
        known(out, &format!("{a} and {b}"), &zeros(a, b), UNFIT);
    }
    for sum in [0, 1, 4, 4095, 4096, 4097] {
        for first in [greatest, 1 << 31, (1 << 31) + 5, 5000, greatest - 4097] {
            let second = u32::try_from((1 << 32) + sum - i64::from(first)).unwrap();
            known(out, &format!("{first} and {second}, which wraps to {sum}"), &zeros(first, second), UNFIT);
        }
    }
}

/// Two classes of so many marks, each of them 0.
fn zeros(a: u32, b: u32) -> Ask {
    Ask::Join(class(a, 0, 0), class(b, 0, 0))
}

/// Totals that no list has, but of which nothing is asked that they fail.
pub fn of_no_list(out: &mut Out) {
    out.group("no list");
    for (totals, expected) in [
        (class(2, 0, 1), "0 2 0 1 0 1 1 2"),
        (class(1, 5, 26), "0 1 5 26 5 1 1 1"),
        (class(1, 0, 100_000_000), "0 1 0 100000000 0 1 100000000 1"),
        (class(3, 0, 299_999_999), "0 3 0 299999999 0 1 299999999 3"),
        (class(4096, 1, 409_600_000_000), "0 4096 1 409600000000 1 4096 1677721599999999 16777216"),
    ] {
        known(out, &format!("{} {} {}, first", totals.count, totals.sum, totals.squares), &Ask::Join(totals, NONE), expected);
        known(out, &format!("{} {} {}, second", totals.count, totals.sum, totals.squares), &Ask::Join(NONE, totals), expected);
    }
}
