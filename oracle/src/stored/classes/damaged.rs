//! Totals at the limits of what a class can have, and one past them.

use super::*;

/// Counts at which limits are asked about.
const COUNTS: [u32; 5] = [1, 2, 3, 4095, 4096];

/// A class's totals as the first and as the second of a join, with no mark and, where there is room, with one. Answers 0 or 23.
fn both_ways(out: &mut Out, totals: Totals, is_fit: bool) {
    let one = class(1, 7, 49);
    for (word, other) in [("none", NONE), ("one", one)] {
        let count = totals.count + other.count;
        if count == 0 || count > 4096 {
            continue;
        }
        for (place, ask) in [("before", Ask::Join(totals, other)), ("after", Ask::Join(other, totals))] {
            let title = format!("{} {} {} {place} {word}", totals.count, totals.sum, totals.squares);
            let told = put(out, &title, &ask);
            assert_eq!(told != UNFIT, is_fit, "{} {title}", out.group);
        }
    }
}

/// An empty class with sums is no class.
pub fn empty(out: &mut Out) {
    out.group("empty class");
    both_ways(out, NONE, true);
    for (sum, squares) in [(1, 0), (-1, 0), (0, 1), (0, -1), (1, 1), (-1, 1), (10_000, 100_000_000), (i64::MIN, 0), (0, i64::MIN)] {
        both_ways(out, class(0, sum, squares), false);
    }
}

pub fn sums(out: &mut Out) {
    out.group("sum");
    for count in COUNTS {
        let (most, squares) = (10_000 * i64::from(count), 100_000_000 * i64::from(count));
        for (sum, is_fit) in [(most - 1, true), (most, true), (most + 1, false)] {
            both_ways(out, class(count, sum, squares), is_fit);
            both_ways(out, class(count, -sum, squares), is_fit);
        }
    }
}

pub fn squares(out: &mut Out) {
    out.group("squares");
    for count in COUNTS {
        let most = 100_000_000 * i64::from(count);
        for (squares, is_fit) in [(-2, false), (-1, false), (0, true), (1, true), (most - 1, true), (most, true), (most + 1, false), (most + 2, false)] {
            both_ways(out, class(count, 0, squares), is_fit);
        }
    }
}

/// A variance of zero, and just below.
pub fn variances(out: &mut Out) {
    out.group("variance");
    for count in COUNTS {
        let n = i64::from(count);
        // Marks all the same, and a square sum one less or more.
        for mark in [1, -7, 9999, -9999] {
            for (more, is_fit) in [(-1, false), (0, true), (1, true)] {
                both_ways(out, class(count, n * mark, n * mark * mark + more), is_fit);
            }
        }
        for mark in [10_000, -10_000] {
            both_ways(out, class(count, n * mark, n * mark * mark - 1), false);
        }
        // n (n - 2) is one less than (n - 1)².
        if n > 1 {
            both_ways(out, class(count, n - 1, n - 2), false);
            both_ways(out, class(count, 1 - n, n - 2), false);
            both_ways(out, class(count, n - 1, n - 1), true);
        }
    }
}

/// Numbers so large that a square or a product of them does not fit 64 bits, or is a fit number there once it has wrapped.
pub fn wide(out: &mut Out) {
    out.group("wide");
    let (least, greatest) = (i64::MIN, i64::MAX);
    for count in [0, 1, 4096] {
        for end in [least, greatest] {
            both_ways(out, class(count, end, 0), false);
            both_ways(out, class(count, 0, end), false);
            both_ways(out, class(count, end, least), false);
            both_ways(out, class(count, end, greatest), false);
        }
    }
    for count in [1, 2, 4096] {
        // 65,536² is 2^32, 3,037,000,500² just above 2^63, 2^32 squared 2^64.
        for sum in [65_536, 3_037_000_499, 3_037_000_500, 1 << 32, (1 << 32) + 1, 1 << 33, 1 << 62] {
            for squares in [0, 100_000_000 * i64::from(count)] {
                // 4,096 marks may well have the sum 65,536, but not with squares of 0.
                let is_fit = count == 4096 && sum == 65_536 && squares > 0;
                both_ways(out, class(count, sum, squares), is_fit);
                both_ways(out, class(count, -sum, squares), is_fit);
            }
        }
    }
    // 4,096 times 2^51 is 2^63, and times 2^52 it is 2^64.
    for squares in [1 << 51, (1 << 51) + 1, 1 << 52, (1 << 52) + 3, 1 << 53, 1 << 62] {
        for count in [2, 4, 4096] {
            both_ways(out, class(count, 0, squares), false);
        }
    }
}

/// Flaws of one class that the totals of the joint list do not have, and flaws of both.
pub fn hidden(out: &mut Out) {
    out.group("hidden");
    for (damaged, other) in [
        (class(1, 10_001, 100_000_000), class(1, -1, 1)),
        (class(1, -10_001, 100_000_000), class(1, 1, 1)),
        (class(2, 0, -1), class(2, 0, 8)),
        (class(1, 0, 100_000_001), class(1, 0, 0)),
        (class(2, 3, 4), class(2, 0, 200)),
        (class(0, 5, 25), class(4, 3, 3)),
        (class(0, 5, 0), class(4, -5, 25)),
        (class(1, i64::MAX, 0), class(1, -i64::MAX, 0)),
        (class(1, 0, i64::MAX), class(1, 0, -i64::MAX)),
        (class(2, i64::MIN, i64::MIN), class(2, i64::MAX, i64::MAX)),
    ] {
        let title = |a: Totals, b: Totals| format!("{} {} {} and {} {} {}", a.count, a.sum, a.squares, b.count, b.sum, b.squares);
        known(out, &title(damaged, other), &Ask::Join(damaged, other), UNFIT);
        known(out, &format!("{}, turned", title(other, damaged)), &Ask::Join(other, damaged), UNFIT);
    }
}
