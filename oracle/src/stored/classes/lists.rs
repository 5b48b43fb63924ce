//! Lists of marks.

use super::*;

pub fn one_mark(out: &mut Out) {
    out.group("one mark");
    for mark in [0, 1, -1, 2, -2, 7, -7, 100, -100, 255, -256, 9999, -9999, 10_000, -10_000] {
        known(out, &mark.to_string(), &Ask::List(vec![mark]), &format!("0 1 {mark} {} {mark} 1 0 1", mark * mark));
    }
}

pub fn all_the_same(out: &mut Out) {
    out.group("same");
    for count in [2, 3, 4, 7, 64, 1000, 4095, 4096] {
        for mark in [0i64, 1, -7, 10_000, -10_000] {
            let expected = format!("0 {count} {} {} {mark} 1 0 1", count * mark, count * mark * mark);
            known(out, &format!("{count} of {mark}"), &Ask::List(vec![mark as i32; count as usize]), &expected);
        }
    }
}

/// The ends of the range, mixed.
pub fn ends(out: &mut Out) {
    out.group("ends");
    let marks = |low: usize, count: usize| [vec![-HIGHEST; low], vec![HIGHEST; count - low]].concat();
    for count in 2..=7 {
        for low in 1..count {
            by_differences(out, &format!("{low} low of {count}"), &marks(low, count));
        }
    }
    // 20,000 squared for each low and high mark; half of each is the largest variance that there is.
    for (low, count) in [(1, 4096), (2047, 4096), (2048, 4096), (4095, 4096), (2047, 4095)] {
        let (k, n) = (low as i128, count as i128);
        let (sum, spread) = (10_000 * (n - 2 * k), 400_000_000 * k * (n - k));
        let expected = format!("0 {n} {sum} {} {} {}", 100_000_000 * n, least(sum, n), least(spread, n * n));
        known(out, &format!("{low} low of {count}"), &Ask::List(marks(low, count)), &expected);
    }
    known(out, "in turn", &Ask::List([-HIGHEST, HIGHEST].repeat(2048)), "0 4096 0 409600000000 0 1 100000000 1");
}

/// Lowest terms: numerators and denominators that have much, little and nothing in common.
pub fn terms(out: &mut Out) {
    out.group("terms");
    for count in 2..=12 {
        for ones in 1..count {
            by_differences(out, &format!("{ones} ones of {count}"), &[vec![1; ones], vec![0; count - ones]].concat());
        }
    }
    // 4,093 is a prime, and 4,096 a power of two.
    let one = |mark: i32, count: usize| Ask::List([vec![0; count - 1], vec![mark]].concat());
    known(out, "1 of 4093", &one(1, 4093), "0 4093 1 1 1 4093 4092 16752649");
    known(out, "-1 of 4093", &one(-1, 4093), "0 4093 -1 1 -1 4093 4092 16752649");
    known(out, "4093 of 4093", &one(4093, 4093), "0 4093 4093 16752649 1 1 4092 1");
    known(out, "1 of 4096", &one(1, 4096), "0 4096 1 1 1 4096 4095 16777216");
    known(out, "64 of 4096", &one(64, 4096), "0 4096 64 4096 1 64 4095 4096");
    known(out, "-4096 of 4096", &one(-4096, 4096), "0 4096 -4096 16777216 -1 1 4095 1");
}

/// Lists at the limit and past it, and none: 23 comes before 24.
pub fn lengths(out: &mut Out) {
    out.group("length");
    known(out, "0", &Ask::List(Vec::new()), UNFIT);
    for count in [1, 2, 3, 255, 256, 257, 4094, 4095, 4096] {
        by_differences(out, &count.to_string(), &scattered(count));
    }
    for count in [4097, 4098, MARKS] {
        known(out, &count.to_string(), &Ask::List(scattered(count)), UNFIT);
    }
    for place in [0, 4095, 4096] {
        let mut marks = scattered(4097);
        marks[place] = HIGHEST + 1;
        known(out, &format!("4097, and mark {place} outside"), &Ask::List(marks), UNFIT);
    }
}

/// Marks outside the range: the first of them counts.
pub fn outside(out: &mut Out) {
    out.group("outside");
    alone_outside(out);
    several_outside(out);
    for place in [0, 1, 2048, 4094, 4095] {
        let mut marks = scattered(4096);
        marks[place] = -HIGHEST - 1;
        known(out, &format!("mark {place} of 4096"), &Ask::List(marks), &super::outside(place));
    }
}

fn alone_outside(out: &mut Out) {
    // Some would be in the range if fewer bytes of them were read.
    for mark in [10_001, -10_001, i32::MAX, i32::MIN, 65_536, -65_536, 75_536, -75_536, 16_777_216, i32::MIN + 1, 1 << 30] {
        for (place, count) in [(0, 1), (0, 2), (1, 2), (0, 5), (2, 5), (4, 5)] {
            let mut marks = vec![HIGHEST; count];
            marks[place] = mark;
            known(out, &format!("{mark}, mark {place} of {count}"), &Ask::List(marks), &super::outside(place));
        }
    }
}

fn several_outside(out: &mut Out) {
    let mut list = |marks: &[i32], place: usize| known(out, &format!("several,{}", spaced(marks)), &Ask::List(marks.to_vec()), &super::outside(place));
    list(&[10_001, 5, 10_001], 0);
    list(&[5, -10_001, 10_001], 1);
    list(&[-10_001, 10_001], 0);
    list(&[10_000, -10_000, 10_001, i32::MIN, i32::MAX], 2);
    list(&[0, 0, 0, i32::MIN, 10_001], 3);
    list(&[i32::MIN, i32::MIN, i32::MIN, i32::MIN], 0);
    let mut marks = scattered(4096);
    (marks[0], marks[4095]) = (10_001, -10_001);
    known(out, "the first and the last of 4096", &Ask::List(marks.clone()), &super::outside(0));
    (marks[0], marks[4094]) = (10_000, i32::MAX);
    known(out, "the last two of 4096", &Ask::List(marks), &super::outside(4094));
}
