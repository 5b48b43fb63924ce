//! Marks and totals from a seed.

use super::Random;
use crate::figures::{Totals, HIGHEST};

/// So many marks in the range: a few small ones, any, or at its ends.
pub fn random_marks(r: &mut Random, count: usize) -> Vec<i32> {
    let around = |r: &mut Random, most: i32| r.below(2 * most as usize + 1) as i32 - most;
    let sort = r.below(4);
    let mark = |r: &mut Random| match sort {
        0 => around(r, 3),
        1 => around(r, 100),
        2 => around(r, HIGHEST),
        _ => [HIGHEST - r.below(3) as i32, r.below(3) as i32 - HIGHEST][r.below(2)],
    };
    (0..count).map(|_| mark(r)).collect()
}

/// One mark or several outside the range, by one or by any number.
pub fn spoil_marks(r: &mut Random, marks: &mut [i32]) {
    for _ in 0..1 + r.below(3) {
        let beyond = if r.chance(2) { HIGHEST + 1 } else { r.below(i32::MAX as usize - HIGHEST as usize) as i32 + HIGHEST + 1 };
        let at = r.below(marks.len());
        marks[at] = if r.chance(2) { beyond } else { -beyond };
    }
}

/// Totals of which one is near a limit, on either side of it, or any number.
pub fn damage_totals(r: &mut Random, totals: &mut Totals) {
    let count = i64::from(totals.count);
    let near = r.below(3) as i64 - 1;
    let sign = [1, -1][r.below(2)];
    match r.below(9) {
        0 | 1 => totals.sum = sign * HIGHEST as i64 * count + near,
        2 => totals.squares = 100_000_000 * count + near,
        3 => totals.squares = near,
        // The variance is zero, or as near to that as it can be.
        4 | 5 => totals.squares = (i128::from(totals.sum).pow(2) / i128::from(count.max(1))).min(1 << 62) as i64 + near,
        6 => totals.sum = any(r),
        7 => totals.squares = any(r),
        _ => totals.count = (r.next() >> r.below(40)) as u32,
    }
}

/// Any number of 64 bits, or a power of two or near one: squares and products of these wrap to small numbers.
fn any(r: &mut Random) -> i64 {
    let power = (1u64 << r.below(64)).wrapping_add(r.below(3) as u64).wrapping_sub(1);
    [r.next() << 32 ^ r.next(), power, power.wrapping_neg()][r.below(3)] as i64
}
