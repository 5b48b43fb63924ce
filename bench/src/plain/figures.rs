//! Class figures: Euclid's algorithm, and 128 bits where totals may be anything.

/// Count, sum and sum of squares.
pub type Totals = (u32, i64, i64);

/// Totals, mean and variance; or the question's number and its place.
pub type Figures = Result<(Totals, (i64, i64), (i64, i64)), (u32, usize)>;

#[inline(never)]
pub fn figures(marks: &[i32]) -> Figures {
    if marks.is_empty() || marks.len() > 4096 {
        return Err((23, 0));
    }
    if let Some(place) = marks.iter().position(|mark| !(-10_000..=10_000).contains(mark)) {
        return Err((24, place));
    }
    let wide = || marks.iter().map(|&mark| i64::from(mark));
    Ok(of_totals((marks.len() as u32, wide().sum(), wide().map(|mark| mark * mark).sum())))
}

#[inline(never)]
pub fn join(first: Totals, second: Totals) -> Figures {
    let count = u64::from(first.0) + u64::from(second.0);
    if !(1..=4096).contains(&count) || !is_possible(first) || !is_possible(second) {
        return Err((23, 0));
    }
    Ok(of_totals((count as u32, first.1 + second.1, first.2 + second.2)))
}

fn is_possible((count, sum, squares): Totals) -> bool {
    let (count, sum, squares) = (i128::from(count), i128::from(sum), i128::from(squares));
    sum.abs() <= 10_000 * count && (0..=100_000_000 * count).contains(&squares) && count * squares >= sum * sum
}

fn of_totals((count, sum, squares): Totals) -> (Totals, (i64, i64), (i64, i64)) {
    let number = i64::from(count);
    ((count, sum, squares), lowest(sum, number), lowest(number * squares - sum * sum, number * number))
}

fn lowest(numerator: i64, denominator: i64) -> (i64, i64) {
    let (mut a, mut b) = (numerator.unsigned_abs(), denominator as u64);
    while b != 0 {
        (a, b) = (b, a % b);
    }
    (numerator / a as i64, denominator / a as i64)
}
