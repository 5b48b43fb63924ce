//! Class figures: known answers, and random lists and joins against the oracle.

use oracle::language::No;
use oracle::making::Random;
use pizwoter::{figures, join, Figures, Fraction, Place, Question, Refusal, Totals};

const LISTS: u64 = 5_000;
const JOINS: u64 = 50_000;

/// What a class is answered that is empty, too long or has totals beyond the limits.
const REFUSED: Refusal = Refusal { question: Question::Class, place: Place::None };

fn totals(count: u32, sum: i64, squares: i64) -> Totals {
    Totals { count, sum, squares }
}

fn told(totals: Totals, mean: (i64, i64), variance: (i64, i64)) -> Result<Figures, Refusal> {
    let fraction = |(numerator, denominator)| Fraction { numerator, denominator };
    Ok(Figures { totals, mean: fraction(mean), variance: fraction(variance) })
}

fn outside(place: usize) -> Result<Figures, Refusal> {
    Err(Refusal { question: Question::Mark, place: Place::Mark(place) })
}

#[test]
fn lists_with_known_figures() {
    assert_eq!(figures(&[3, 4, 4]), told(totals(3, 11, 41), (11, 3), (2, 9)));
    assert_eq!(figures(&[-7]), told(totals(1, -7, 49), (-7, 1), (0, 1)));
    assert_eq!(figures(&[-6, 2]), told(totals(2, -4, 40), (-2, 1), (16, 1)));
    assert_eq!(figures(&[-5, 5]), told(totals(2, 0, 50), (0, 1), (25, 1)));
    assert_eq!(figures(&[10000; 4096]), told(totals(4096, 40_960_000, 409_600_000_000), (10000, 1), (0, 1)));
    assert_eq!(figures(&[-10000; 4096]), told(totals(4096, -40_960_000, 409_600_000_000), (-10000, 1), (0, 1)));
    assert_eq!(figures(&[-10000, 10000].repeat(2048)), told(totals(4096, 0, 409_600_000_000), (0, 1), (100_000_000, 1)));
}

#[test]
fn lists_that_are_refused() {
    assert_eq!(figures(&[]), Err(REFUSED));
    assert_eq!(figures(&[0; 4097]), Err(REFUSED));
    assert_eq!(figures(&[10001; 4097]), Err(REFUSED));
    assert_eq!(figures(&[10000, 10001, -10001]), outside(1));
    assert_eq!(figures(&[-10000, 0, -10001, 10001]), outside(2));
    assert_eq!(figures(&[i32::MIN]), outside(0));
    assert_eq!(figures(&[[0; 4095].as_slice(), &[i32::MAX]].concat()), outside(4095));
}

#[test]
fn joins_with_known_figures() {
    let first = totals(3, 11, 41);
    let none = totals(0, 0, 0);
    assert_eq!(join(first, totals(1, -7, 49)), told(totals(4, 4, 90), (1, 1), (43, 2)));
    assert_eq!(join(first, none), figures(&[3, 4, 4]));
    assert_eq!(join(none, first), figures(&[3, 4, 4]));
    assert_eq!(join(totals(4093, 0, 0), first), told(totals(4096, 11, 41), (11, 4096), (167_815, 16_777_216)));
}

#[test]
fn joins_that_are_refused() {
    let first = totals(3, 11, 41);
    let none = totals(0, 0, 0);
    assert_eq!(join(none, none), Err(REFUSED));
    assert_eq!(join(totals(4094, 0, 0), first), Err(REFUSED));
    // The counts come to 0, and to 2, where they are added in 32 bits.
    assert_eq!(join(totals(1 << 31, 0, 0), totals(1 << 31, 0, 0)), Err(REFUSED));
    assert_eq!(join(totals(u32::MAX, 0, 0), first), Err(REFUSED));
    let wrong = [
        totals(2, 3, 4),
        totals(2, 20_001, 200_000_000),
        totals(2, -20_001, 200_000_000),
        totals(2, 0, -1),
        totals(2, 0, 200_000_001),
        totals(0, 1, 0),
        totals(0, 0, 1),
        totals(1, i64::MIN, i64::MIN),
        totals(1, i64::MAX, i64::MAX),
        // The square of the sum is 0 in 64 bits.
        totals(1, 1 << 32, 0),
    ];
    for second in wrong {
        assert_eq!(join(first, second), Err(REFUSED), "{second:?}");
        assert_eq!(join(second, first), Err(REFUSED), "{second:?}");
    }
}

fn oracles(t: Totals) -> oracle::figures::Totals {
    oracle::figures::Totals { count: t.count, sum: t.sum, squares: t.squares }
}

fn totals_of(marks: &[i32]) -> Totals {
    let t = oracle::figures::Totals::of(marks);
    totals(t.count, t.sum, t.squares)
}

/// The oracle's answer.
fn expected(answer: Result<oracle::figures::Figures, oracle::figures::Refused>) -> Result<Figures, Refusal> {
    let narrow = |f: oracle::figures::Fraction| (f.numerator.try_into().unwrap(), f.denominator.try_into().unwrap());
    match answer {
        Ok(f) => told(totals(f.totals.count, f.totals.sum, f.totals.squares), narrow(f.mean), narrow(f.variance)),
        Err(oracle::figures::Refused { no: No(24, place), .. }) => outside(place),
        Err(oracle::figures::Refused { no, .. }) => {
            assert_eq!((no.0, no.1), (23, 0));
            Err(REFUSED)
        }
    }
}

fn of<T: Copy>(r: &mut Random, pool: &[T]) -> T {
    pool[r.below(pool.len())]
}

/// Small, or up to the limit, or about it.
fn any_length(r: &mut Random) -> usize {
    match r.below(8) {
        0 => r.below(4),
        1 => 4094 + r.below(5),
        2 | 3 => r.below(4097),
        _ => 1 + r.below(40),
    }
}

/// Marks that are all the same, at the ends of the range, near zero, even, so that there is more to reduce, or any; and in some lists a few outside the range.
fn any_marks(r: &mut Random) -> Vec<i32> {
    let length = any_length(r);
    let (kind, same) = (r.below(6), r.below(20_001) as i32 - 10_000);
    let mut marks: Vec<i32> = (0..length)
        .map(|_| match kind {
            0 => same,
            1 => of(r, &[-10_000, 10_000]),
            2 => of(r, &[-10_000, -9_999, 0, 9_999, 10_000]),
            3 => r.below(7) as i32 - 3,
            4 => 2 * (r.below(10_001) as i32 - 5_000),
            _ => r.below(20_001) as i32 - 10_000,
        })
        .collect();
    if length > 0 && r.chance(4) {
        for _ in 0..1 + r.below(3) {
            let at = r.below(length);
            marks[at] = of(r, &[10_001, -10_001, 10_000, i32::MAX, i32::MIN, 46_341, -65_536]);
        }
    }
    marks
}

/// Marks in the range, as many as there is room for.
fn fit_marks(r: &mut Random, room: usize) -> Vec<i32> {
    let mut marks = any_marks(r);
    marks.retain(|x| (-10_000..=10_000).contains(x));
    marks.truncate(room);
    marks
}

/// A limit, or a number next to one.
fn about(r: &mut Random, limit: i64) -> i64 {
    limit.saturating_add(r.below(3) as i64 - 1)
}

/// Totals of a list, or changed so that they lie about a limit, or numbers from anywhere.
fn any_totals(r: &mut Random) -> Totals {
    let room = of(r, &[2048, 2048, 4096]);
    let t = totals_of(&fit_marks(r, room));
    let count = i64::from(t.count);
    match r.below(16) {
        0 => Totals { sum: about(r, 10_000 * count), squares: about(r, 100_000_000 * count), ..t },
        1 => Totals { sum: about(r, -10_000 * count), squares: 100_000_000 * count, ..t },
        2 => Totals { squares: about(r, 100_000_000 * count), ..t },
        3 => Totals { sum: about(r, 0), squares: about(r, 0), ..t },
        // The least sum of squares whose variance is not below zero.
        4 | 5 => Totals { squares: about(r, if count > 0 { (t.sum * t.sum + count - 1) / count } else { 0 }), ..t },
        6 => {
            let ends = [i64::MIN, i64::MAX, 0, 1 << 32, -(1 << 32), 3_037_000_500];
            totals(of(r, &[0, 1, 4096, 4097, 1 << 31, u32::MAX]), of(r, &ends), of(r, &ends))
        }
        _ => t,
    }
}

fn state(k: u64) -> Random {
    Random(k.wrapping_mul(0x9E37_79B9_7F4A_7C15))
}

#[test]
fn random_lists_are_the_oracle_s() {
    let mut fit = 0;
    for k in 1..=LISTS {
        let marks = any_marks(&mut state(k));
        let answer = figures(&marks);
        assert_eq!(answer, expected(oracle::figures::of_list(&marks)), "{marks:?}");
        fit += u64::from(answer.is_ok());
    }
    assert!(LISTS / 4 < fit && fit < LISTS * 9 / 10, "{fit} of {LISTS} are fit");
}

#[test]
fn random_joins_are_the_oracle_s() {
    let mut fit = 0;
    for k in 1..=JOINS {
        let mut r = state(k);
        let (a, b) = (any_totals(&mut r), any_totals(&mut r));
        let answer = join(a, b);
        assert_eq!(answer, expected(oracle::figures::of_join(oracles(a), oracles(b))), "{a:?} {b:?}");
        fit += u64::from(answer.is_ok());
    }
    assert!(JOINS / 4 < fit && fit < JOINS * 9 / 10, "{fit} of {JOINS} are fit");
}

/// "giving the figures of the joint list where each came from a list", also where that is empty or too long; and so of a join that is joined in turn.
#[test]
fn a_join_of_two_lists_is_their_joint_list() {
    for k in 1..=LISTS {
        let mut r = state(k);
        let (a, b, c) = (fit_marks(&mut r, 4096), fit_marks(&mut r, 2048), fit_marks(&mut r, 2048));
        let joined = join(totals_of(&a), totals_of(&b));
        assert_eq!(joined, figures(&[&a[..], &b].concat()));
        if let Ok(both) = joined {
            assert_eq!(join(both.totals, totals_of(&c)), figures(&[&a[..], &b, &c].concat()));
        }
    }
}
