//! Figures worked out by hand, and fractions held to what lowest terms are.

use super::*;

fn class(count: u32, sum: i64, squares: i64) -> Totals {
    Totals { count, sum, squares }
}

/// The numbers of a reply, or those of the refusal and what it is for.
fn told(figures: Result<Figures, Refused>) -> Result<[i128; 7], (u32, usize, String)> {
    figures.map(|figures| figures.numbers()).map_err(|Refused { no: No(number, place), why }| (number, place, why))
}

fn unfit<T>(why: &str) -> Result<T, (u32, usize, String)> {
    Err((23, 0, why.to_string()))
}

#[test]
fn lists() {
    assert_eq!(told(of_list(&[7])), Ok([1, 7, 49, 7, 1, 0, 1]));
    assert_eq!(told(of_list(&[3, 4, 4])), Ok([3, 11, 41, 11, 3, 2, 9]));
    assert_eq!(told(of_list(&[-6, 2])), Ok([2, -4, 40, -2, 1, 16, 1]));
    assert_eq!(told(of_list(&[-5, 5])), Ok([2, 0, 50, 0, 1, 25, 1]));
    assert_eq!(told(of_list(&[10_000; 4096])), Ok([4096, 40_960_000, 409_600_000_000, 10_000, 1, 0, 1]));
}

#[test]
fn lists_refused() {
    assert_eq!(told(of_list(&[])), unfit("empty"));
    assert_eq!(told(of_list(&[10_001; 4097])), unfit("too long"));
    assert_eq!(told(of_list(&[10_000, -10_000, -10_001, 10_001])), Err((24, 2, "mark".to_string())));
}

#[test]
fn joins() {
    let first = Totals::of(&[3, 4, 4]);
    assert_eq!(told(of_join(first, class(1, -7, 49))), Ok([4, 4, 90, 1, 1, 43, 2]));
    assert_eq!(told(of_join(class(0, 0, 0), first)), told(of_list(&[3, 4, 4])));
    assert_eq!(told(of_join(first, class(4093, 0, 0))), Ok([4096, 11, 41, 11, 4096, 167_815, 16_777_216]));
}

#[test]
fn joins_refused() {
    let first = Totals::of(&[3, 4, 4]);
    assert_eq!(told(of_join(class(0, 0, 0), class(0, 0, 0))), unfit("empty"));
    assert_eq!(told(of_join(first, class(4094, 0, 0))), unfit("too long"));
    assert_eq!(told(of_join(class(u32::MAX, 0, 0), class(5, 0, 0))), unfit("too long"));
    assert_eq!(told(of_join(first, class(2, -20_001, 200_000_000))), unfit("second sum too low"));
    assert_eq!(told(of_join(class(0, 1, 0), first)), unfit("first sum too high"));
    assert_eq!(told(of_join(first, class(2, 0, -1))), unfit("second squares below zero"));
    assert_eq!(told(of_join(first, class(2, 0, 200_000_001))), unfit("second squares too high"));
    assert_eq!(told(of_join(class(2, 3, 4), first)), unfit("first variance below zero"));
}

/// The same quotient, and no number but 1 goes into both.
#[test]
fn lowest_terms() {
    for denominator in 1..=60 {
        for numerator in -130..=130 {
            let Fraction { numerator: top, denominator: bottom } = Fraction::lowest(numerator, denominator);
            assert!(bottom > 0 && top * denominator == numerator * bottom, "{numerator} over {denominator}");
            assert!((2..=bottom).all(|k| top % k != 0 || bottom % k != 0), "{numerator} over {denominator}");
        }
    }
}
