//! Fractions in lowest terms.

#[derive(Clone, Copy, PartialEq, Eq, Debug)]
pub struct Fraction {
    pub numerator: i128,
    pub denominator: i128,
}

impl Fraction {
    /// A number over a positive one. Not by Euclid's algorithm: each prime of the denominator, as often as it is there, is divided out where it goes into both.
    /// Into zero all of them go, so that zero comes as 0 over 1.
    pub fn lowest(numerator: i128, denominator: i128) -> Fraction {
        assert!(denominator > 0);
        let mut lowest = Fraction { numerator, denominator };
        let (mut left, mut prime) = (denominator, 2);
        while left > 1 {
            if left % prime != 0 {
                prime += 1;
                continue;
            }
            left /= prime;
            if lowest.numerator % prime == 0 {
                lowest.numerator /= prime;
                lowest.denominator /= prime;
            }
        }
        lowest
    }
}
