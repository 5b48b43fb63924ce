//! What `signs_ends` must print: the ends of the range, zero, one and minus one through + - * / ^.
//!
//! The interpreter's `operate` is not used but tested: here results are exact, and quotients and powers are found as they are defined.

use crate::language::{operate, DIVISOR_ZERO, EXPONENT_NEGATIVE, OUT_OF_RANGE};
use std::fs;
use std::io;
use std::path::Path;

const ENDS: [i32; 5] = [i32::MIN, -1, 0, 1, i32::MAX];

/// The operators by their arithmetic kinds.
const OPERATORS: [(u8, char); 5] = [(3, '+'), (4, '-'), (5, '*'), (6, '/'), (7, '^')];

/// a / b without its fraction: the most whole times that |b| goes into |a|, found from the largest power of two down, with its sign.
fn quotient(a: i128, b: i128) -> i128 {
    let mut times = 0;
    for shift in (0..32).rev() {
        let more = times + (1 << shift);
        if more * b.abs() <= a.abs() {
            times = more;
        }
    }
    if (a < 0) == (b < 0) {
        times
    } else {
        -times
    }
}

/// a ^ n by repeated multiplication, until it is so far outside the range that it never comes back. 0, 1 and -1 never get there: of these only what n is by 2 counts.
fn power(a: i128, n: i128) -> i128 {
    let times = if a.abs() <= 1 && n > 2 { 2 + n % 2 } else { n };
    let mut product = 1;
    for _ in 0..times {
        product *= a;
        if product.abs() > 1 << 32 {
            break;
        }
    }
    product
}

fn value(kind: u8, a: i32, b: i32) -> Result<i32, u32> {
    let (a, b) = (i128::from(a), i128::from(b));
    let exact = match kind {
        3 => a + b,
        4 => a - b,
        5 => a * b,
        6 if b == 0 => return Err(DIVISOR_ZERO),
        6 => quotient(a, b),
        7 if b < 0 => return Err(EXPONENT_NEGATIVE),
        _ => power(a, b),
    };
    i32::try_from(exact).map_err(|_| OUT_OF_RANGE)
}

pub fn store(folder: &Path) -> io::Result<()> {
    let mut text = String::new();
    for (kind, operator) in OPERATORS {
        for a in ENDS {
            for b in ENDS {
                let value = value(kind, a, b);
                assert_eq!(value, operate(kind, a, b), "{a} {operator} {b}");
                let printed = value.map_or_else(|reason| format!("undefined {reason}"), |z| z.to_string());
                text += &format!("{operator} {a} {b} {printed}\n");
            }
        }
    }
    fs::write(folder.join("stdout"), &text)?;
    println!("{}: {} lines", folder.display(), text.lines().count());
    Ok(())
}
