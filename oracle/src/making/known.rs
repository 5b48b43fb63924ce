//! Scripts that serve again and again: the factorial lesson, every kind of entry, and scripts at the limits.

use super::{entry, script_of};
use crate::language::*;

/// y := 1; do x > 0 -> y := x * y; x := x - 1 od
pub fn factorial() -> Script {
    let mut s = Script::new(&[0, 0]);
    let one = s.number(1);
    let first = s.assign(1, one);
    let x = s.variable(0);
    let zero = s.number(0);
    let test = s.compare(2, x, zero);
    let x = s.variable(0);
    let y = s.variable(1);
    let product = s.operator(5, x, y);
    let product = s.assign(1, product);
    let x = s.variable(0);
    let one = s.number(1);
    let less = s.operator(4, x, one);
    let less = s.assign(0, less);
    let body = s.then(product, less);
    let body = s.guard(test, body);
    let body = s.do_od(body);
    s.then(first, body);
    s
}

/// The book's Example 2.25, over the names i, x, y and A of 10, with a jump or a skip where it has a break: the sum of elements and their number.
pub fn adding_and_counting(jump: &str) -> Script {
    let arms = format!("A[i] >= 0 -> x := x + A[i]; i := i + 1 [] 0 > A[i] -> i := i + 1; {jump}");
    script_of("i x y A10", &format!("i := 0; x := 0; y := 0; do 10 > i -> if {arms} fi; y := y + 1 od"))
}

/// Every kind of every table: names x, y, A of 4, B of 64.
pub fn tour() -> Script {
    let mut s = Script::new(&[0, 0, 4, 64]);
    let n = s.number(-2147483648);
    let x = s.variable(0);
    let a = s.element(2, x);
    let sum = s.operator(3, n, a);
    let y = s.variable(1);
    let difference = s.operator(4, sum, y);
    let two = s.number(2);
    let quotient = s.operator(6, difference, two);
    let three = s.number(3);
    let x = s.variable(0);
    let power = s.operator(7, x, three);
    let seven = s.number(70000);
    let product = s.operator(5, seven, power);
    let y = s.variable(1);
    let b = s.element(3, y);
    let zero = s.number(0);
    let x = s.variable(0);
    let one = s.number(1);
    let minus = s.number(-1);
    let y = s.variable(1);
    let equal = s.compare(1, quotient, product);
    let greater = s.compare(2, b, zero);
    let least = s.compare(3, x, one);
    let yes = s.truth();
    let and = s.both(4, equal, greater);
    let no = s.not(least);
    let and_then = s.both(5, and, no);
    let last = s.truth();
    let assign = s.assign(1, minus);
    let i = s.number(5);
    let store = s.store(3, y, i);
    let leave = s.jump(BREAK);
    let pair = s.then(assign, store);
    let again = s.jump(CONTINUE);
    let three = s.then(pair, again);
    let g = s.guard(and_then, three);
    let h = s.guard(yes, leave);
    let choice = s.choice(g, h);
    let looped = s.do_od(choice);
    let skip = s.skip();
    let g = s.guard(last, skip);
    let test = s.if_fi(g);
    s.then(looped, test);
    s
}

/// Skip alone, over some names.
pub fn skip_over(names: &[u16]) -> Script {
    let mut s = Script::new(names);
    s.skip();
    s
}

/// Loops in loops, `depth` of them about one skip.
pub fn loops(depth: usize) -> Script {
    loops_about(0, depth)
}

/// The same about a command of a kind that has no operands: a skip, a break or a continue.
pub fn loops_about(kind: u8, depth: usize) -> Script {
    let mut s = Script::new(&[0]);
    let mut c = s.add(COMMANDS, entry(kind, 0, 0, 0));
    for _ in 0..depth {
        let b = s.truth();
        let g = s.guard(b, c);
        c = s.do_od(g);
    }
    s
}

/// `count` skips in sequence, to the left, to the right or in halves.
pub fn sequence(count: usize, shape: u8) -> Script {
    let mut s = Script::new(&[0]);
    let skips = (0..count).map(|_| s.skip()).collect();
    chain(&mut s, skips, shape);
    s
}

/// A loop whose body is `count` jumps in sequence, breaks and continues in turn: only the first is ever reached.
pub fn jumps_in_a_loop(count: usize, shape: u8) -> Script {
    let mut s = Script::new(&[0]);
    let jumps = (0..count).map(|k| s.jump([BREAK, CONTINUE][k % 2])).collect();
    let body = chain(&mut s, jumps, shape);
    let b = s.truth();
    let g = s.guard(b, body);
    s.do_od(g);
    s
}

/// Commands in sequence, nested to the left, to the right or in halves.
fn chain(s: &mut Script, mut c: Vec<u16>, shape: u8) -> u16 {
    let last = c.len() - 1;
    match shape {
        0 => c[1..].iter().fold(c[0], |p, &q| s.then(p, q)),
        1 => c[..last].iter().rev().fold(c[last], |q, &p| s.then(p, q)),
        _ => {
            while c.len() > 1 {
                c = c.chunks(2).map(|w| if w.len() == 2 { s.then(w[0], w[1]) } else { w[0] }).collect();
            }
            c[0]
        }
    }
}

/// A script with exactly so many entries in each table.
pub fn exact(names: &[u16], arithmetic: usize, boolean: usize, commands: usize) -> Script {
    let mut s = Script::new(names);
    let array = names.iter().position(|&n| n > 0).unwrap() as u16;
    let variable = names.iter().position(|&n| n == 0).unwrap() as u16;
    // Commands: pairs of entries (guard and do) about a leaf, with two more guards and a choice where the number is even.
    let mut c;
    if arithmetic > 0 {
        let mut a = s.number(7);
        while s.tables[0].len() < arithmetic {
            a = s.element(array, a);
        }
        c = s.assign(variable, a);
    } else {
        c = s.skip();
    }
    let mut left = commands - 1;
    let mut b = None;
    if boolean > 0 {
        b = Some(s.truth());
    }
    if left % 2 == 1 {
        // guard, leaf, guard, choice, if: five entries.
        let first = b.take().unwrap();
        let g = s.guard(first, c);
        let h = s.true_skip();
        let both = s.choice(g, h);
        c = s.if_fi(both);
        left -= 5;
    }
    while left > 0 {
        if s.tables[1].len() < boolean || b.is_some() {
            let test = match b.take() {
                Some(test) => test,
                None => s.truth(),
            };
            let mut test = test;
            if left == 2 {
                while s.tables[1].len() < boolean {
                    test = s.not(test);
                }
            }
            let g = s.guard(test, c);
            c = s.do_od(g);
        } else {
            let d = s.skip();
            c = s.then(c, d);
        }
        left -= 2;
    }
    assert_eq!([s.tables[0].len(), s.tables[1].len(), s.tables[2].len()], [arithmetic, boolean, commands]);
    s
}

pub fn full_names() -> Vec<u16> {
    // 20 variables and 12 arrays of 41: 512 cells.
    (0..32).map(|i| if i < 20 { 0 } else { 41 }).collect()
}

pub fn with_entry(s: &Script, t: usize, i: usize, e: Entry) -> Script {
    let mut s = s.clone();
    s.tables[t][i] = e;
    s
}
