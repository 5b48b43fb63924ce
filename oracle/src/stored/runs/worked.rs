//! Worked cases, operators, comparisons and cells.

use super::*;

/// What document 01 works out about steps and runs.
pub fn worked(out: &mut Out) {
    out.group("worked");
    assigns(out, "x", "x := -7 / 2", &[5], Ok(-3));
    assigns(out, "x", "x := 7 / -2", &[5], Ok(-3));
    assigns(out, "x", "x := -2147483648 / -1", &[5], Err(36));
    assigns(out, "x", "x := 0 ^ 0", &[5], Ok(1));
    assigns(out, "x", "x := 2 ^ 30", &[5], Ok(1073741824));
    assigns(out, "x", "x := 2 ^ 31", &[5], Err(36));
    assigns(out, "x", "x := 1 ^ 2147483647", &[5], Ok(1));
    assigns(out, "z x i A4", "z := x + A[i]", &[0, 12, 2, 2, 3, 7, 5], Ok(19));
    tests(out, "j A3", "(j > 0) and (A[j - 1] > A[j])", &[0, 2, 3, 7], Err(34));
    tests(out, "j A3", "(j > 0) && (A[j - 1] > A[j])", &[0, 2, 3, 7], Ok(false));
    factorial_steps(out);
    let file = file_of("x", "if x > 0 -> skip fi");
    out.known("if x > 0 -> skip fi, budget 1", &file, &on(&[0], &Ask::Budget(1)), "answer 2; node 0 count 0 memory 0");
    ends(out);
    // The near misses: a loop is left where all guards are false, and ∧ hides nothing.
    let both = "do x > 0 -> skip [] y > 0 -> skip od";
    one_step(out, "x y", both, &[1, 0], 4, Err(31));
    one_step(out, "x y", both, &[0, 1], 4, Err(31));
    one_step(out, "x y", both, &[0, 0], 4, Ok((1, &[0, 0])));
    tests(out, "x A1", "x > 0 and A[x - 1] > 0", &[0, 5], Err(34));
}

/// The factorial lesson's run from x 3, y 0, as a whole and step by step.
fn factorial_steps(out: &mut Out) {
    let file = factorial().bytes();
    assert_eq!(file, file_of("x y", "y := 1; do x > 0 -> y := x * y; x := x - 1 od"));
    out.known("factorial", &file, &on(&[3, 0], &Ask::Budget(11)), "answer 0; node 1 count 11 memory 0 6");
    // Arrows 0 to 2 y := 1; 2 to 3 guard; 3 to 4 product; 4 to 2 subtraction; 2 to 1 exit.
    let trace = [
        ("", 0, 0, [3, 0]),
        ("0", 2, 1, [3, 1]),
        ("0 1", 3, 2, [3, 1]),
        ("0 1 2", 4, 3, [3, 3]),
        ("0 1 2 3", 2, 4, [2, 3]),
        ("0 1 2 3 1", 3, 5, [2, 3]),
        ("0 1 2 3 1 2", 4, 6, [2, 6]),
        ("0 1 2 3 1 2 3", 2, 7, [1, 6]),
        ("0 1 2 3 1 2 3 1", 3, 8, [1, 6]),
        ("0 1 2 3 1 2 3 1 2", 4, 9, [1, 6]),
        ("0 1 2 3 1 2 3 1 2 3", 2, 10, [0, 6]),
        ("0 1 2 3 1 2 3 1 2 3 4", 1, 11, [0, 6]),
    ];
    for (calls, node, count, memory) in trace {
        let calls: Vec<u16> = calls.split(' ').filter(|s| !s.is_empty()).map(|s| s.parse().unwrap()).collect();
        let taken = "taken; ".repeat(calls.len());
        let expected = format!("{taken}node {node} count {count} memory{}", spaced(&memory));
        out.known(&format!("factorial, {count} steps"), &file, &on(&[3, 0], &steps(&calls)), &expected);
    }
}

/// Names, sizes and cells at their ends.
fn ends(out: &mut Out) {
    let skip = |names: &[u16]| skip_over(names).bytes();
    for ask in [Ask::Budget(1), steps(&[0])] {
        let is_run = matches!(ask, Ask::Budget(_));
        let yes = if is_run { "answer 0; node 1 count 1 memory" } else { "taken; node 1 count 1 memory" };
        out.known("32 names", &skip(&[0; 32]), &on(&[7; 32], &ask), yes);
        out.known("33 names", &skip(&[0; 33]), &on(&[7; 33], &ask), "refused 3 at 0; node 0 count 0 memory");
        out.known("size 64", &skip(&[64]), &on(&[7; 64], &ask), yes);
        out.known("size 65", &skip(&[65]), &on(&[7; 65], &ask), "refused 6 at 3; node 0 count 0 memory");
        out.known("512 cells", &skip(&[64; 8]), &on(&[7; 512], &ask), yes);
        out.known("513 cells", &skip(&[64, 64, 64, 64, 64, 64, 64, 64, 0]), &on(&[7; 513], &ask), "refused 6 at 19; node 0 count 0 memory");
    }
}

/// Operators with their two sides, and their values.
const VALUES: &[(&str, i32, i32, Result<i32, Reason>)] = &[
    ("+", 2, 3, Ok(5)),
    ("+", MAX, 0, Ok(MAX)),
    ("+", MAX - 1, 1, Ok(MAX)),
    ("+", MAX, 1, Err(36)),
    ("+", 1, MAX, Err(36)),
    ("+", MAX, MAX, Err(36)),
    ("+", MIN + 1, -1, Ok(MIN)),
    ("+", MIN, -1, Err(36)),
    ("+", MIN, MIN, Err(36)),
    ("+", MIN, MAX, Ok(-1)),
    ("-", 2, 3, Ok(-1)),
    ("-", 3, 2, Ok(1)),
    ("-", MIN + 1, 1, Ok(MIN)),
    ("-", MIN, 1, Err(36)),
    ("-", MAX - 1, -1, Ok(MAX)),
    ("-", MAX, -1, Err(36)),
    ("-", 0, MIN, Err(36)),
    ("-", -1, MIN, Ok(MAX)),
    ("-", MIN, MIN, Ok(0)),
    ("-", MAX, MIN, Err(36)),
    ("*", 6, -7, Ok(-42)),
    ("*", 46340, 46340, Ok(2147395600)),
    ("*", 46341, 46341, Err(36)),
    ("*", 65536, 32767, Ok(2147418112)),
    ("*", 65536, 32768, Err(36)),
    ("*", -65536, 32768, Ok(MIN)),
    ("*", 65536, -32769, Err(36)),
    ("*", 65536, 65536, Err(36)),
    ("*", MIN, 1, Ok(MIN)),
    ("*", MIN, -1, Err(36)),
    ("*", MIN, MIN, Err(36)),
    ("*", MAX, -1, Ok(-MAX)),
    ("*", MIN, 0, Ok(0)),
    ("/", -7, 2, Ok(-3)),
    ("/", 7, -2, Ok(-3)),
    ("/", -7, -2, Ok(3)),
    ("/", 7, 2, Ok(3)),
    ("/", 1, 2, Ok(0)),
    ("/", -1, 2, Ok(0)),
    ("/", MIN, -1, Err(36)),
    ("/", MIN, 1, Ok(MIN)),
    ("/", MIN, 2, Ok(-1073741824)),
    ("/", MIN + 1, -1, Ok(MAX)),
    ("/", MAX, -1, Ok(-MAX)),
    ("/", MIN, MIN, Ok(1)),
    ("/", MAX, MIN, Ok(0)),
    ("/", 1, 0, Err(32)),
    ("/", 0, 0, Err(32)),
    ("/", MIN, 0, Err(32)),
    ("/", 0, -5, Ok(0)),
    ("^", 0, 0, Ok(1)),
    ("^", 5, 0, Ok(1)),
    ("^", MIN, 0, Ok(1)),
    ("^", MIN, 1, Ok(MIN)),
    ("^", MAX, 1, Ok(MAX)),
    ("^", MAX, 2, Err(36)),
    ("^", MIN, 2, Err(36)),
    ("^", 0, 1, Ok(0)),
    ("^", 0, MAX, Ok(0)),
    ("^", 1, MAX, Ok(1)),
    ("^", -1, MAX, Ok(-1)),
    ("^", -1, MAX - 1, Ok(1)),
    ("^", 2, 30, Ok(1073741824)),
    ("^", 2, 31, Err(36)),
    ("^", 2, 32, Err(36)),
    ("^", 2, 63, Err(36)),
    ("^", 2, 64, Err(36)),
    ("^", 2, MAX, Err(36)),
    ("^", -2, 31, Ok(MIN)),
    ("^", -2, 30, Ok(1073741824)),
    ("^", -2, 32, Err(36)),
    ("^", -2, 33, Err(36)),
    ("^", -2, 64, Err(36)),
    ("^", 3, 19, Ok(1162261467)),
    ("^", 3, 20, Err(36)),
    ("^", -3, 19, Ok(-1162261467)),
    ("^", -3, 21, Err(36)),
    ("^", 46340, 2, Ok(2147395600)),
    ("^", -46341, 2, Err(36)),
    ("^", 1290, 3, Ok(2146689000)),
    ("^", -1291, 3, Err(36)),
    // 65536 to the power 4 is 0 in 64 bits.
    ("^", 65536, 4, Err(36)),
    ("^", 10, -1, Err(33)),
    ("^", 1, -1, Err(33)),
    ("^", 0, -1, Err(33)),
    ("^", MAX, MIN, Err(33)),
];

/// Operators at their boundaries: of two variables, and of two numbers written in the script.
pub fn values(out: &mut Out) {
    out.group("value");
    for &(operator, left, right, expected) in VALUES {
        assigns(out, "x y z", &format!("x := y {operator} z"), &[9, left, right], expected);
        assigns(out, "x", &format!("x := {left} {operator} {right}"), &[9], expected);
    }
    // A number's two halves.
    for z in [0, 1, -1, 32767, 32768, -32768, -32769, 65535, 65536, -65535, -65536, -65537, MAX, MIN, MAX - 65535, MIN + 65536] {
        assigns(out, "x", &format!("x := {z}"), &[9], Ok(z));
    }
    // Operators inside one another.
    for (text, expected) in [
        ("x := (y + z) * (y - z)", Ok(40)),
        ("x := y + z * y - z", Ok(25)),
        ("x := (y - z) ^ z / y", Ok(9)),
        ("x := y ^ (z - y)", Err(33)),
        ("x := z / (y - 7)", Err(32)),
        ("x := (z - y) / z", Ok(-1)),
        ("x := (0 - y) / 2 * 2 - y", Ok(-13)),
    ] {
        assigns(out, "x y z", text, &[9, 7, 3], expected);
    }
}

/// The operators on all pairs of some numbers.
pub fn pairs(out: &mut Out) {
    out.group("pair");
    let numbers = [MIN, -46341, -3, -1, 0, 1, 2, 31, 46340, MAX];
    for operator in ["+", "-", "*", "/", "^"] {
        let file = file_of("x y z", &format!("x := y {operator} z"));
        for left in numbers {
            for right in numbers {
                out.put(&format!("{left} {operator} {right}"), &file, &on(&[9, left, right], &steps(&[0])));
            }
        }
    }
}

pub fn conditions(out: &mut Out) {
    out.group("compare");
    for (left, right) in [(0, 0), (1, 0), (0, 1), (-1, 0), (0, -1), (-1, 1), (MIN, MAX), (MAX, MIN), (MIN, MIN), (MAX, MAX), (MAX - 1, MAX), (65536, 0)] {
        for (sign, expected) in [("=", left == right), (">", left > right), (">=", left >= right)] {
            tests(out, "x y", &format!("x {sign} y"), &[left, right], Ok(expected));
            tests(out, "x y", &format!("!x {sign} y"), &[left, right], Ok(!expected));
        }
    }
    // Sides that are true, false or undefined, with a reason of its own on each side.
    out.group("truth");
    let left = [("x = x", Ok(true)), ("x > x", Ok(false)), ("A[-1] = 0", Err(34))];
    let right = [("true", Ok(true)), ("!true", Ok(false)), ("x / 0 = 0", Err(32))];
    for (l, l_truth) in left {
        tests(out, "x A4", l, &[1, 2, 3, 4, 5], l_truth);
        tests(out, "x A4", &format!("!({l})"), &[1, 2, 3, 4, 5], l_truth.map(|b: bool| !b));
        tests(out, "x A4", &format!("!!({l})"), &[1, 2, 3, 4, 5], l_truth);
        for (r, r_truth) in right {
            let and = match (l_truth, r_truth) {
                (Err(reason), _) => Err(reason),
                (_, Err(reason)) => Err(reason),
                (Ok(l), Ok(r)) => Ok(l && r),
            };
            let and_then = match (l_truth, r_truth) {
                (Err(reason), _) => Err(reason),
                (Ok(false), _) => Ok(false),
                (Ok(true), r) => r,
            };
            tests(out, "x A4", &format!("{l} and {r}"), &[1, 2, 3, 4, 5], and);
            tests(out, "x A4", &format!("{l} && {r}"), &[1, 2, 3, 4, 5], and_then);
            tests(out, "x A4", &format!("!({l} and {r})"), &[1, 2, 3, 4, 5], and.map(|b| !b));
            tests(out, "x A4", &format!("!({l} && {r})"), &[1, 2, 3, 4, 5], and_then.map(|b| !b));
        }
    }
    for (text, expected) in [
        ("(!true && A[-1] = 0) and A[4] = 0", Err(35)),
        ("(!true and A[-1] = 0) && A[4] = 0", Err(34)),
        ("!true && (A[-1] = 0 and A[4] = 0)", Ok(false)),
        ("!true and (!true && A[4] = 0)", Ok(false)),
        ("true && (!true && A[4] = 0)", Ok(false)),
        ("(true && !true) && A[4] = 0", Ok(false)),
        ("!(!true && A[4] = 0) && A[-1] = 0", Err(34)),
    ] {
        tests(out, "x A4", text, &[1, 2, 3, 4, 5], expected);
    }
}

/// Which cell is which: each cell read and each stored to, and the indices on either side of an array.
pub fn cells(out: &mut Out) {
    out.group("cell");
    let names = "x A3 y B1 C2 z";
    let memory = [10, 20, 21, 22, 30, 40, 50, 51, 60];
    for (place, cell) in [("x", 0), ("A[0]", 1), ("A[1]", 2), ("A[2]", 3), ("y", 4), ("B[0]", 5), ("C[0]", 6), ("C[1]", 7), ("z", 8)] {
        let mut after = memory;
        after[cell] = -1;
        one_step(out, names, &format!("{place} := -1"), &memory, 0, Ok((1, &after)));
        assigns(out, names, &format!("x := {place}"), &memory, Ok(memory[cell]));
    }
    for (array, size) in [("A", 3), ("B", 1), ("C", 2)] {
        for (index, reason) in [(-1, 34), (-2, 34), (MIN, 34), (size, 35), (size + 1, 35), (65536, 35), (MAX, 35)] {
            assigns(out, names, &format!("x := {array}[{index}]"), &memory, Err(reason));
            one_step(out, names, &format!("{array}[{index}] := 1"), &memory, 0, Err(reason));
        }
    }
    // The last of 64 elements, and the last of 512 cells.
    let memory: Vec<i32> = (0..512).collect();
    let last: [(i32, Result<i32, Reason>); 4] = [(0, Ok(448)), (63, Ok(511)), (64, Err(35)), (-1, Err(34))];
    for (index, expected) in last {
        let names = "A64 B64 C64 D64 E64 F64 G64 H64";
        // The value read is seen in a comparison: the checksum is not worked out by hand.
        let read = format!("if H[{index}] = {} -> skip fi", expected.unwrap_or(0));
        for (text, node) in [(format!("H[{index}] := 7"), 1), (format!("A[0] := H[{index}]"), 1), (read, 2)] {
            let told = match expected {
                Ok(_) => format!("taken; node {node} count 1 memory"),
                Err(reason) => format!("undefined {reason}; node 0 count 0 memory"),
            };
            out.known(&format!("{text} of 512"), &file_of(names, &text), &on(&memory, &steps(&[0])), &told);
        }
    }
    // An index that is itself an element, and a store through it.
    let memory = [9, 2, 0, 1];
    assigns(out, "x A3", "x := A[A[A[0]]]", &memory, Ok(0));
    one_step(out, "x A3", "A[A[2]] := A[0] + 5", &memory, 0, Ok((1, &[9, 2, 7, 1])));
    one_step(out, "x A3", "A[A[0] + 1] := 5", &memory, 0, Err(35));
    // A store's value and index are of the memory before it.
    one_step(out, "x A3", "A[A[1]] := A[A[1]] - 1", &memory, 0, Ok((1, &[9, 1, 0, 1])));
    one_step(out, "x A3", "x := x + 1", &memory, 0, Ok((1, &[10, 2, 0, 1])));
}
