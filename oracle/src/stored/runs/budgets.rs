//! Budgets: 0, one short, exact, 65,535, and runs of 65,535 steps.

use super::*;

/// A script on a memory with one budget after another.
fn budgeted(out: &mut Out, names: &str, text: &str, memory: &[i32], cases: &[(u16, &str)]) {
    let file = file_of(names, text);
    for &(budget, expected) in cases {
        out.known(&format!("{budget}, {text},{}", spaced(memory)), &file, &on(memory, &Ask::Budget(budget)), expected);
    }
}

pub fn budgets(out: &mut Out) {
    out.group("budget");
    factorial_budgets(out);
    short_budgets(out);
    long_budgets(out);
}

fn factorial_budgets(out: &mut Out) {
    let arrived = "answer 0; node 1 count 11 memory 0 6";
    budgeted(
        out,
        "x y",
        "y := 1; do x > 0 -> y := x * y; x := x - 1 od",
        &[3, 0],
        &[
            (0, "answer 1; node 0 count 0 memory 3 0"),
            (1, "answer 1; node 2 count 1 memory 3 1"),
            (2, "answer 1; node 3 count 2 memory 3 1"),
            (9, "answer 1; node 4 count 9 memory 1 6"),
            (10, "answer 1; node 2 count 10 memory 0 6"),
            (11, arrived),
            (12, arrived),
            (65535, arrived),
        ],
    );
    // 13 factorial is out of range, 12 factorial is not: the run stops at the product.
    budgeted(
        out,
        "x y",
        "y := 1; do x > 0 -> y := x * y; x := x - 1 od",
        &[12, 0],
        &[(37, "answer 1; node 2 count 37 memory 0 479001600"), (38, "answer 0; node 1 count 38 memory 0 479001600")],
    );
    budgeted(out, "x y", "y := 1; do x > 0 -> y := x * y; x := x - 1 od", &[13, 0], &[(65535, "answer 2; node 3 count 32 memory 3 1037836800")]);
}

fn short_budgets(out: &mut Out) {
    budgeted(
        out,
        "x",
        "skip",
        &[4],
        &[(0, "answer 1; node 0 count 0 memory 4"), (1, "answer 0; node 1 count 1 memory 4"), (2, "answer 0; node 1 count 1 memory 4")],
    );
    // 0 before 1, and 1 before 2.
    budgeted(out, "x", "x := 1; x := 2", &[4], &[(1, "answer 1; node 2 count 1 memory 1"), (2, "answer 0; node 1 count 2 memory 2")]);
    let stuck = "answer 2; node 0 count 0 memory 0";
    budgeted(out, "x", "if x > 0 -> skip fi", &[0], &[(0, "answer 1; node 0 count 0 memory 0"), (1, stuck), (65535, stuck)]);
    budgeted(
        out,
        "x",
        "x := 1; x := 1 / 0",
        &[4],
        &[(0, "answer 1; node 0 count 0 memory 4"), (1, "answer 1; node 2 count 1 memory 1"), (2, "answer 2; node 2 count 1 memory 1")],
    );
}

fn long_budgets(out: &mut Out) {
    // Two steps a round and one for the exit: 32,767 rounds are 65,535 steps.
    let down = "do x > 0 -> x := x - 1 od";
    budgeted(
        out,
        "x",
        down,
        &[32767],
        &[
            (65535, "answer 0; node 1 count 65535 memory 0"),
            (65534, "answer 1; node 0 count 65534 memory 0"),
            (65533, "answer 1; node 2 count 65533 memory 1"),
            (0, "answer 1; node 0 count 0 memory 32767"),
        ],
    );
    budgeted(out, "x", down, &[32768], &[(65535, "answer 1; node 2 count 65535 memory 1")]);
    budgeted(out, "x", down, &[32766], &[(65535, "answer 0; node 1 count 65533 memory 0")]);
    budgeted(
        out,
        "x",
        "do true -> skip od",
        &[5],
        &[(65535, "answer 1; node 2 count 65535 memory 5"), (65534, "answer 1; node 0 count 65534 memory 5"), (256, "answer 1; node 0 count 256 memory 5")],
    );
    budgeted(
        out,
        "x A64",
        "do true -> A[x] := A[x] + 1; x := x + 1; if x = 64 -> x := 0 [] !x = 64 -> skip fi od",
        &[0; 65],
        &[(65535, "answer 1; node 0 count 65535 memory")],
    );
    // The divisor is zero in the end: after 65,533 steps, or where the budget is used up.
    let stuck = "do x >= 0 -> x := (x - 1) / (x / x) od";
    budgeted(out, "x", stuck, &[32766], &[(65535, "answer 2; node 2 count 65533 memory 0"), (65533, "answer 1; node 2 count 65533 memory 0")]);
    budgeted(out, "x", stuck, &[32767], &[(65535, "answer 1; node 2 count 65535 memory 0")]);
}
