//! Runs and step calls through breaks and continues.

use super::*;

pub fn jumps(out: &mut Out) {
    out.group("jump");
    adding_and_counting_runs(out);
    adding_and_counting_steps(out);
    bodies(out);
    inner_loops(out);
    searches(out);
    longest(out);
}

fn runs(out: &mut Out, text: &str, memory: &[i32], budget: u16, expected: &str) {
    out.known(&format!("{text},{}, budget {budget}", spaced(memory)), &file_of("x y", text), &on(memory, &Ask::Budget(budget)), expected);
}

fn calls(out: &mut Out, text: &str, memory: &[i32], from: Run, arrows: &[u16], expected: &str) {
    let (file, ask) = (file_of("x y", text), Ask::Calls(from, arrows.to_vec()));
    out.known(&format!("{text},{}, from node {} and {}: calls{}", spaced(memory), from.node, from.count, spaced(arrows)), &file, &on(memory, &ask), expected);
}

const ELEMENTS: [i32; 10] = [3, 4, -1, 5, 0, -2, 0, 0, 0, 6];

/// The book's Example 2.25. Three assignments; five steps a round, of an element below zero four with a jump and five with a skip; the exit.
fn adding_and_counting_runs(out: &mut Out) {
    let elements = spaced(&ELEMENTS);
    let memory = [&[9, 8, 7], &ELEMENTS[..]].concat();
    for (jump, budget, expected) in [
        ("break", 65535, "answer 0; node 1 count 17 memory 3 7 2"),
        ("break", 17, "answer 0; node 1 count 17 memory 3 7 2"),
        ("break", 16, "answer 1; node 10 count 16 memory 3 7 2"),
        ("continue", 65535, "answer 0; node 1 count 52 memory 10 18 8"),
        ("continue", 52, "answer 0; node 1 count 52 memory 10 18 8"),
        ("continue", 51, "answer 1; node 4 count 51 memory 10 18 8"),
        ("continue", 16, "answer 1; node 10 count 16 memory 3 7 2"),
        ("continue", 17, "answer 1; node 4 count 17 memory 3 7 2"),
        ("skip", 65535, "answer 0; node 1 count 54 memory 10 18 10"),
        ("skip", 17, "answer 1; node 6 count 17 memory 3 7 2"),
    ] {
        let file = adding_and_counting(jump).bytes();
        out.known(&format!("adding and counting, {jump}, budget {budget}"), &file, &on(&memory, &Ask::Budget(budget)), &format!("{expected}{elements}"));
    }
    // With no element below zero all three are alike.
    let memory = [9, 8, 7, 1, 1, 1, 1, 1, 1, 1, 1, 1, 1];
    for jump in ["break", "continue", "skip"] {
        let expected = format!("answer 0; node 1 count 54 memory 10 10 10{}", " 1".repeat(10));
        out.known(&format!("adding and counting ones, {jump}"), &adding_and_counting(jump).bytes(), &on(&memory, &Ask::Budget(100)), &expected);
    }
}

/// Step by step to the jump, whose arrow is 9: with -5 first.
fn adding_and_counting_steps(out: &mut Out) {
    let elements = [&[-5], &ELEMENTS[..9]].concat();
    let memory = [&[9, 8, 7], &elements[..]].concat();
    let arrows = [0, 1, 2, 3, 4, 7, 8, 9, 3, 11];
    for (jump, last, node, count) in [
        ("break", "refused 15 at 0; refused 15 at 0", 1, 7),
        // Back at the loop's guard, which is true.
        ("continue", "taken; refused 15 at 0", 5, 8),
        ("skip", "refused 15 at 0; refused 15 at 0", 6, 7),
    ] {
        let before = format!("{}undefined 31; {}", "taken; ".repeat(4), "taken; ".repeat(3));
        let expected = format!("{before}{last}; node {node} count {count} memory 1 0 0{}", spaced(&elements));
        out.known(
            &format!("adding and counting, {jump}, calls{}", spaced(&arrows)),
            &adding_and_counting(jump).bytes(),
            &on(&memory, &steps(&arrows)),
            &expected,
        );
    }
}

/// A jump that is a loop's whole body, or its beginning, or its end.
fn bodies(out: &mut Out) {
    let arrived = "answer 0; node 1 count 2 memory 4 5";
    for text in ["do true -> break od", "do true -> break; x := 1 / 0 od", "do true -> break; continue od", "do x > 0 -> break [] true -> x := 9 od"] {
        runs(out, text, &[4, 5], 65535, arrived);
        runs(out, text, &[4, 5], 2, arrived);
        runs(out, text, &[4, 5], 1, "answer 1; node 2 count 1 memory 4 5");
        runs(out, text, &[4, 5], 0, "answer 1; node 0 count 0 memory 4 5");
    }
    // A loop that is never left, and never stuck: two steps a round.
    for text in ["do true -> continue od", "do true -> continue; x := 1 / 0 od", "do true -> continue; break od"] {
        runs(out, text, &[4, 5], 65535, "answer 1; node 2 count 65535 memory 4 5");
        runs(out, text, &[4, 5], 65534, "answer 1; node 0 count 65534 memory 4 5");
    }
    // The loop is left before its guard is false, and where that is false at once.
    runs(out, "do x > 0 -> x := x - 1; break od", &[4, 5], 9, "answer 0; node 1 count 3 memory 3 5");
    runs(out, "do x > 0 -> x := x - 1; break od", &[0, 5], 9, "answer 0; node 1 count 1 memory 0 5");
    runs(out, "do x > 0 -> x := x - 1; continue od", &[4, 5], 65535, "answer 0; node 1 count 13 memory 0 5");
    // What follows the loop is what a break goes to.
    runs(out, "do true -> break od; x := 7", &[4, 5], 9, "answer 0; node 1 count 3 memory 7 5");
    runs(
        out,
        "x := 2; do x > 0 -> x := x - 1; if x > 0 -> continue [] true -> break fi; y := 9 od; x := 7",
        &[4, 5],
        99,
        "answer 0; node 1 count 10 memory 7 5",
    );
    // An undefined action before the jump stops the run there; the jump itself is always defined.
    runs(out, "do true -> x := 1 / 0; break od", &[4, 5], 9, "answer 2; node 2 count 1 memory 4 5");
    runs(out, "do true -> if x > 4 -> break fi od", &[4, 5], 9, "answer 2; node 2 count 1 memory 4 5");
    let (fresh, late) = (FRESH, Run { node: 2, count: 65534 });
    calls(
        out,
        "do true -> break od",
        &[4, 5],
        fresh,
        &[2, 1, 0, 2, 1, 1],
        "undefined 31; refused 15 at 0; taken; refused 15 at 0; taken; refused 15 at 0; node 1 count 2 memory 4 5",
    );
    calls(out, "do true -> continue od", &[4, 5], fresh, &[0, 1, 0, 1, 1, 0], "taken; taken; taken; taken; refused 15 at 0; taken; node 2 count 5 memory 4 5");
    calls(out, "do true -> continue od", &[4, 5], late, &[1, 0, 1], "taken; taken; taken; node 0 count 65535 memory 4 5");
    // The node after a jump is in the graph: a run may be handed in there.
    let after = Run { node: 3, count: 7 };
    calls(out, "do true -> break; x := 9 od", &[4, 5], after, &[1, 2, 0, 1], "refused 15 at 0; taken; taken; taken; node 1 count 10 memory 9 5");
    calls(out, "do true -> continue; x := 1 / 0 od", &[4, 5], after, &[2], "undefined 32; node 3 count 7 memory 4 5");
    calls(out, "do true -> break; x := 9 od", &[4, 5], Run { node: 4, count: 7 }, &[2], "refused 14 at 0; node 4 count 7 memory 4 5");
}

/// "The innermost do around it": the other one goes on.
fn inner_loops(out: &mut Out) {
    // Four steps a round, and the exit.
    runs(out, "do x > 0 -> do y > 0 -> break od; x := x - 1 od", &[2, 1], 99, "answer 0; node 1 count 9 memory 0 1");
    runs(out, "do x > 0 -> do y > 0 -> continue od; x := x - 1 od", &[2, 1], 99, "answer 1; node 2 count 99 memory 2 1");
    runs(out, "do x > 0 -> do y > 0 -> break od; x := x - 1 od", &[2, 0], 99, "answer 0; node 1 count 7 memory 0 0");
    runs(out, "do x > 0 -> do y > 0 -> y := y - 1; continue od; x := x - 1; break od", &[2, 2], 99, "answer 0; node 1 count 10 memory 1 0");
    // The inner loop ends where the outer one begins.
    runs(out, "do x > 0 -> do true -> x := x - 1; break od od", &[3, 1], 99, "answer 0; node 1 count 13 memory 0 1");
    runs(out, "do true -> do true -> break od od", &[3, 1], 65535, "answer 1; node 0 count 65535 memory 3 1");
    runs(out, "do true -> do true -> continue od od", &[3, 1], 65535, "answer 1; node 2 count 65535 memory 3 1");
    runs(out, "do true -> do true -> do true -> break od; break od; break od", &[3, 1], 99, "answer 0; node 1 count 6 memory 3 1");
    // Arrows: 0 to 2; 2 to 4; 4 to 3 the break; 2 to 3 the inner exit; 3 to 0; 0 to 1 the exit.
    let text = "do x > 0 -> do y > 0 -> break od; x := x - 1 od";
    calls(out, text, &[1, 1], FRESH, &[0, 3, 1, 2, 4, 0, 5], "taken; undefined 31; taken; taken; taken; undefined 31; taken; node 1 count 5 memory 0 1");
}

/// A loop left at the first element that is sought, from either end; and one that goes past those that are not.
fn searches(out: &mut Out) {
    let find = "t := -1; i := 0; do 4 > i -> if A[i] = x -> t := i; break [] !(A[i] = x) -> skip fi; i := i + 1 od";
    let file = file_of("t i x A4", find);
    // Two assignments; four steps for an element that is passed, and four for the one that is found; or the exit.
    for (x, expected) in [
        (5, "answer 0; node 1 count 6 memory 0 0 5 5 7 7 2"),
        (7, "answer 0; node 1 count 10 memory 1 1 7 5 7 7 2"),
        (2, "answer 0; node 1 count 18 memory 3 3 2 5 7 7 2"),
        (3, "answer 0; node 1 count 19 memory -1 4 3 5 7 7 2"),
    ] {
        out.known(&format!("{x} sought"), &file, &on(&[9, 9, x, 5, 7, 7, 2], &Ask::Budget(200)), expected);
    }
    let skip = "i := -1; x := 0; do 3 > i -> i := i + 1; if 0 > A[i] -> continue [] A[i] >= 0 -> skip fi; x := x + A[i] od";
    // Five steps for an element that is added, four for one that is not.
    let file = file_of("i x A4", skip);
    for (elements, steps, sum) in [([1, 2, 3, 4], 23, 10), ([-1, 2, -3, 4], 21, 6), ([-1, -2, -3, -4], 19, 0)] {
        let expected = format!("answer 0; node 1 count {steps} memory 3 {sum}{}", spaced(&elements));
        out.known(
            &format!("those of{} that are not below zero", spaced(&elements)),
            &file,
            &on(&[&[9, 9], &elements[..]].concat(), &Ask::Budget(200)),
            &expected,
        );
    }
}

/// The innermost of 127 loops goes from 127 to 126, and its guard's node is 128: three steps around with a break, two with a continue.
fn longest(out: &mut Out) {
    for (kind, word, nodes) in [(BREAK, "break", vec![128, 126, 127]), (CONTINUE, "continue", vec![128, 127])] {
        let file = loops_about(kind, 127).bytes();
        for budget in [126u16, 127, 128, 129, 130, 65535] {
            let node = if budget < 127 { 127 } else { nodes[usize::from(budget - 127) % nodes.len()] };
            out.known(
                &format!("127 loops about a {word}, {budget}"),
                &file,
                &on(&[9], &Ask::Budget(budget)),
                &format!("answer 1; node {node} count {budget} memory 9"),
            );
        }
    }
    let file = jumps_in_a_loop(127, 0).bytes();
    out.known("127 jumps, the first a break", &file, &on(&[9], &Ask::Budget(65535)), "answer 0; node 1 count 2 memory 9");
}
