//! Guards that overlap or are undefined: where the two graphs differ, and where they do not.

use super::*;

pub fn overlaps(out: &mut Out) {
    out.group("overlap");
    larger_of_two(out);
    ten_five_or_zero(out);
    undefined_guards(out);
    loops_of_two_guards(out);
    with_jumps(out);
}

/// A run on each graph by name, with the answer of each.
fn runs(out: &mut Out, names: &str, text: &str, memory: &[i32], budget: u16, expected: [&str; 2]) {
    let file = file_of(names, text);
    for (construction, expected) in CONSTRUCTIONS.into_iter().zip(expected) {
        known(out, construction, &format!("{text},{}, budget {budget}", spaced(memory)), &file, memory, &Ask::Budget(budget), expected);
    }
}

/// Step calls from a fresh run on each graph.
fn calls(out: &mut Out, names: &str, text: &str, memory: &[i32], arrows: &[u16], expected: [&str; 2]) {
    let file = file_of(names, text);
    for (construction, expected) in CONSTRUCTIONS.into_iter().zip(expected) {
        known(out, construction, &format!("{text},{}, calls{}", spaced(memory), spaced(arrows)), &file, memory, &steps(arrows), expected);
    }
}

/// Both arrows are defined where the numbers are equal; on the deterministic graph the first alone.
fn larger_of_two(out: &mut Out) {
    let text = "if x >= y -> z := x [] y >= x -> z := y fi";
    for (memory, larger) in [([5, 5, 0], 5), ([7, 5, 0], 7), ([5, 7, 0], 7), ([-3, -3, 0], -3)] {
        let [x, y, _] = memory;
        let arrived = format!("node 1 count 2 memory {x} {y} {larger}");
        runs(out, "x y z", text, &memory, 2, [&format!("answer 0; {arrived}"); 2]);
        let taken = format!("taken; taken; {arrived}");
        let not_taken = format!("undefined 31; refused 15 at 0; node 0 count 0 memory {x} {y} 0");
        let either = |is_taken: bool| if is_taken { &taken[..] } else { &not_taken[..] };
        calls(out, "x y z", text, &memory, &[0, 1], [either(x >= y), either(x >= y)]);
        calls(out, "x y z", text, &memory, &[2, 3], [either(y >= x), either(y > x)]);
    }
}

/// Document 002's example.
fn ten_five_or_zero(out: &mut Out) {
    let text = "if x >= 10 -> y := 10 [] x >= 5 -> y := 5 [] x >= 0 -> y := 0 fi";
    for x in [12, 10, 9, 5, 4, 0, -1] {
        let least = [10, 5, 0];
        let first = least.iter().position(|&n| x >= n);
        let stuck = format!("answer 2; node 0 count 0 memory {x} 7");
        let run = first.map_or(stuck, |k| format!("answer 0; node 1 count 2 memory {x} {}", least[k]));
        runs(out, "x y", text, &[x, 7], 9, [&run; 2]);
        for (k, &n) in least.iter().enumerate() {
            let told = |holds: bool| {
                let (outcome, node, count) = if holds { ("taken", k + 2, 1) } else { ("undefined 31", 0, 0) };
                format!("{outcome}; node {node} count {count} memory {x} 7")
            };
            calls(out, "x y", text, &[x, 7], &[2 * k as u16], [&told(x >= n), &told(first == Some(k))]);
        }
    }
}

/// A guard that is undefined beside one that is true, before it and after it.
fn undefined_guards(out: &mut Out) {
    let text = "if true -> x := 1 [] y / 0 = 0 -> x := 2 fi";
    runs(out, "x y", text, &[9, 8], 9, ["answer 0; node 1 count 2 memory 1 8"; 2]);
    calls(out, "x y", text, &[9, 8], &[2, 0, 1], ["undefined 32; taken; taken; node 1 count 2 memory 1 8"; 2]);
    let text = "if y / 0 = 0 -> x := 1 [] true -> x := 2 fi";
    runs(out, "x y", text, &[9, 8], 9, ["answer 0; node 1 count 2 memory 2 8", "answer 2; node 0 count 0 memory 9 8"]);
    calls(
        out,
        "x y",
        text,
        &[9, 8],
        &[0, 2, 3],
        ["undefined 32; taken; taken; node 1 count 2 memory 2 8", "undefined 32; undefined 32; refused 15 at 0; node 0 count 0 memory 9 8"],
    );
    // Two undefined guards, and a false one: the first in text order gives the reason.
    let text = "if 0 > 1 -> skip [] A[x] = 0 -> skip [] x / y = 0 -> skip [] 2 ^ x = 0 -> skip fi";
    let told = |reasons: [u32; 4], x: i32| format!("{}node 0 count 0 memory {x} 0 5", reasons.map(|reason| format!("undefined {reason}; ")).concat());
    for (x, alone, joined) in [(-1, [31, 34, 32, 33], [31, 34, 34, 34]), (1, [31, 35, 32, 31], [31, 35, 35, 35]), (0, [31, 31, 32, 31], [31, 31, 32, 32])] {
        calls(out, "x y A1", text, &[x, 0, 5], &[0, 2, 4, 6], [&told(alone, x), &told(joined, x)]);
    }
    let reversed = "if 2 ^ x = 0 -> skip [] x / y = 0 -> skip [] A[x] = 0 -> skip [] 0 > 1 -> skip fi";
    for (x, alone, joined) in [(-1, [33, 32, 34, 31], [33, 33, 33, 33]), (40, [36, 32, 35, 31], [36, 36, 36, 36])] {
        calls(out, "x y A1", reversed, &[x, 0, 5], &[0, 2, 4, 6], [&told(alone, x), &told(joined, x)]);
    }
    // && inside a guard hides what it hides everywhere, and ∧ does not.
    let hidden = |word: &str| format!("if (x > 0) {word} (A[x - 1] > 0) -> x := 1 [] true -> x := 2 fi");
    runs(out, "x A2", &hidden("&&"), &[0, 5, 5], 9, ["answer 0; node 1 count 2 memory 2 5 5"; 2]);
    runs(out, "x A2", &hidden("and"), &[0, 5, 5], 9, ["answer 0; node 1 count 2 memory 2 5 5", "answer 2; node 0 count 0 memory 0 5 5"]);
}

fn loops_of_two_guards(out: &mut Out) {
    // Two steps a round and the exit.
    let text = "do x > 0 -> x := x - 1 [] x > 1 -> x := x - 2 od";
    runs(out, "x", text, &[3], 99, ["answer 0; node 1 count 7 memory 0"; 2]);
    calls(
        out,
        "x",
        text,
        &[3],
        &[2, 3, 0, 1, 4],
        ["taken; taken; taken; taken; taken; node 1 count 5 memory 0", "undefined 31; refused 15 at 0; taken; taken; undefined 31; node 0 count 2 memory 2"],
    );
    // The first guard is undefined once x is zero: the second goes on from there on one graph alone.
    let text = "do 6 / x > 1 -> x := x - 1 [] x = 0 -> x := -1 od";
    runs(out, "x", text, &[3], 99, ["answer 0; node 1 count 9 memory -1", "answer 2; node 0 count 6 memory 0"]);
    runs(out, "x", text, &[3], 6, ["answer 1; node 0 count 6 memory 0"; 2]);
    calls(
        out,
        "x",
        text,
        &[0],
        &[4, 0, 2],
        ["undefined 32; undefined 32; taken; node 3 count 1 memory 0", "undefined 32; undefined 32; undefined 32; node 0 count 0 memory 0"],
    );
    // The guards of a loop in a loop's body are its own: the outer ones are true and do not count.
    let text = "do x > 0 -> do y > 0 -> y := y - 1 [] y > 1 -> y := y - 2 od; x := x - 1 [] x > 0 -> x := 0 od";
    runs(out, "x y", text, &[2, 2], 99, ["answer 0; node 1 count 11 memory 0 0"; 2]);
    // Arrows: 0 to 2; 2 to 4; 4 to 2; 2 to 5; 5 to 2; 2 to 3 the inner exit; 3 to 0; 0 to 6; 6 to 0; 0 to 1 the exit.
    calls(
        out,
        "x y",
        text,
        &[2, 2],
        &[7, 8, 0, 3, 1, 2],
        [
            "taken; taken; undefined 31; refused 15 at 0; refused 15 at 0; refused 15 at 0; node 0 count 2 memory 0 2",
            "undefined 31; refused 15 at 0; taken; undefined 31; taken; taken; node 2 count 3 memory 2 1",
        ],
    );
}

fn with_jumps(out: &mut Out) {
    let text = "do x > 0 -> break [] true -> x := 9 od";
    runs(out, "x y", text, &[4, 5], 9, ["answer 0; node 1 count 2 memory 4 5"; 2]);
    runs(out, "x y", text, &[0, 5], 9, ["answer 0; node 1 count 4 memory 9 5"; 2]);
    calls(
        out,
        "x y",
        text,
        &[4, 5],
        &[2, 3, 0, 1],
        ["taken; taken; taken; taken; node 1 count 4 memory 9 5", "undefined 31; refused 15 at 0; taken; taken; node 1 count 2 memory 4 5"],
    );
    let text = "do true -> if 1 / x > 0 -> continue [] x = 0 -> break [] true -> x := x + 1 fi od";
    runs(out, "x y", text, &[-2, 5], 99, ["answer 0; node 1 count 9 memory 0 5", "answer 2; node 2 count 7 memory 0 5"]);
    for (jump, budget, ending) in [("break", 17, "answer 0; node 1 count 17 memory 3 7 2"), ("continue", 52, "answer 0; node 1 count 52 memory 10 18 8")] {
        let elements = [3, 4, -1, 5, 0, -2, 0, 0, 0, 6];
        let memory = [&[9, 8, 7], &elements[..]].concat();
        for construction in CONSTRUCTIONS {
            let (title, file) = (format!("adding and counting, {jump}"), adding_and_counting(jump).bytes());
            known(out, construction, &title, &file, &memory, &Ask::Budget(budget), &format!("{ending}{}", spaced(&elements)));
        }
    }
}
