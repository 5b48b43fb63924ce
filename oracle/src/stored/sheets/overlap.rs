//! Guards that overlap or are undefined: sheets on which the two graphs differ, and some on which they do not.

use super::*;

pub fn overlaps(out: &mut Out) {
    out.group("overlap");
    larger_of_two(out);
    ten_five_or_zero(out);
    second_guards(out);
    loops_and_jumps(out);
    nested(out);
    judged(out);
    indexed(out);
}

/// A start list solved on each graph by name, with the sheet of each.
fn both(out: &mut Out, names: &str, text: &str, initial: &str, sheets: [&str; 2], mark: Mark) {
    for (construction, sheet) in CONSTRUCTIONS.into_iter().zip(sheets) {
        finishes_on(out, construction, &format!("{text} from {initial}"), &file_of(names, text), &starts(initial), &sheet_of(sheet), mark);
    }
}

/// Of two numbers that are zero both guards are true, and only the first one's arrow counts on the deterministic graph.
fn larger_of_two(out: &mut Out) {
    let text = "if x >= y -> z := x [] y >= x -> z := y fi";
    both(out, "x y z", text, "2 2 1", ["0 2 2 1; 2 2 2 1; 3 2 2 1; 1 2 2 2", "0 2 2 1; 2 2 2 1; 1 2 2 2"], CLEAN);
    both(out, "x y z", text, "4 4 2", ["0 4 4 2; 2 4 4 2; 3 4 4 2; 1 4 4 4"; 2], CLEAN);
    both(out, "x y z", text, "4 2 2", ["0 4 2 2; 2 4 2 2; 1 4 2 4"; 2], CLEAN);
    both(out, "x y z", text, "1 2 2", ["0 1 2 2; 3 1 2 2; 1 1 2 2"; 2], CLEAN);
}

/// Document 002's example, and with its guards from the last to the first.
fn ten_five_or_zero(out: &mut Out) {
    let text = "if x >= 10 -> y := 10 [] x >= 5 -> y := 5 [] x >= 0 -> y := 0 fi";
    both(out, "x y", text, "4 2", ["0 4 2; 2 4 2; 3 4 2; 4 4 2; 1 4 4; 1 4 2"; 2], CLEAN);
    both(out, "x y", text, "2 4", ["0 2 4; 4 2 4; 1 2 2"; 2], CLEAN);
    both(out, "x y", text, "1 2", ["0 1 2"; 2], CLEAN);
    let text = "if x >= 0 -> y := 0 [] x >= 5 -> y := 5 [] x >= 10 -> y := 10 fi";
    both(out, "x y", text, "4 1", ["0 4 1; 2 4 1; 3 4 1; 4 4 1; 1 4 2; 1 4 4", "0 4 1; 2 4 1; 1 4 2"], CLEAN);
}

/// A second guard that is true, where the first is true, may be, is false, and has no answer.
fn second_guards(out: &mut Out) {
    let text = |first: &str| format!("if {first} -> skip [] true -> x := 0 fi");
    both(out, "x A4", &text("x > 0"), "4 7", ["0 4 7; 2 4 7; 3 4 7; 1 4 7; 1 2 7", "0 4 7; 2 4 7; 1 4 7"], CLEAN);
    both(out, "x A4", &text("x > 1"), "4 7", ["0 4 7; 2 4 7; 3 4 7; 1 4 7; 1 2 7"; 2], CLEAN);
    both(out, "x A4", &text("0 > x"), "4 7", ["0 4 7; 3 4 7; 1 2 7"; 2], CLEAN);
    both(out, "x A4", &text("x / 0 > 0"), "4 7", ["0 4 7; 3 4 7; 1 2 7", "0 4 7"], CLEAN);
    both(out, "x A4", &text("A[0 - x] > 0"), "4 7", ["0 4 7; 3 4 7; 1 2 7", "0 4 7"], Some((0, 0)));
    // Without an answer of an earlier guard there is none of any later one; && has one where its left side is false.
    both(out, "x A4", &text("0 > x and A[-1] > 0"), "4 7", ["0 4 7; 3 4 7; 1 2 7", "0 4 7"], Some((0, 0)));
    both(out, "x A4", &text("0 > x && A[-1] > 0"), "4 7", ["0 4 7; 3 4 7; 1 2 7"; 2], Some((0, 0)));
    let three = "if x > 1 -> skip [] x / 0 > 0 -> skip [] true -> x := 0 fi";
    both(out, "x A4", three, "4 7", ["0 4 7; 2 4 7; 4 4 7; 1 4 7; 1 2 7", "0 4 7; 2 4 7; 1 4 7"], CLEAN);
}

fn loops_and_jumps(out: &mut Out) {
    let text = "do x > 0 -> x := x - 1 [] true -> break od";
    both(out, "x", text, "4", ["0 4; 2 4; 3 4; 0 1; 0 2; 1 4; 3 1; 3 2; 1 1; 1 2", "0 4; 2 4; 0 1; 0 2; 3 1; 3 2; 1 1; 1 2"], CLEAN);
    let text = "do x > 0 -> x := 0 [] x >= 0 -> continue od";
    both(out, "x", text, "4", ["0 4; 2 4; 3 4; 0 2; 3 2", "0 4; 2 4; 0 2; 3 2"], CLEAN);
    // Exits stay: all guards may be false, though no arrow of a guard has a result.
    both(out, "x", "do 0 > x -> skip [] x > 4 -> x := 0 od", "4", ["0 4; 3 4; 1 4; 0 2; 1 2"; 2], CLEAN);
    both(out, "x", "do x > 0 -> skip [] x / 0 = 0 -> skip od", "1", ["0 1"; 2], CLEAN);
    // The loop is left by its exit where the first guard fails; the second is never reached where the first holds.
    let text = "do x > 0 -> x := x - 1 [] x > 0 -> x := -1 od";
    both(out, "x", text, "4", ["0 4; 2 4; 3 4; 0 1; 0 2; 1 1; 1 2", "0 4; 2 4; 0 1; 0 2; 1 1; 1 2"], CLEAN);
}

/// A body begins with no earlier guard, and choices nested in any way have all that is to their left.
fn nested(out: &mut Out) {
    let text = "if x > 0 -> if x > 0 -> skip [] true -> x := 0 fi [] true -> x := -1 fi";
    // Arrows: 0 to 2; 2 to 3; 3 to 1; 2 to 4; 4 to 1; 0 to 5; 5 to 1.
    both(out, "x", text, "4", ["0 4; 2 4; 5 4; 3 4; 4 4; 1 1; 1 4; 1 2", "0 4; 2 4; 3 4; 1 4"], CLEAN);
    for arms in ["x > 1 -> skip [] { x > 0 -> skip [] true -> x := 0 }", "{ x > 1 -> skip [] x > 0 -> skip } [] true -> x := 0"] {
        both(out, "x", &format!("if {arms} fi"), "4", ["0 4; 2 4; 3 4; 4 4; 1 4; 1 2", "0 4; 2 4; 3 4; 1 4"], CLEAN);
    }
}

/// Sheets that are accepted on the one graph and not on the other: never the other way round.
fn judged(out: &mut Out) {
    let file = file_of("x", "if x > 0 -> skip [] true -> x := 0 fi");
    let no = "42 record 0 arrow 2; offending 0 0 4";
    let yes = "accepted index clean; offending";
    for (initial, sheet, expected) in [
        ("4", "0 4; 2 4; 1 4", [no, yes]),
        ("4", "0 4; 2 4; 3 4; 1 4; 1 2", [yes, yes]),
        ("4", "0 4; 2 4; 3 4; 1 4", ["42 record 2 arrow 3; offending 0 3 4"; 2]),
        ("4", "0 4; 1 4", ["42 record 0 arrow 0; offending 0 0 4"; 2]),
        ("4", "2 4; 1 4", ["41 record 0; offending 4"; 2]),
        ("1", "0 1; 3 1; 1 2", [yes, yes]),
        ("1", "0 1; 2 1; 1 1", ["42 record 0 arrow 2; offending 0 0 1"; 2]),
        ("4; 1", "0 4; 2 4; 1 4; 0 1; 3 1; 1 2", [no, yes]),
        ("", "2 4; 1 4; 0 4", ["42 record 2 arrow 2; offending 0 0 4", yes]),
    ] {
        for (construction, expected) in CONSTRUCTIONS.into_iter().zip(expected) {
            known_on(out, construction, &format!("judged, start {initial}, {sheet}"), &file, &judging(&starts(initial), &sheet_of(sheet)), expected);
        }
    }
    let file = file_of("x", "do x > 0 -> x := x - 1 [] x >= 0 -> skip [] true -> break od");
    // Arrows: 0 to 2; 2 to 0; 0 to 3; 3 to 0; 0 to 4; 4 to 1; 0 to 1.
    for (sheet, expected) in [
        ("0 4; 2 4; 0 1; 0 2; 3 2; 4 1; 1 1", ["42 record 0 arrow 2; offending 0 0 4", yes]),
        ("0 4; 2 4; 0 1; 0 2; 3 2; 3 4; 4 1; 1 1", ["42 record 0 arrow 4; offending 0 0 4", yes]),
        ("0 4; 2 4; 0 1; 0 2; 3 2; 3 4; 4 1; 4 4; 1 1; 1 4", ["42 record 3 arrow 4; offending 0 0 2", yes]),
        ("0 4; 2 4; 0 1; 0 2; 3 2; 3 4; 4 1; 4 4; 4 2; 1 1; 1 4; 1 2", [yes, yes]),
        ("0 4; 2 4; 0 1; 0 2; 3 2; 1 1", ["42 record 0 arrow 2; offending 0 0 4", "42 record 2 arrow 4; offending 0 0 1"]),
    ] {
        for (construction, expected) in CONSTRUCTIONS.into_iter().zip(expected) {
            known_on(out, construction, &format!("a loop judged, {sheet}"), &file, &judging(&[4], &sheet_of(sheet)), expected);
        }
    }
}

/// Marks: a later guard's action has the earlier ones' index expressions too, but the lowest arrow is the same.
fn indexed(out: &mut Out) {
    let text = "if A[x] > 0 -> skip [] y > 0 -> skip [] A[y] > 0 -> skip fi";
    let file = file_of("x y A4", text);
    for (sheet, mark) in
        [("0 1 4 7", Some((0, 0))), ("0 4 1 7", Some((0, 4))), ("0 4 4 7", CLEAN), ("1 1 1 7; 2 1 1 7; 0 4 4 7; 0 4 1 7; 0 1 1 7", Some((3, 4)))]
    {
        out.known(&format!("{text}, {sheet}"), &file, &marking(&sheet_of(sheet)), &told_mark(mark));
    }
    // Both accepted: the verdict has the mark.
    for (construction, sheet) in CONSTRUCTIONS.into_iter().zip(["0 1 4 7; 3 1 4 7; 4 1 4 7; 1 1 4 7", "0 1 4 7"]) {
        known_on(out, construction, "a mark in a verdict", &file, &judging(&starts("1 4 7"), &sheet_of(sheet)), "accepted index record 0 arrow 0; offending");
    }
    both(out, "x y A4", text, "1 4 7", ["0 1 4 7; 3 1 4 7; 4 1 4 7; 1 1 4 7", "0 1 4 7"], Some((0, 0)));
    both(out, "x y A4", text, "4 1 4", ["0 4 1 4; 2 4 1 4; 1 4 1 4"; 2], Some((0, 4)));
    both(out, "x y A4", text, "4 4 4", ["0 4 4 4; 2 4 4 4; 3 4 4 4; 4 4 4 4; 1 4 4 4", "0 4 4 4; 2 4 4 4; 1 4 4 4"], CLEAN);
}
