//! Breaks and continues: solved, judged and marked.

use super::*;

pub fn jumps(out: &mut Out) {
    out.group("jump");
    solved_loops(out);
    adding_and_counting_sheets(out);
    judged(out);
    marked(out);
    // 127 loops whose guards are true: each node but the end is reached.
    for (kind, word) in [(BREAK, "break"), (CONTINUE, "continue")] {
        let told = out.put(&format!("127 loops about a {word}"), &loops_about(kind, 127).bytes(), &solving(&[4], 400));
        assert!(told.starts_with("finished with 128; accepted index clean"), "{told}");
    }
}

/// A jump hands its record on, to the loop's last node or to its first.
fn solved_loops(out: &mut Out) {
    solves(out, "x", "do true -> break od", "4", "0 4; 2 4; 1 4", CLEAN);
    solves(out, "x", "do true -> continue od", "4", "0 4; 2 4", CLEAN);
    // The node after a jump has no record.
    solves(out, "x", "do true -> break; x := 0 od", "4; 1", "0 4; 0 1; 2 4; 2 1; 1 4; 1 1", CLEAN);
    solves(out, "x", "do true -> continue; x := 0 od", "4", "0 4; 2 4", CLEAN);
    solves(out, "x", "do x > 0 -> x := x - 1; break od", "4", "0 4; 2 4; 3 1; 3 2; 3 4; 1 1; 1 2; 1 4", CLEAN);
    for jump in ["continue", "skip"] {
        solves(out, "x", &format!("do x > 0 -> x := x - 1; {jump} od"), "4", "0 4; 2 4; 3 1; 3 2; 3 4; 0 1; 0 2; 1 1; 1 2", CLEAN);
    }
    // The exit's record and the break's meet.
    solves(out, "x", "do x > x -> break od", "4", "0 4; 2 4; 1 4", CLEAN);
    solves(out, "x", "do x > 0 -> break [] 0 > x -> continue [] true -> x := 1 od", "1", "0 1; 3 1; 4 1; 0 4; 2 4; 4 4; 1 4", CLEAN);
    // The innermost loop counts.
    let nested = |jump: &str| format!("do x > 0 -> do y > 0 -> {jump} od; x := x - 1 od");
    solves(out, "x y", &nested("break"), "4 4", NESTED, CLEAN);
    solves(out, "x y", &nested("continue"), "4 4", "0 4 4; 2 4 4; 4 4 4", CLEAN);
    for jump in ["break", "continue"] {
        solves(out, "x y", &nested(jump), "4 2", "0 4 2; 2 4 2; 3 4 2; 0 1 2; 0 2 2; 1 1 2; 1 2 2", CLEAN);
    }
    solves(out, "x", "do true -> do true -> break od od", "4", "0 4; 2 4; 3 4", CLEAN);
    solves(out, "x", "do true -> do true -> break od; break od", "4", "0 4; 2 4; 4 4; 3 4; 1 4", CLEAN);
    // Room for each record but the break's.
    let around = file_of("x", "do true -> break od");
    out.known("no room for a break's result", &around, &solving(&[4], 8), "refused 18 at 0 with 2; 0 0 4; 0 2 4; 42 record 1 arrow 1");
}

/// "do x > 0 -> do y > 0 -> break od; x := x - 1 od" from 4 4.
const NESTED: &str = "0 4 4; 2 4 4; 4 4 4; 3 4 4; 0 1 4; 0 2 4; 1 1 4; 1 2 4";

/// The book's Example 2.25, of names i, x, y and A. With all elements above zero the jump is not met.
fn adding_and_counting_sheets(out: &mut Out) {
    let sheet = |first: &str, rest: &str| sheet_of(&format!("0 {first}; 2 {first}; 3 {first}; 4 {first}; 5 {first}; {rest}"));
    let above = "7 2 2 2 4; 8 2 4 2 4; 6 4 4 2 4; 4 4 4 4 4; 5 4 4 4 4; 1 4 4 4 4; 7 4 4 4 4; 8 4 4 4 4; 6 4 4 4 4";
    // With all below zero it is met at once: the loop is left, or goes on with y zero for ever, or counts what it does not add.
    for (jump, below) in [
        ("break", "9 2 2 2 1; 10 4 2 2 1; 1 4 2 2 1"),
        ("continue", "9 2 2 2 1; 10 4 2 2 1; 4 4 2 2 1; 5 4 2 2 1; 1 4 2 2 1; 9 4 2 2 1"),
        ("skip", "9 2 2 2 1; 10 4 2 2 1; 6 4 2 2 1; 4 4 2 4 1; 5 4 2 4 1; 1 4 2 4 1; 9 4 2 4 1; 10 4 2 4 1; 6 4 2 4 1"),
    ] {
        let file = adding_and_counting(jump).bytes();
        finishes(out, &format!("adding and counting, {jump}, above zero"), &file, &[2, 2, 2, 4], &sheet("2 2 2 4", above), CLEAN);
        finishes(out, &format!("adding and counting, {jump}, below zero"), &file, &[2, 2, 2, 1], &sheet("2 2 2 1", below), CLEAN);
    }
}

/// 42 where a jump's result is missing at its target, whatever is at other nodes.
fn judged(out: &mut Out) {
    let file = file_of("x", "do true -> break od");
    for (sheet, expected) in [
        ("0 4; 2 4; 1 4", "accepted index clean; offending"),
        ("1 4; 2 4; 0 4", "accepted index clean; offending"),
        ("0 4; 2 4", "42 record 1 arrow 1; offending 0 2 4"),
        ("0 4; 2 4; 1 2", "42 record 1 arrow 1; offending 0 2 4"),
        ("0 4; 1 4", "42 record 0 arrow 0; offending 0 0 4"),
    ] {
        judges(out, &format!("break, {sheet}"), &file, "4", sheet, expected);
    }
    let file = file_of("x", "do true -> continue od");
    for (initial, sheet, expected) in [
        ("4", "0 4; 2 4", "accepted index clean; offending"),
        ("4", "0 4; 2 4; 1 4", "accepted index clean; offending"),
        ("", "2 4; 1 4", "42 record 0 arrow 1; offending 0 2 4"),
        ("4", "0 4; 2 4; 2 1", "42 record 2 arrow 1; offending 0 2 1"),
    ] {
        judges(out, &format!("continue, start {initial}, {sheet}"), &file, initial, sheet, expected);
    }
    // A record at the node that a jump leaves unreached is asked about as any other.
    let file = file_of("x", "do true -> break; x := 0 od");
    judges(out, "unreached", &file, "4", "0 4; 2 4; 1 4; 3 4", "42 record 3 arrow 2; offending 0 3 4");
    judges(out, "unreached, with its results", &file, "4", "0 4; 2 4; 1 4; 3 4; 0 2; 2 2; 1 2", "accepted index clean; offending");
    let nested = file_of("x y", "do x > 0 -> do y > 0 -> break od; x := x - 1 od");
    judges(out, "nested", &nested, "4 4", NESTED, "accepted index clean; offending");
    judges(out, "nested, the break's result at the outer loop's end", &nested, "4 4", "0 4 4; 2 4 4; 4 4 4; 1 4 4", "42 record 2 arrow 2; offending 0 4 4 4");
}

/// A jump has no index expression; what comes before and after it has its own.
fn marked(out: &mut Out) {
    let test = "do true -> if A[x] > 0 -> break [] true -> continue fi od";
    for (text, sheet, mark) in [
        ("do true -> break; x := A[x] od", "2 1 7; 0 1 7; 1 1 7", CLEAN),
        ("do true -> break; x := A[x] od", "2 1 7; 3 4 7; 3 1 7", Some((2, 2))),
        ("do true -> x := A[x]; continue od", "3 1 7; 2 1 7", Some((1, 1))),
        ("do A[x] > 0 -> break od", "2 1 7; 0 1 7", Some((1, 0))),
        (test, "0 1 7; 2 1 7", Some((1, 1))),
        (test, "0 1 7; 3 1 7; 4 1 7; 1 1 7", CLEAN),
    ] {
        out.known(&format!("{text}, {sheet}"), &file_of("x A4", text), &marking(&sheet_of(sheet)), &told_mark(mark));
    }
    // The index is below zero only once the loop has gone around.
    let back = "do true -> if A[x] > 0 -> break [] 0 >= A[x] -> x := -1; continue fi od";
    solves(out, "x A4", back, "2 3", "0 2 3; 2 2 3; 4 2 3; 5 1 3; 0 1 3; 2 1 3", Some((5, 1)));
}
