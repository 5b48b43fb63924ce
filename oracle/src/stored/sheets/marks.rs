//! Index marks, and records that are missing.

use super::*;

/// The first arrow of the first record.
const FIRST: Mark = Some((0, 0));

/// Names, script, sheet and its mark.
const MARKS: &[(&str, &str, &str, Mark)] = &[
    ("x A4", "x := A[x]", "0 1 7", FIRST),
    ("x A4", "x := A[x]", "0 2 7", CLEAN),
    ("x A4", "x := A[x]", "0 4 7", CLEAN),
    ("x A4", "x := A[-1]", "0 4 4", FIRST),
    ("x A4", "x := A[0]", "0 1 1", CLEAN),
    ("x A4", "x := A[2147483647]", "0 1 1", CLEAN),
    ("x A4", "x := A[x - 1]", "0 4 7", FIRST),
    ("x A4", "x := A[x + 1]", "0 2 7", CLEAN),
    ("x A4", "x := A[x * x]", "0 1 7", CLEAN),
    ("x A4", "x := A[x / 2]", "0 1 7", FIRST),
    ("x A4", "x := 1 + (2 - (3 * A[x]))", "0 1 7", FIRST),
    ("x A4", "x := A[x] / 0", "0 1 7", FIRST),
    // A node's records alone, and those of its arrows alone; nothing leaves node 1.
    ("x A4", "x := A[x]", "1 1 7; 1 1 1", CLEAN),
    ("x A4", "x := A[x]; skip", "2 1 7", CLEAN),
    ("x A4", "x := A[x]; skip", "2 1 7; 0 4 7; 0 1 7; 0 1 7", Some((2, 0))),
    ("x A4", "skip; x := A[x]", "0 1 7; 2 4 7; 2 1 7", Some((2, 1))),
    // An index in an index, from within and from without.
    ("x A4 B4", "x := A[B[x]]", "0 1 4 4", FIRST),
    ("x A4 B4", "x := A[B[x]]", "0 4 4 5", FIRST),
    ("x A4 B4", "x := A[B[x]]", "0 4 5 4", CLEAN),
    ("x A4 B4", "x := A[B[x] * 0]", "0 1 4 4", FIRST),
    ("x A4 B4", "x := A[B[0] * B[0]]", "0 1 4 5", FIRST),
    ("x A4 B4", "x := A[B[0] * B[0]]", "0 1 4 1", CLEAN),
    // Stores: the index, the value, an index in either, and no value.
    ("x A4 B4", "A[x] := 1", "0 1 7 7", FIRST),
    ("x A4 B4", "A[x] := 1", "0 2 7 7", CLEAN),
    ("x A4 B4", "A[0] := B[x]", "0 1 7 7", FIRST),
    ("x A4 B4", "A[0] := B[x]", "0 4 7 7", CLEAN),
    ("x A4 B4", "A[B[x]] := 1", "0 1 7 4", FIRST),
    ("x A4 B4", "A[B[x]] := 1", "0 4 7 1", FIRST),
    ("x A4 B4", "A[B[x]] := 1", "0 4 1 4", CLEAN),
    ("x A4 B4", "A[0] := 1 / 0 + B[x]", "0 1 7 7", FIRST),
    ("x A4 B4", "A[0] := x", "0 1 1 1", CLEAN),
    // Guards: every side of every condition, whether it matters or not.
    ("x A4", "if A[x] > 0 -> skip fi", "0 1 7", FIRST),
    ("x A4", "if 0 > A[x] -> skip fi", "0 1 7", FIRST),
    ("x A4", "if !A[x] = 0 -> skip fi", "0 1 7", FIRST),
    ("x A4", "if true and A[x] = 0 -> skip fi", "0 1 7", FIRST),
    ("x A4", "if A[x] = 0 and true -> skip fi", "0 1 7", FIRST),
    ("x A4", "if x >= 0 && A[x] > 0 -> skip fi", "0 1 7", FIRST),
    ("x A4", "if A[x] > 0 && x >= 0 -> skip fi", "0 1 7", FIRST),
    ("x A4", "if x > 0 && A[x - 1] > A[x] -> skip fi", "0 2 7", FIRST),
    ("x A4", "if x > 0 && A[x - 1] > A[x] -> skip fi", "2 2 7; 2 4 1", CLEAN),
    // The lowest record, then its lowest arrow.
    ("x y A4", "if A[x] > 0 -> skip [] A[y] > 0 -> skip fi", "0 1 1 7", FIRST),
    ("x y A4", "if A[x] > 0 -> skip [] A[y] > 0 -> skip fi", "0 1 4 7", FIRST),
    ("x y A4", "if A[x] > 0 -> skip [] A[y] > 0 -> skip fi", "0 4 1 7", Some((0, 2))),
    ("x y A4", "if A[x] > 0 -> skip [] A[y] > 0 -> skip fi", "0 4 4 7; 0 4 1 7; 0 1 1 7", Some((1, 2))),
    ("x y A4", "if A[x] > 0 -> skip [] A[y] > 0 -> skip fi", "2 1 1 7; 3 1 1 7; 0 4 2 7", CLEAN),
    ("x y A4", "if true -> x := A[x] [] true -> y := A[y] fi", "3 1 4 7; 2 4 1 7; 3 4 1 7; 2 1 4 7", Some((2, 3))),
    ("x y A4", "if true -> x := A[x] [] true -> y := A[y] fi", "2 4 1 7; 2 1 4 7", Some((1, 1))),
    // Loops: a guard's arrow comes before the exit.
    ("x y A4", "do A[x] > 0 -> skip [] A[y] > 0 -> skip od", "0 4 1 7", Some((0, 2))),
    ("x y A4", "do x > 0 -> skip [] y > 0 -> skip [] A[x + y] > 0 -> skip od", "0 4 1 7", Some((0, 4))),
    ("x y A4", "do x > 0 -> do A[y] > 0 -> skip od od", "0 1 1 7; 2 4 1 7", Some((1, 1))),
    ("x y A4", "do x > 0 -> do A[y] > 0 -> skip od od", "0 1 1 7; 2 4 4 7; 3 4 1 7", CLEAN),
];

/// Index marks, of sheets that need not be accepted.
pub fn indices(out: &mut Out) {
    out.group("index");
    for &(names, text, sheet, mark) in MARKS {
        let ask = marking(&sheet_of(sheet));
        out.known(&format!("{text}, {sheet}"), &file_of(names, text), &ask, &told_mark(mark));
    }
    // The exit's own indices, with the guards' arrows left out of sight: asked of the arrow itself.
    let lesson = Lesson::of(script_of("x y A4", "do x > 0 -> skip [] A[y] > 0 -> skip od"), Nondeterministic);
    let exit = &lesson.graph.arrows[4];
    assert_eq!((exit.action.kind(), lesson.may_be_below_zero(exit, &[4, 1, 7]), lesson.may_be_below_zero(exit, &[4, 4, 7])), (3, true, false));
    let file = file_of("x A4", "x := A[x]");
    let empty = Chunks(Vec::new());
    out.known("empty sheet", &file, &Ask::Mark(empty), "index clean");
    let at_end = Chunks::repeated(&sheet_of("0 4 7"), 4095).then(&sheet_of("0 1 7"));
    out.known("the last of 4096", &file, &Ask::Mark(at_end), "index record 4095 arrow 0");
    // 85 arms, and the last of them.
    let arms: Vec<String> = (0..85).map(|k| format!("{} > 0 -> skip", if k == 84 { "A[x]" } else { "x" })).collect();
    out.known("85 arms", &file_of("x A4", &format!("do {} od", arms.join(" [] "))), &Ask::Mark(Chunks::of(&sheet_of("0 1 7"))), "index record 0 arrow 168");
}

/// 41 and 42 at the first, a middle and the last record, and which of several comes first.
pub fn missing(out: &mut Out) {
    out.group("missing");
    let file = factorial().bytes();
    for (initial, expected) in [
        ("", "accepted index clean; offending"),
        ("4 2; 4 2", "accepted index clean; offending"),
        ("1 1; 4 2; 4 2", "41 record 0; offending 1 1"),
        ("4 2; 2 1; 4 2", "41 record 1; offending 2 1"),
        ("4 2; 4 2; 4 1", "41 record 2; offending 4 1"),
        ("4 2; 4 4; 1 1", "41 record 1; offending 4 4"),
        // At another node it is not listed at node 0.
        ("4 4", "41 record 0; offending 4 4"),
        ("2 4", "41 record 0; offending 2 4"),
    ] {
        judges(out, &format!("factorial, start {initial}"), &file, initial, FACTORIAL, expected);
    }
    judges(out, "nothing at all", &file, "", "", "accepted index clean; offending");
    judges(out, "empty sheet", &file, "4 2", "", "41 record 0; offending 4 2");
    judges(out, "41 before 42", &file, "4 2; 1 1", "2 4 4; 0 4 2", "41 record 1; offending 1 1");
    judges(out, "what is not reached", &file, "4 2", &format!("{FACTORIAL}; 1 4 4; 1 1 1"), "accepted index clean; offending");
    judges(out, "what is not reached, with a result", &file, "4 2", &format!("{FACTORIAL}; 4 4 1"), "42 record 8 arrow 3; offending 0 4 4 1");
    judges(
        out,
        "from the last to the first",
        &file,
        "4 2",
        &FACTORIAL.split("; ").collect::<Vec<_>>().into_iter().rev().collect::<Vec<_>>().join("; "),
        "accepted index clean; offending",
    );
    missing_results(out);
    missing_of_many(out);
}

/// Which of an arrow's results is missing does not matter, nor where the others are.
fn missing_results(out: &mut Out) {
    let three = file_of("x y", "if y > 0 -> x := y - 1 [] y = 0 -> x := 0 [] !y >= 0 -> x := y fi");
    let whole = "0 4 4; 0 4 2; 0 4 1; 2 4 4; 3 4 2; 4 4 1; 1 1 4; 1 2 4; 1 4 4; 1 2 2; 1 1 1";
    let left_out = [
        "41 record 0; offending 4 4",
        "41 record 1; offending 4 2",
        "41 record 2; offending 4 1",
        "42 record 0 arrow 0; offending 0 0 4 4",
        "42 record 1 arrow 2; offending 0 0 4 2",
        "42 record 2 arrow 4; offending 0 0 4 1",
        "42 record 3 arrow 1; offending 0 2 4 4",
        "42 record 3 arrow 1; offending 0 2 4 4",
        "42 record 3 arrow 1; offending 0 2 4 4",
        "42 record 4 arrow 3; offending 0 3 4 2",
        "42 record 5 arrow 5; offending 0 4 4 1",
    ];
    judges(out, "three arms", &three, "4 4; 4 2; 4 1", whole, "accepted index clean; offending");
    for (k, expected) in left_out.iter().enumerate() {
        let mut records: Vec<&str> = whole.split("; ").collect();
        records.remove(k);
        judges(out, &format!("three arms without record {k}"), &three, "4 4; 4 2; 4 1", &records.join("; "), expected);
    }
    // Two arrows of one record, and two records of one arrow.
    let two = file_of("x", "if true -> x := 1 [] true -> x := -1 fi");
    judges(out, "two arrows", &two, "2", "0 2", "42 record 0 arrow 0; offending 0 0 2");
    judges(out, "the second arrow", &two, "2", "0 2; 2 2", "42 record 0 arrow 2; offending 0 0 2");
    judges(out, "two records", &two, "2", "0 2; 3 2; 2 2", "42 record 1 arrow 3; offending 0 3 2");
    judges(out, "two records, exchanged", &two, "2", "0 2; 2 2; 3 2", "42 record 1 arrow 1; offending 0 2 2");
    judges(out, "a result at another node", &two, "2", "0 2; 3 2; 2 2; 0 4; 2 1; 1 1", "42 record 2 arrow 1; offending 0 2 2");
}

/// 4,096 records in either list.
fn missing_of_many(out: &mut Out) {
    let file = factorial().bytes();
    let many = |record: &str, times: usize, last: &str| Chunks::repeated(&sheet_of(record), times).then(&sheet_of(last));
    let start = |record: &str, times: usize, last: &str| Chunks::repeated(&starts(record), times).then(&starts(last));
    out.known("42 at the last of 4096", &file, &Ask::Judge(start("", 0, ""), many("1 4 4", 4095, "2 4 4")), "42 record 4095 arrow 1; offending 0 2 4 4");
    out.known("42 at the first of 4096", &file, &Ask::Judge(start("", 0, ""), many("2 4 4", 4095, "1 4 4")), "42 record 0 arrow 1; offending 0 2 4 4");
    out.known("the result is the last of 4096", &file, &Ask::Judge(start("", 0, ""), many("2 2 4", 4095, "1 2 4")), "accepted index clean; offending");
    out.known("41 at the last of 4096", &file, &Ask::Judge(start("4 2", 4095, "2 2"), Chunks::of(&sheet_of(FACTORIAL))), "41 record 4095; offending 2 2");
    out.known("4096 start records", &file, &Ask::Judge(start("4 2", 4095, "4 2"), Chunks::of(&sheet_of(FACTORIAL))), "accepted index clean; offending");
    out.known(
        "the start record is the last of 4096",
        &file,
        &Ask::Judge(start("1 1", 1, ""), many("1 1 1", 4095, "0 1 1")),
        "42 record 4095 arrow 0; offending 0 0 1 1",
    );
    // Lists of 32 names that are as long as can be.
    let wide = file_of(&WIDE_NAMES.join(" "), "skip");
    let (low, high) = (vec![MINUS; 32], [vec![MINUS; 31], vec![PLUS]].concat());
    let ends = Chunks::repeated(&at_node(1, &low), 4095).then(&at_node(0, &high));
    out.known(
        "32 names, 4096 records",
        &wide,
        &Ask::Judge(Chunks::repeated(&high, 4096), ends.clone()),
        &format!("42 record 4095 arrow 0; offending{}", spaced(&at_node(0, &high))),
    );
    out.known(
        "32 names, 4096 start records",
        &wide,
        &Ask::Judge(Chunks::repeated(&high, 4095).then(&low), ends),
        &format!("41 record 4095; offending{}", spaced(&low)),
    );
}
