//! Operators, comparisons, truth, elements, stores and exits: every set and every truth answer.

use super::*;
use std::collections::BTreeSet;

/// Numbers of each sign of a set, enough to show what an operator or a comparison can give.
fn samples(set: Set) -> Vec<i32> {
    [-2, -1, 0, 1, 2].into_iter().filter(|&z| sign(z) & set != 0).collect()
}

/// The signs that the interpreter's operator gives of numbers of given signs.
fn sampled(kind: u8, left: Set, right: Set) -> Set {
    let mut set = NONE;
    for l in samples(left) {
        for r in samples(right) {
            set |= operate(kind, l, r).map_or(NONE, sign);
        }
    }
    set
}

/// An assignment to x, which is zero, over two more names whose bytes in the record are given: at node 1, x has each sign expected.
fn operator_case(out: &mut Out, names: &str, text: &str, bytes: [Set; 2], expected: Set, mark: Mark) {
    let [left, right] = bytes;
    let mut sheet = at_node(0, &[ZERO, left, right]);
    for s in signs(expected) {
        sheet.extend(at_node(1, &[s, left, right]));
    }
    finishes(out, &format!("{text}, {left} {right}"), &file_of(names, text), &[ZERO, left, right], &sheet, mark);
}

/// Each operator on every pair of signs, of sets, and of sets of which one is empty.
pub fn operators(out: &mut Out) {
    out.group("operator");
    for (kind, operator) in [(3, "+"), (4, "-"), (5, "*"), (6, "/"), (7, "^")] {
        for left in [MINUS, ZERO, PLUS] {
            for right in [MINUS, ZERO, PLUS] {
                operator_case(out, "x y z", &format!("x := y {operator} z"), [left, right], sampled(kind, left, right), CLEAN);
            }
        }
        for left in 1..=7 {
            for right in 1..=7 {
                operator_case(out, "x A1 B1", &format!("x := A[0] {operator} B[0]"), [left, right], sampled(kind, left, right), CLEAN);
            }
            // An element below its array has no sign.
            operator_case(out, "x A1 B1", &format!("x := A[0] {operator} B[-1]"), [left, 7], NONE, Some((0, 0)));
            operator_case(out, "x A1 B1", &format!("x := A[-1] {operator} B[0]"), [7, left], NONE, Some((0, 0)));
        }
    }
    // Numbers have their own signs.
    for (z, expected) in [(0, 2), (1, 4), (-1, 1), (65536, 4), (-65536, 1), (MAX, 4), (MIN, 1), (32768, 4), (-32768, 1)] {
        operator_case(out, "x y z", &format!("x := {z}"), [MINUS, PLUS], expected, CLEAN);
    }
    // Operators inside one another.
    for (text, bytes, expected) in [
        ("x := (A[0] - 1) * B[0]", [4, 1], 7),
        ("x := (A[0] * A[0]) + B[0]", [1, 4], 4),
        ("x := (A[0] * A[0]) + B[0]", [5, 4], 7),
        ("x := A[0] / (B[0] * 0)", [7, 7], 0),
        ("x := A[0] / B[0] ^ 0", [7, 1], 7),
        ("x := 0 - A[0] ^ 2", [1, 4], 5),
        ("x := A[0] ^ (0 - B[0])", [7, 4], 0),
        ("x := 0 / A[0]", [6, 4], 2),
    ] {
        operator_case(out, "x A1 B1", text, bytes, expected, CLEAN);
    }
}

/// The answers of a condition, seen in which arms of an if are taken: from a record, at nodes 2 and then 1, or 3 and then 1.
fn condition_case(out: &mut Out, names: &str, condition: &str, record: &[u8], expected: &str, mark: Mark) {
    let text = format!("if {condition} -> skip [] !({condition}) -> skip fi");
    let mut sheet = at_node(0, record);
    if expected.contains('T') {
        sheet.extend(at_node(2, record));
    }
    if expected.contains('F') {
        sheet.extend(at_node(3, record));
    }
    if !expected.is_empty() {
        sheet.extend(at_node(1, record));
    }
    finishes(out, &format!("{condition},{}", spaced(record)), &file_of(names, &text), record, &sheet, mark);
}

/// The answers of a comparison of numbers of given signs.
fn sampled_answers(kind: u8, left: Set, right: Set) -> String {
    let compares = |l: i32, r: i32| match kind {
        1 => l == r,
        2 => l > r,
        _ => l >= r,
    };
    let mut answers = BTreeSet::new();
    for l in samples(left) {
        answers.extend(samples(right).into_iter().map(|r| if compares(l, r) { 'T' } else { 'F' }));
    }
    answers.into_iter().collect()
}

pub fn comparisons(out: &mut Out) {
    out.group("compare");
    for (kind, comparison) in [(1, "="), (2, ">"), (3, ">=")] {
        for left in [MINUS, ZERO, PLUS] {
            for right in [MINUS, ZERO, PLUS] {
                condition_case(out, "y z", &format!("y {comparison} z"), &[left, right], &sampled_answers(kind, left, right), CLEAN);
            }
        }
        for left in 1..=7 {
            for right in 1..=7 {
                condition_case(out, "A1 B1", &format!("A[0] {comparison} B[0]"), &[left, right], &sampled_answers(kind, left, right), CLEAN);
            }
            condition_case(out, "A1 B1", &format!("A[0] {comparison} B[-1]"), &[left, 7], "", Some((0, 0)));
            condition_case(out, "A1 B1", &format!("A[-1] {comparison} B[0]"), &[7, left], "", Some((0, 0)));
        }
    }
}

/// Conditions over x, which is plus, and A of 4 that have each of the truth answers.
pub const CONDITIONS: [(&str, &str); 4] = [("true", "T"), ("!true", "F"), ("x > x", "TF"), ("A[-1] = 0", "")];

/// ∧, && and ¬ over every pair of truth answers, worked out by hand.
pub fn truths(out: &mut Out) {
    out.group("truth");
    let and = [["T", "F", "TF", ""], ["F", "F", "F", ""], ["TF", "F", "TF", ""], ["", "", "", ""]];
    let and_then = [["T", "F", "TF", ""], ["F", "F", "F", "F"], ["TF", "F", "TF", "F"], ["", "", "", ""]];
    let exchanged = |answers: &str| answers.chars().map(|c| if c == 'T' { 'F' } else { 'T' }).collect::<String>();
    let mark = |index: bool| if index { Some((0, 0)) } else { CLEAN };
    for (i, (left, left_answers)) in CONDITIONS.into_iter().enumerate() {
        condition_case(out, "x A4", left, &[4, 7], left_answers, mark(i == 3));
        condition_case(out, "x A4", &format!("!({left})"), &[4, 7], &exchanged(left_answers), mark(i == 3));
        condition_case(out, "x A4", &format!("!!({left})"), &[4, 7], left_answers, mark(i == 3));
        for (j, (right, _)) in CONDITIONS.into_iter().enumerate() {
            for (word, table) in [("and", and), ("&&", and_then)] {
                let (text, answers) = (format!("{left} {word} {right}"), table[i][j]);
                condition_case(out, "x A4", &text, &[4, 7], answers, mark(i == 3 || j == 3));
                condition_case(out, "x A4", &format!("!({text})"), &[4, 7], &exchanged(answers), mark(i == 3 || j == 3));
            }
        }
    }
    for (text, answers) in [
        ("(!true && A[-1] = 0) and x > x", "F"),
        ("(!true and A[-1] = 0) && x > x", ""),
        ("x > x && (x > x && A[-1] = 0)", "F"),
        ("(x > x and x = x) && !(x >= x)", "TF"),
        ("!(x > x && A[-1] = 0) and true", "T"),
    ] {
        condition_case(out, "x A4", text, &[4, 7], answers, mark(text.contains("-1")));
    }
}

/// Elements: every set of the array and of the index.
pub fn elements(out: &mut Out) {
    out.group("element");
    let unclean = |index: Set| if index & MINUS != 0 { Some((0, 0)) } else { CLEAN };
    for array in 1..=7 {
        for index in 1..=7 {
            let expected = if index == MINUS { NONE } else { array };
            operator_case(out, "x A4 B4", "x := A[B[0]]", [array, index], expected, unclean(index));
        }
    }
    for index in 1..=7 {
        // An index that has no sign is no index below zero, and no element is there.
        operator_case(out, "x A4 B4", "x := A[B[0] / 0]", [7, index], NONE, CLEAN);
        operator_case(out, "x A4 B4", "x := A[B[-1]]", [7, index], NONE, Some((0, 0)));
        let expected = if index == MINUS { NONE } else { index };
        operator_case(out, "x A4 B4", "x := B[B[B[0]]]", [7, index], expected, unclean(index));
    }
    for (sign, expected) in [(MINUS, NONE), (ZERO, 5), (PLUS, 5)] {
        operator_case(out, "x A4 y", "x := A[y]", [5, sign], expected, unclean(sign));
    }
}

/// The sets that an array of some size with signs `old` can come to have where an element becomes a number of a sign of `value`: tried on arrays of one to four.
fn stored(old: Set, value: Set) -> BTreeSet<Set> {
    let set = |array: &[Set]| array.iter().fold(NONE, |set, s| set | s);
    let mut sets = BTreeSet::new();
    for size in 1..=4 {
        for code in 0..3usize.pow(size) {
            let array: Vec<Set> = (0..size).map(|k| [MINUS, ZERO, PLUS][code / 3usize.pow(k) % 3]).collect();
            if set(&array) != old {
                continue;
            }
            for i in 0..array.len() {
                sets.extend(signs(value).map(|s| set(&with(&array, i as u16, s))));
            }
        }
    }
    sets
}

/// Stores: every old set, value set and index set.
pub fn stores(out: &mut Out) {
    out.group("store");
    // The results in their order, by hand.
    for (old, value, results) in [
        (4, 2, vec![6, 2]),
        (2, 5, vec![3, 1, 6, 4]),
        (7, 1, vec![7, 5, 3]),
        (7, 2, vec![7, 6, 3]),
        (7, 4, vec![7, 6, 5]),
        (5, 7, vec![5, 1, 7, 6, 3, 4]),
        (3, 4, vec![7, 6, 5]),
        (1, 7, vec![1, 3, 2, 5, 4]),
        (6, 3, vec![7, 5, 3, 6, 2]),
    ] {
        let mut sheet = at_node(0, &[old, value]);
        results.iter().for_each(|&set| sheet.extend(at_node(1, &[set, value])));
        finishes(out, &format!("A[0] := B[0], {old} {value}"), &file_of("A4 B4", "A[0] := B[0]"), &[old, value], &sheet, CLEAN);
    }
    for value in 1..=7u8 {
        for index in 1..=7u8 {
            store_case(out, "A[C[0]] := B[0]", value, index, index != MINUS);
        }
        store_case(out, "A[C[0] / 0] := B[0]", value, 7, false);
        store_case(out, "A[C[-1]] := B[0]", value, 7, false);
        store_case(out, "A[C[0]] := B[-1]", value, 7, false);
        store_case(out, "A[C[0]] := B[0] / 0", value, 7, false);
    }
    // A store's index and value are of the record before it, and other arrays keep their sets.
    solves(out, "A4 B4", "A[0] := A[0]", "3 4", "0 3 4; 1 3 4; 1 1 4; 1 2 4", CLEAN);
    solves(out, "x A4", "A[x] := x", "1 4", "0 1 4", Some((0, 0)));
    solves(out, "x A4", "A[x] := x", "4 1", "0 4 1; 1 4 5; 1 4 4", CLEAN);
    solves(out, "x A1", "A[0] := 1; x := A[0]", "2 1", "0 2 1; 2 2 5; 2 2 4; 1 1 5; 1 4 5; 1 4 4", CLEAN);
}

/// All seven old sets at once: what each comes to is seen at node 1, beside its value and index sets, which are those of no other.
fn store_case(out: &mut Out, text: &str, value: Set, index: Set, lands: bool) {
    let file = file_of("A4 B4 C4", text);
    let initial: Vec<u8> = (1..=7).flat_map(|old| [old, value, index]).collect();
    let told = out.put(&format!("{text}, {value} {index}"), &file, &solving(&initial, 100));
    assert!(told.starts_with("finished"));
    for old in 1..=7 {
        let (_, sheet) = solved(&Loaded::of(&file), Nondeterministic, &[old, value, index]);
        let found: BTreeSet<Set> = sheet.chunks(5).filter(|record| record[1] == 1).map(|record| record[2]).collect();
        let expected = if lands { stored(old, value) } else { BTreeSet::new() };
        assert_eq!(found, expected, "{text}, {old} {value} {index}");
    }
}

/// Loops of one to three guards with each of the truth answers: the exit is there if every guard may be false.
pub fn exits(out: &mut Out) {
    out.group("exit");
    let mut lists: Vec<Vec<usize>> = vec![Vec::new()];
    for length in 1..=3 {
        lists = lists.iter().flat_map(|list| (0..4).map(move |k| [list.clone(), vec![k]].concat())).collect();
        for list in &lists {
            let arms: Vec<String> = list.iter().map(|&k| format!("{} -> skip", CONDITIONS[k].0)).collect();
            let mut texts = vec![format!("do {} od", arms.join(" [] "))];
            if length == 3 {
                texts.push(format!("do {} [] {{ {} [] {} }} od", arms[0], arms[1], arms[2]));
            }
            let answers: Vec<&str> = list.iter().map(|&k| CONDITIONS[k].1).collect();
            let mut sheet = "0 4 7".to_string();
            for (i, guard) in answers.iter().enumerate() {
                if guard.contains('T') {
                    sheet += &format!("; {} 4 7", i + 2);
                }
            }
            if answers.iter().all(|guard| guard.contains('F')) {
                sheet += "; 1 4 7";
            }
            // A guard's arrow, then its skip's: that of the first guard with an index comes before the exit.
            let mark = list.iter().position(|&k| k == 3).map(|i| (0, 2 * i));
            for text in texts {
                solves(out, "x A4", &text, "4 7", &sheet, mark);
            }
        }
    }
}
