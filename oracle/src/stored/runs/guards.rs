//! Every list of one to four guards that are true, false or undefined, on each graph.

use super::*;

type Guard = (char, &'static str, Result<bool, Reason>);

/// A guard that is true, false or undefined, for two reasons.
const GUARDS: [Guard; 4] = [('T', "x > y", Ok(true)), ('F', "y > x", Ok(false)), ('B', "A[-1] = 0", Err(34)), ('Z', "y / 0 = 0", Err(32))];

const NAMES: &str = "x y A4";

const MEMORY: [i32; 6] = [9, 8, 1, 2, 3, 4];

/// What comes of one guard's action on a graph, found from what is known of each guard.
fn outcome_of(construction: Construction, list: &[Guard], k: usize) -> Result<bool, Reason> {
    match (construction, list[..=k].iter().find_map(|guard| guard.2.err())) {
        (Nondeterministic, _) => list[k].2,
        (Deterministic, Some(reason)) => Err(reason),
        (Deterministic, None) => Ok(list.iter().position(|guard| guard.2 == Ok(true)) == Some(k)),
    }
}

/// Every list of one to four guards, in an if and in a do: each arrow called, and a run.
pub fn guards(out: &mut Out) {
    out.group("guards");
    for (length, kinds) in [(1, 4), (2, 4), (3, 4), (4, 3)] {
        let mut lists: Vec<Vec<Guard>> = vec![Vec::new()];
        for _ in 0..length {
            lists = lists.iter().flat_map(|list| GUARDS[..kinds].iter().map(|&guard| [list.clone(), vec![guard]].concat())).collect();
        }
        for list in lists {
            for construction in CONSTRUCTIONS {
                called_in_a_do(out, construction, &list, "left");
                called_in_an_if(out, construction, &list);
                run_past(out, construction, &list, "if");
                run_past(out, construction, &list, "do");
            }
            if length > 2 {
                called_in_a_do(out, Deterministic, &list, "otherwise");
            }
        }
    }
}

/// Arms of so many guards, nested to the left, or three to the right and four in halves.
fn joined(arms: &[String], shape: &str) -> String {
    match (shape, arms) {
        ("otherwise", [a, b, c]) => format!("{a} [] {{ {b} [] {c} }}"),
        ("otherwise", [a, b, c, d]) => format!("{{ {a} [] {b} }} [] {{ {c} [] {d} }}"),
        _ => arms.join(" [] "),
    }
}

/// A letter for each guard.
fn title(list: &[Guard], rest: &str) -> String {
    format!("{} {rest}", list.iter().map(|guard| guard.0).collect::<String>())
}

fn told(outcome: Result<bool, Reason>) -> String {
    match outcome {
        Ok(true) => "taken; ".to_string(),
        Ok(false) => "undefined 31; ".to_string(),
        Err(reason) => format!("undefined {reason}; "),
    }
}

/// Each guard's arrow, and after it that of its body, which leads back if the guard's was taken; then the exit.
fn called_in_a_do(out: &mut Out, construction: Construction, list: &[Guard], shape: &str) {
    let arms: Vec<String> = list.iter().map(|guard| format!("{} -> skip", guard.1)).collect();
    let (mut expected, mut count) = (String::new(), 0);
    for k in 0..list.len() {
        let outcome = outcome_of(construction, list, k);
        expected += &told(outcome);
        expected += if outcome == Ok(true) { "taken; " } else { "refused 15 at 0; " };
        count += if outcome == Ok(true) { 2 } else { 0 };
    }
    // "Exits stay."
    let exit = list.iter().find_map(|guard| guard.2.err()).map_or(Ok(list.iter().all(|guard| guard.2 == Ok(false))), Err);
    expected += &told(exit);
    let (node, count) = if exit == Ok(true) { (1, count + 1) } else { (0, count) };
    let calls: Vec<u16> = (0..=2 * list.len() as u16).collect();
    let file = file_of(NAMES, &format!("do {} od", joined(&arms, shape)));
    let expected = format!("{expected}node {node} count {count} memory{}", spaced(&MEMORY));
    known(out, construction, &title(list, &format!("do, nested {shape}")), &file, &MEMORY, &steps(&calls), &expected);
}

/// In a loop about the if, so that each of its arrows can be called in turn: 0 goes to the if at node 2, and its arms lead back to node 0.
fn called_in_an_if(out: &mut Out, construction: Construction, list: &[Guard]) {
    let arms: Vec<String> = list.iter().map(|guard| format!("{} -> skip", guard.1)).collect();
    let (mut calls, mut expected, mut node, mut count) = (Vec::new(), String::new(), 0, 0);
    for k in 0..list.len() {
        let outcome = outcome_of(construction, list, k);
        calls.extend([0, 1 + 2 * k as u16, 2 + 2 * k as u16]);
        expected += if node == 0 { "taken; " } else { "refused 15 at 0; " };
        count += if node == 0 { 1 } else { 0 };
        expected += &told(outcome);
        expected += if outcome == Ok(true) { "taken; " } else { "refused 15 at 0; " };
        count += if outcome == Ok(true) { 2 } else { 0 };
        node = if outcome == Ok(true) { 0 } else { 2 };
    }
    let file = file_of(NAMES, &format!("do true -> if {} fi od", arms.join(" [] ")));
    let expected = format!("{expected}node {node} count {count} memory{}", spaced(&MEMORY));
    known(out, construction, &title(list, "if"), &file, &MEMORY, &steps(&calls), &expected);
}

/// Two steps of a run: which arm was taken is seen in the last element.
fn run_past(out: &mut Out, construction: Construction, list: &[Guard], word: &str) {
    let arms: Vec<String> = list.iter().enumerate().map(|(k, guard)| format!("{} -> A[3] := {}", guard.1, 100 + k)).collect();
    let first = (0..list.len()).find(|&k| outcome_of(construction, list, k) == Ok(true));
    let leaves = word == "do" && list.iter().all(|guard| guard.2 == Ok(false));
    let expected = match first {
        Some(k) if word == "if" => format!("answer 0; node 1 count 2 memory 9 8 1 2 3 {}", 100 + k),
        Some(k) => format!("answer 1; node 0 count 2 memory 9 8 1 2 3 {}", 100 + k),
        None if leaves => format!("answer 0; node 1 count 1 memory{}", spaced(&MEMORY)),
        None => format!("answer 2; node 0 count 0 memory{}", spaced(&MEMORY)),
    };
    let close = if word == "if" { "fi" } else { "od" };
    let file = file_of(NAMES, &format!("{word} {} {close}", arms.join(" [] ")));
    known(out, construction, &title(list, &format!("{word}, run")), &file, &MEMORY, &Ask::Budget(2), &expected);
}
