//! Reasons: everywhere, and in their order; exits and choices.

use super::*;

/// An expression for each reason that an expression can give, in names x, y, A of 4.
const FAULTS: [(&str, Reason); 5] = [("y / 0", 32), ("2 ^ -1", 33), ("A[-1]", 34), ("A[4]", 35), ("2147483647 + 1", 36)];

const FAULT_NAMES: &str = "x y A4";

const FAULT_MEMORY: [i32; 6] = [9, 8, 1, 2, 3, 4];

fn undefined(out: &mut Out, text: &str, edge: u16, reason: Reason) {
    one_step(out, FAULT_NAMES, text, &FAULT_MEMORY, edge, Err(reason));
}

/// Each reason 32 to 36 at each place of a script that an expression can stand at.
pub fn reasons(out: &mut Out) {
    out.group("reason");
    let mut places: Vec<(String, u16)> = Vec::new();
    let mut place = |text: &str, edge: u16| places.push((text.to_string(), edge));
    place("x := #", 0);
    place("x := A[#]", 0);
    place("A[#] := 1", 0);
    place("A[0] := #", 0);
    place("A[A[#]] := 1", 0);
    place("A[0] := A[#]", 0);
    for operator in ["+", "-", "*", "/", "^"] {
        place(&format!("x := # {operator} 1"), 0);
        place(&format!("x := 1 {operator} #"), 0);
        place(&format!("A[# {operator} 1] := 1"), 0);
        place(&format!("A[1] := 1 {operator} #"), 0);
    }
    for sign in ["=", ">", ">="] {
        place(&format!("if # {sign} 1 -> skip fi"), 0);
        place(&format!("if 1 {sign} # -> skip fi"), 0);
    }
    for side in ["true", "!true"] {
        place(&format!("if # = 0 and {side} -> skip fi"), 0);
        place(&format!("if # = 0 && {side} -> skip fi"), 0);
        place(&format!("if {side} and # = 0 -> skip fi"), 0);
    }
    place("if true && # = 0 -> skip fi", 0);
    place("if !(# = 0) -> skip fi", 0);
    place("if !!(# = 0) -> skip fi", 0);
    place("do # = 0 -> skip od", 0);
    place("do # = 0 -> skip od", 2);
    place("do !(# = 0) -> skip od", 2);
    place("if true -> skip [] # = 0 -> skip fi", 2);
    place("do true -> skip [] # = 0 -> skip od", 2);
    for (text, edge) in &places {
        for (fault, reason) in FAULTS {
            undefined(out, &text.replace('#', &format!("({fault})")), *edge, reason);
        }
    }
    // && needs no right side where the left is false.
    for (fault, _) in FAULTS {
        undefined(out, &format!("if !true && {fault} = 0 -> skip fi"), 0, 31);
        one_step(out, FAULT_NAMES, &format!("do !true && {fault} = 0 -> skip od"), &FAULT_MEMORY, 2, Ok((1, &FAULT_MEMORY)));
    }
    // 31, of guards of an if and of a do, and of its exit.
    undefined(out, "if x > x -> skip fi", 0, 31);
    undefined(out, "if !true -> skip fi", 0, 31);
    undefined(out, "if true -> skip [] !true -> skip fi", 2, 31);
    undefined(out, "do y > x -> skip od", 0, 31);
    undefined(out, "do x > y -> skip od", 2, 31);
}

/// Two faults in one action, and faults beside what comes first.
pub fn orders(out: &mut Out) {
    out.group("order");
    let mut pairs: Vec<(String, u16)> = Vec::new();
    for operator in ["+", "-", "*", "/", "^"] {
        pairs.push((format!("x := # {operator} @"), 0));
    }
    for sign in ["=", ">", ">="] {
        pairs.push((format!("if # {sign} @ -> skip fi"), 0));
    }
    for word in ["and", "&&"] {
        pairs.push((format!("if # = 0 {word} @ = 0 -> skip fi"), 0));
    }
    pairs.push(("A[#] := @".to_string(), 0));
    pairs.push(("do # = 0 -> skip [] @ = 0 -> skip od".to_string(), 4));
    for (text, edge) in &pairs {
        for (left, reason) in FAULTS {
            for (right, other) in FAULTS {
                if reason != other {
                    let text = text.replace('#', &format!("({left})")).replace('@', &format!("({right})"));
                    undefined(out, &text, *edge, reason);
                }
            }
        }
    }
    for (fault, reason) in FAULTS {
        // Operands before their operator: no divisor, exponent, index or result is weighed before both sides are there.
        for text in ["x := (#) / 0", "x := (#) ^ -1", "x := 0 / (#)", "x := 0 * (#)", "x := 0 ^ (#)", "x := (#) ^ 0", "x := 1 ^ (#)"] {
            undefined(out, &text.replace('#', fault), 0, reason);
        }
        undefined(out, &format!("x := 2147483647 * (2147483647 + ({fault}))"), 0, reason);
        undefined(out, &format!("x := (2147483647 + 1) * ({fault})"), 0, 36);
        // A store's index, 34 and 35, come before its value; the last index lets the value be worked out.
        undefined(out, &format!("A[-1] := {fault}"), 0, 34);
        undefined(out, &format!("A[4] := {fault}"), 0, 35);
        undefined(out, &format!("A[3] := {fault}"), 0, reason);
        undefined(out, &format!("A[A[-1]] := {fault}"), 0, 34);
        undefined(out, &format!("A[1 / 0] := {fault}"), 0, 32);
        // A condition is false only once all that it needs is defined.
        undefined(out, &format!("if x > x and {fault} = 0 -> skip fi"), 0, reason);
        undefined(out, &format!("if x > x && {fault} = 0 -> skip fi"), 0, 31);
        undefined(out, &format!("if {fault} = 0 and x > x -> skip fi"), 0, reason);
        undefined(out, &format!("if {fault} = 0 && x > x -> skip fi"), 0, reason);
    }
    // 32 and 33 before 36.
    undefined(out, "x := -2147483648 / (y - 8)", 0, 32);
    undefined(out, "x := 2147483647 ^ (0 - 2147483647 - 1)", 0, 33);
    // Both ends of an array, at an index that is worked out.
    for (index, expected) in [(4, Err(35)), (3, Ok(4)), (0, Ok(1)), (-1, Err(34))] {
        assigns(out, "x y A4", &format!("x := A[y - {}]", 8 - index), &FAULT_MEMORY, expected);
    }
}

/// A guard that is true, false or undefined, for two reasons.
const GUARDS: [(&str, Result<bool, Reason>); 4] = [("x > y", Ok(true)), ("y > x", Ok(false)), ("A[-1] = 0", Err(34)), ("y / 0 = 0", Err(32))];

/// All lists of so many of the first `kinds` guards.
fn guard_lists(length: usize, kinds: usize) -> Vec<Vec<(&'static str, Result<bool, Reason>)>> {
    let mut lists = vec![Vec::new()];
    for _ in 0..length {
        lists = lists.iter().flat_map(|list| GUARDS[..kinds].iter().map(|&g| [list.clone(), vec![g]].concat())).collect();
    }
    lists
}

/// Exits of loops of one to four guards: the first that is undefined gives the reason, whatever is true beside it.
pub fn exits(out: &mut Out) {
    out.group("exit");
    for (length, kinds) in [(1, 4), (2, 4), (3, 4), (4, 3)] {
        for list in guard_lists(length, kinds) {
            let expected = match list.iter().find_map(|g| g.1.err()) {
                Some(reason) => Err(reason),
                None if list.iter().any(|g| g.1 == Ok(true)) => Err(31),
                None => Ok((1, &FAULT_MEMORY[..])),
            };
            let arms: Vec<String> = list.iter().map(|g| format!("{} -> skip", g.0)).collect();
            let exit = 2 * length as u16;
            one_step(out, FAULT_NAMES, &format!("do {} od", arms.join(" [] ")), &FAULT_MEMORY, exit, expected);
            if length == 3 {
                let text = format!("do {} [] {{ {} [] {} }} od", arms[0], arms[1], arms[2]);
                one_step(out, FAULT_NAMES, &text, &FAULT_MEMORY, exit, expected);
            }
            if length == 4 {
                let text = format!("do {{ {} [] {} }} [] {{ {} [] {} }} od", arms[0], arms[1], arms[2], arms[3]);
                one_step(out, FAULT_NAMES, &text, &FAULT_MEMORY, exit, expected);
            }
        }
    }
}

/// "The lowest-numbered defined arrow each time": a run past guards of three, of which the first that is true is taken.
pub fn choices(out: &mut Out) {
    out.group("choice");
    let memory = &FAULT_MEMORY;
    for list in guard_lists(3, 3) {
        let arms: Vec<String> = list.iter().enumerate().map(|(k, g)| format!("{} -> A[3] := {}", g.0, 100 + k)).collect();
        let first = list.iter().position(|g| g.1 == Ok(true));
        let after = |k: usize| [9, 8, 1, 2, 3, 100 + k as i32];
        for (open, close) in [("if", "fi"), ("do", "od")] {
            let text = format!("{open} {} {close}", arms.join(" [] "));
            let expected = match first {
                // Two steps: to node 1 out of an if, back to node 0 in a loop.
                Some(k) if open == "if" => format!("answer 0; node 1 count 2 memory{}", spaced(&after(k))),
                Some(k) => format!("answer 1; node 0 count 2 memory{}", spaced(&after(k))),
                None if open == "do" && list.iter().all(|g| g.1 == Ok(false)) => format!("answer 0; node 1 count 1 memory{}", spaced(memory)),
                None => format!("answer 2; node 0 count 0 memory{}", spaced(memory)),
            };
            out.known(&text, &file_of(FAULT_NAMES, &text), &on(memory, &Ask::Budget(2)), &expected);
        }
    }
    // A loop's own arrows come before its exit, and the arrows of what precedes come first.
    let cases = [
        ("do x > 5 -> x := x - 1 [] x > 3 -> x := x - 2 od", 100, "answer 0; node 1 count 11 memory 3 8 1 2 3 4"),
        ("if y / 0 = 0 -> x := 1 [] A[x] = 0 -> x := 2 [] true -> x := 3 fi", 100, "answer 0; node 1 count 2 memory 3 8 1 2 3 4"),
        ("x := 1; y := 1 / 0; x := 2", 100, "answer 2; node 2 count 1 memory 1 8 1 2 3 4"),
        ("x := 1; A[x + 3] := 2; x := 2", 100, "answer 2; node 2 count 1 memory 1 8 1 2 3 4"),
        ("x := 1; if x > 1 -> skip fi; x := 2", 100, "answer 2; node 2 count 1 memory 1 8 1 2 3 4"),
        ("x := 1; y := 1 / 0; x := 2", 1, "answer 1; node 2 count 1 memory 1 8 1 2 3 4"),
        ("do x > 0 -> x := x - 1; A[x - 5] := x od", 100, "answer 2; node 3 count 14 memory 4 8 5 6 7 8"),
        ("do true -> x := x * x od", 1000, "answer 2; node 2 count 7 memory 43046721 8 1 2 3 4"),
        ("do A[x] > 0 -> skip od", 9, "answer 2; node 0 count 0 memory 9 8 1 2 3 4"),
        ("do true -> do true -> do !true -> skip od; x := x - 1; if x > 7 -> skip fi od od", 50, "answer 2; node 6 count 9 memory 7 8 1 2 3 4"),
    ];
    for (text, budget, expected) in cases {
        out.known(&format!("{text}, budget {budget}"), &file_of(FAULT_NAMES, text), &on(memory, &Ask::Budget(budget)), expected);
    }
}
