//! Known answers of one step.

use super::*;

pub fn steps(calls: &[u16]) -> Ask {
    Ask::Calls(FRESH, calls.to_vec())
}

/// One step of a fresh run: where it leads to, with the memory that it leaves, or why it is undefined.
pub fn one_step(out: &mut Out, names: &str, text: &str, memory: &[i32], edge: u16, expected: Result<(u16, &[i32]), Reason>) {
    let title = format!("{text},{}, {edge}", spaced(memory));
    let expected = match expected {
        Ok((node, after)) => format!("taken; node {node} count 1 memory{}", spaced(after)),
        Err(reason) => format!("undefined {reason}; node 0 count 0 memory{}", spaced(memory)),
    };
    out.known(&title, &file_of(names, text), &on(memory, &steps(&[edge])), &expected);
}

/// A script that is one assignment to the first variable.
pub fn assigns(out: &mut Out, names: &str, text: &str, memory: &[i32], expected: Result<i32, Reason>) {
    let mut after = memory.to_vec();
    let expected = expected.map(|z| {
        after[0] = z;
        (1, &after[..])
    });
    one_step(out, names, text, memory, 0, expected);
}

/// A condition, as the guard of an if.
pub fn tests(out: &mut Out, names: &str, condition: &str, memory: &[i32], expected: Result<bool, Reason>) {
    let expected = match expected {
        Ok(true) => Ok((2, memory)),
        Ok(false) => Err(CONDITION_FALSE),
        Err(reason) => Err(reason),
    };
    one_step(out, names, &format!("if {condition} -> skip fi"), memory, 0, expected);
}
