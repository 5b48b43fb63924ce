//! Random lessons, memories and step calls.

use super::*;
use crate::language::*;

pub const MIN: i32 = i32::MIN;
pub const MAX: i32 = i32::MAX;

/// Mostly small numbers.
pub fn random_number(r: &mut Random) -> i32 {
    match r.below(20) {
        0 => r.next() as i32 >> r.below(32),
        1 => [MIN, MAX, 65536, -65536, 46341, -46341, 1000000][r.below(7)],
        _ => r.below(9) as i32 - 2,
    }
}

/// A random script with mostly small numbers in it, few powers, and few constant indices out of range: so that it runs for some steps.
pub fn small_script(r: &mut Random, size: usize) -> Script {
    let mut s = random_script(r, size);
    for e in &mut s.tables[0] {
        if e.kind == 0 {
            let z = if r.chance(3) { random_number(r) } else { r.below(3) as i32 };
            *e = entry(0, (z as u32 >> 16) as u16, z as u16, 0);
        }
        if e.kind >= 6 && r.chance(2) {
            e.kind = 3 + r.below(3) as u8;
        }
    }
    s
}

/// The names that lessons made of text are over.
pub const LESSON_NAMES: &str = "x y z A4 B3 i j k";

pub fn lesson_of(text: &str) -> Loaded {
    script_of(LESSON_NAMES, text).loaded()
}

/// An expression over x, y, z, A of 4, B of 3 and the counters i, j, k of the loops about it.
pub fn random_expression(r: &mut Random, depth: usize, loops: usize) -> String {
    if depth == 0 || r.chance(3) {
        return match r.below(6) {
            0 if r.chance(3) => random_number(r).to_string(),
            0 | 1 => r.below(4).to_string(),
            2 if loops > 0 => COUNTERS[r.below(loops)].to_string(),
            _ => ["x", "y", "z"][r.below(3)].to_string(),
        };
    }
    if r.chance(4) {
        return random_element(r, loops);
    }
    let operator = ["+", "-", "+", "-", "*", "/", "^"][r.below(7)];
    let left = random_expression(r, depth - 1, loops);
    // Divisors and exponents are mostly constants, so that they are seldom zero, below it or large.
    let right = if "/^".contains(operator) && !r.chance(6) { (1 + r.below(2)).to_string() } else { random_expression(r, depth - 1, loops) };
    format!("({left} {operator} {right})")
}

pub const COUNTERS: [&str; 3] = ["i", "j", "k"];

/// An element, mostly at an index inside its array: a constant, or the rest of a counter.
pub fn random_element(r: &mut Random, loops: usize) -> String {
    let (array, size) = [("A", 4), ("B", 3)][r.below(2)];
    let index = match r.below(8) {
        0 if r.chance(2) => random_expression(r, 1, loops),
        1..=3 if loops > 0 => {
            let i = COUNTERS[r.below(loops)];
            format!("{i} - {i} / {size} * {size}")
        }
        _ => r.below(size).to_string(),
    };
    format!("{array}[{index}]")
}

pub fn random_condition(r: &mut Random, depth: usize, loops: usize) -> String {
    match r.below(5) {
        0 if depth > 0 => format!("!({})", random_condition(r, depth - 1, loops)),
        1 if depth > 0 => {
            let word = ["and", "&&"][r.below(2)];
            format!("({}) {word} ({})", random_condition(r, depth - 1, loops), random_condition(r, depth - 1, loops))
        }
        _ => {
            let sign = ["=", ">", ">="][r.below(3)];
            format!("{} {sign} {}", random_expression(r, 1, loops), random_expression(r, 1, loops))
        }
    }
}

/// Commands that mostly go on: counted loops, ifs of a condition and its opposite, assignments, and in a loop a break or a continue.
pub fn random_command(r: &mut Random, depth: usize, loops: usize) -> String {
    match r.below(if loops > 0 { 12 } else { 8 }) {
        0 | 1 if depth > 0 => {
            let test = random_condition(r, 1, loops);
            let (yes, no) = (random_command(r, depth - 1, loops), random_command(r, depth - 1, loops));
            format!("if {test} -> {yes} [] !({test}) -> {no} fi")
        }
        2 | 3 if depth > 0 && loops < 3 => {
            let (i, rounds) = (COUNTERS[loops], 1 + r.below(9));
            format!("{i} := {rounds}; do {i} > 0 -> {}; {i} := {i} - 1 od", random_command(r, depth - 1, loops + 1))
        }
        4 | 5 if depth > 0 => format!("{}; {}", random_command(r, depth - 1, loops), random_command(r, depth - 1, loops)),
        6 => format!("{} := {}", random_element(r, loops), random_expression(r, 2, loops)),
        8..=10 if depth > 0 => {
            let (test, jump) = (random_condition(r, 1, loops), random_jump(r, loops));
            format!("if {test} -> {jump} [] !({test}) -> {} fi", random_command(r, depth - 1, loops))
        }
        11 if r.chance(2) => random_jump(r, loops),
        _ => format!("{} := {}", ["x", "y", "z"][r.below(3)], random_expression(r, 2, loops)),
    }
}

/// A jump in a loop. A continue mostly counts first: without that the loop may go on for ever.
fn random_jump(r: &mut Random, loops: usize) -> String {
    let i = COUNTERS[loops - 1];
    match r.below(6) {
        0 => "continue".to_string(),
        1 | 2 => format!("{i} := {i} - 1; continue"),
        _ => "break".to_string(),
    }
}

pub fn random_memory(r: &mut Random, cells: usize) -> Vec<i32> {
    (0..cells).map(|_| random_number(r)).collect()
}

/// Step calls on a graph, most of them of arrows that leave the node which the run is at.
pub fn random_calls(r: &mut Random, file: &Loaded, construction: Construction, memory: &[i32], length: usize) -> Vec<u16> {
    let lesson = file.fit();
    let (mut memory, mut run) = (memory.to_vec(), FRESH);
    let mut calls = Vec::new();
    for _ in 0..length {
        let leaving: Vec<u16> = lesson.leaving(run.node).map(|(k, _)| k as u16).collect();
        let arrow = match r.below(10) {
            0 => r.below(lesson.graph.arrows.len() + 2) as u16,
            1 if r.chance(3) => r.next() as u16,
            _ if leaving.is_empty() => r.below(lesson.graph.arrows.len()) as u16,
            _ => leaving[r.below(leaving.len())],
        };
        step(file, construction, &mut run, arrow, &mut memory);
        calls.push(arrow);
    }
    calls
}
