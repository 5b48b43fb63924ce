//! Lessons whose ifs and dos have several guards, which overlap, leave gaps or are undefined here and there: on these the two graphs differ.

use super::*;
use crate::language::*;

fn any_variable(r: &mut Random, loops: usize) -> &'static str {
    ["x", "y", "z", COUNTERS[loops.saturating_sub(1)]][r.below(if loops > 0 { 4 } else { 3 })]
}

/// A guard: mostly a comparison that holds of many small numbers, and some that are undefined where a variable is zero, below it, or past an array's end.
fn random_guard(r: &mut Random, loops: usize) -> String {
    let (v, w, n) = (any_variable(r, loops), any_variable(r, loops), r.below(4));
    let sign = ["=", ">", ">="][r.below(3)];
    match r.below(14) {
        0 => "true".to_string(),
        1 => format!("{v} / {w} {sign} {n}"),
        2 => format!("A[{v}] {sign} {n}"),
        3 => format!("{v} ^ {w} > {n}"),
        4 => format!("B[{v} - 1] {sign} A[{n}]"),
        5 => format!("({v} > 0) {} (A[{v} - 1] {sign} {w})", ["and", "&&"][r.below(2)]),
        6 => random_condition(r, 1, loops),
        7 | 8 => format!("{v} {sign} {w}"),
        9 | 10 => format!("{n} >= {v}"),
        _ => format!("{v} >= {n}"),
    }
}

/// Arms as a choice, nested to the left, or at random with braces.
fn nested(r: &mut Random, mut arms: Vec<String>) -> String {
    let is_left = r.chance(2);
    while arms.len() > 1 {
        let at = if is_left { 0 } else { r.below(arms.len() - 1) };
        let right = arms.remove(at + 1);
        let braced = |arm: &str| if arm.contains("[]") { format!("{{ {arm} }}") } else { arm.to_string() };
        arms[at] = if is_left { format!("{} [] {right}", arms[at]) } else { format!("{} [] {}", braced(&arms[at]), braced(&right)) };
    }
    arms.remove(0)
}

/// An if or a do of two to four guards. A do counts down in each arm, so that it ends; where a guard is undefined it may be stuck.
pub fn random_choice(r: &mut Random, depth: usize, loops: usize) -> String {
    let count = 2 + r.below(3);
    if loops < 3 && r.chance(3) {
        let (i, rounds) = (COUNTERS[loops], 1 + r.below(5));
        let arm = |r: &mut Random| {
            let guard = random_guard(r, loops + 1);
            let (word, body) = (["and", "&&"][r.below(2)], random_body(r, depth, loops + 1));
            let test = if r.chance(3) { format!("{i} > {}", r.below(3)) } else { format!("({i} > 0) {word} ({guard})") };
            format!("{test} -> {i} := {i} - 1; {body}")
        };
        let arms = (0..count).map(|_| arm(r)).collect();
        return format!("{i} := {rounds}; do {} od", nested(r, arms));
    }
    let mut arms: Vec<String> = (0..count).map(|_| format!("{} -> {}", random_guard(r, loops), random_body(r, depth, loops))).collect();
    if r.chance(2) {
        arms.push(format!("true -> {}", random_body(r, 0, loops)));
    }
    format!("if {} fi", nested(r, arms))
}

fn random_body(r: &mut Random, depth: usize, loops: usize) -> String {
    match r.below(6) {
        0 | 1 if depth > 0 => random_choice(r, depth - 1, loops),
        2 => random_command(r, depth, loops),
        3 => "skip".to_string(),
        _ => format!("{} := {}", ["x", "y", "z"][r.below(3)], random_expression(r, 1, loops)),
    }
}

pub fn random_choice_script(r: &mut Random) -> Script {
    loop {
        let depth = r.below(3);
        let mut text = random_choice(r, depth, 0);
        if r.chance(2) {
            text = format!("{}; {text}", random_command(r, 1, 0));
        }
        if r.chance(3) {
            text = format!("{text}; {}", random_choice(r, 1, 0));
        }
        // It may have too many entries, once in a while.
        if let Some(script) = read_text(LESSON_NAMES, &text) {
            return script;
        }
    }
}

#[cfg(test)]
mod tests {
    use super::*;

    /// Of 400 lessons, how many runs differ on the two graphs, and how many sheets.
    #[test]
    fn the_graphs_often_differ() {
        let mut r = Random(88);
        let (mut stuck, mut sheets) = (0, 0);
        for _ in 0..400 {
            let file = random_choice_script(&mut r).loaded();
            let memory = random_memory(&mut r, file.fit().cells);
            assert_alike(&file);
            assert_deterministic(&file, &memory);
            assert_same_run(&file, 200, &memory);
            let counts = CONSTRUCTIONS.map(|construction| budgeted(&file, construction, 200, &mut memory.clone()).1.count);
            stuck += usize::from(counts[0] != counts[1]);
            let record = record_of(file.fit(), &memory);
            let solved = CONSTRUCTIONS.map(|construction| crate::answers::sheets::solved(&file, construction, &record).1);
            sheets += usize::from(solved[0] != solved[1]);
        }
        assert!(stuck > 60 && sheets > 200, "{stuck} {sheets}");
    }
}
