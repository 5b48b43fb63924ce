//! Random records, start lists and trials of the third term.

use super::*;
use crate::language::*;

/// Any well-formed record.
pub fn random_record(r: &mut Random, lesson: &Lesson) -> Vec<u8> {
    lesson.script.names.iter().map(|&size| if size == 0 { [MINUS, ZERO, PLUS][r.below(3)] } else { 1 + r.below(7) as u8 }).collect()
}

/// Records of memories, and any others.
pub fn random_start(r: &mut Random, lesson: &Lesson) -> Vec<u8> {
    let mut list = Vec::new();
    for _ in 0..r.below(5) {
        let record = if r.chance(2) { record_of(lesson, &random_memory(r, lesson.cells)) } else { random_record(r, lesson) };
        list.extend(record.repeat(1 + r.below(2)));
    }
    list
}

/// A script of few names, so that its sheets are mostly not too long; or one of loops and ifs.
pub fn random_lesson(r: &mut Random, k: usize) -> Loaded {
    if k % 3 == 2 {
        let text = format!("{}; {}", random_command(r, 2, 0), random_command(r, 1, 0));
        return lesson_of(&text);
    }
    loop {
        let script = small_script(r, [6, 12, 20, 32, 50][k % 5]);
        if script.names.len() <= 6 || k.is_multiple_of(11) {
            return script.loaded();
        }
    }
}

/// What the third term speaks of: a file, a start list that has the memory's record somewhere, the memory, and step calls.
pub struct Following {
    pub file: Loaded,
    pub initial: Vec<u8>,
    pub memory: Vec<i32>,
    pub calls: Vec<u16>,
}

pub fn random_following(r: &mut Random, construction: Construction, k: usize) -> Following {
    // Two of three are loops and ifs that mostly go on.
    let file = if k.is_multiple_of(3) { random_lesson(r, k / 3) } else { lesson_of(&format!("{}; {}", random_command(r, 3, 0), random_command(r, 2, 0))) };
    following(r, construction, file)
}

/// A file, and what else the third term speaks of.
pub fn following(r: &mut Random, construction: Construction, file: Loaded) -> Following {
    let lesson = file.fit();
    let memory = random_memory(r, lesson.cells);
    let mut initial = if r.chance(2) { random_start(r, lesson) } else { Vec::new() };
    let at = r.below(initial.len() / lesson.names() + 1) * lesson.names();
    initial.splice(at..at, record_of(lesson, &memory));
    let length = 4 + r.below(60);
    let mut calls = random_calls(r, &file, construction, &memory, length);
    calls.truncate(arrival(&file, construction, &memory, &calls) + 2);
    Following { file, initial, memory, calls }
}

/// How many calls bring a run on a graph to node 1, if any do: nothing leaves it.
pub fn arrival(file: &Loaded, construction: Construction, memory: &[i32], calls: &[u16]) -> usize {
    let (mut run, mut memory) = (FRESH, memory.to_vec());
    for (k, &arrow) in calls.iter().enumerate() {
        if run.node == 1 {
            return k;
        }
        step(file, construction, &mut run, arrow, &mut memory);
    }
    calls.len()
}
