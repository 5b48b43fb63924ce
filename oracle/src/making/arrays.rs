//! Array lessons: sorting, searching, summing, with a word or a number changed here and there; and memories that they mostly run on.

use super::*;
use crate::language::Script;

/// The names of an array lesson whose arrays have so many elements.
fn names(size: usize) -> String {
    format!("i j n t x A{size} B{size}")
}

const LESSONS: [&str; 12] = [
    "i := 1; do n > i -> j := i; do j > 0 && A[j - 1] > A[j] -> t := A[j]; A[j] := A[j - 1]; A[j - 1] := t; j := j - 1 od; i := i + 1 od",
    "i := n; do i > 1 -> j := 0; do i - 1 > j -> if A[j] > A[j + 1] -> t := A[j]; A[j] := A[j + 1]; A[j + 1] := t [] A[j + 1] >= A[j] -> skip fi; j := j + 1 od; i := i - 1 od",
    "i := 0; j := n; do j > i + 1 -> t := (i + j) / 2; if A[t] > x -> j := t [] x >= A[t] -> i := t fi od; if A[i] = x -> t := i [] !(A[i] = x) -> t := -1 fi",
    "B[0] := A[0]; i := 1; do n > i -> B[i] := B[i - 1] + A[i]; i := i + 1 od",
    "i := 0; j := n - 1; do j > i -> t := A[i]; A[i] := A[j]; A[j] := t; i := i + 1; j := j - 1 od",
    "i := 0; do n > i -> t := A[i]; if t >= 0 and n > t -> B[t] := B[t] + 1 [] !(t >= 0 and n > t) -> skip fi; i := i + 1 od",
    "i := 1; t := A[0]; do n > i && A[i] >= t -> t := A[i]; i := i + 1 od; x := t * t - i",
    "i := n; do i > 0 -> i := i - 1; A[i] := A[A[i]] od",
    "i := 0; x := 0; t := 0; do n > i -> if A[i] >= 0 -> x := x + A[i]; i := i + 1 [] 0 > A[i] -> i := i + 1; break fi; t := t + 1 od",
    "i := 0; x := 0; t := 0; do n > i -> if A[i] >= 0 -> x := x + A[i]; i := i + 1 [] 0 > A[i] -> i := i + 1; continue fi; t := t + 1 od",
    "t := -1; i := n; do i > 0 -> i := i - 1; if A[i] = x -> t := i; break [] !(A[i] = x) -> skip fi od",
    "i := n; do true -> i := i - 1; if 0 >= i -> break [] i > 0 -> skip fi; j := 0; do true -> if j >= i -> break [] i > j && A[j + 1] >= A[j] -> j := j + 1; continue [] true -> skip fi; t := A[j]; A[j] := A[j + 1]; A[j + 1] := t; j := j + 1 od od",
];

/// Words that may stand for one another.
const CLASSES: [&[&str]; 5] = [&["0", "1", "2"], &["+", "-"], &[">", ">="], &["i", "j", "n", "t", "x"], &["skip", "break", "continue"]];

/// One word of a lesson becomes another of its class; or a loop's "&&" becomes "and".
fn changed(r: &mut Random, text: &str) -> String {
    let mut words = words(text);
    let k = r.below(words.len());
    let word = words[k].clone();
    if word == "&&" {
        words[k] = "and".to_string();
    }
    if let Some(class) = CLASSES.iter().find(|class| class.contains(&word.as_str())) {
        words[k] = class[r.below(class.len())].to_string();
    }
    words.join(" ")
}

pub fn random_array_script(r: &mut Random) -> Script {
    let size = 1 + r.below(9);
    loop {
        let mut text = LESSONS[r.below(LESSONS.len())].to_string();
        for _ in 0..r.below(6) {
            text = changed(r, &text);
        }
        // The sign of a number, changed to a plus, is no script.
        if let Some(script) = read_text(&names(size), &text) {
            return script;
        }
    }
}

/// Counters in range and sorted-like elements, mostly.
pub fn random_array_memory(r: &mut Random, cells: usize) -> Vec<i32> {
    let size = (cells.saturating_sub(5) / 2).max(1);
    let (order, base) = (r.below(4), r.below(7) as i32 - 3);
    let element = |r: &mut Random, k: usize| match order {
        0 => base + k as i32,
        1 => base + (size - k) as i32,
        2 => r.below(size + 1) as i32,
        _ => random_number(r),
    };
    let mut memory = vec![random_number(r), random_number(r), size as i32, random_number(r), base + r.below(size) as i32];
    if r.chance(8) {
        memory[2] = r.below(2 * size + 2) as i32 - 1;
    }
    for k in 0..cells.saturating_sub(5) {
        let z = element(r, k % size);
        memory.push(z);
    }
    memory.truncate(cells);
    memory
}

#[cfg(test)]
mod tests {
    use super::*;

    #[test]
    fn each_lesson_is_fit_as_it_stands() {
        for text in LESSONS {
            assert!(read_text(&names(4), text).is_some(), "{text}");
        }
    }
}
