//! What is timed: lessons from tiny to maximal, and sheets of a given number of records.

use oracle::making::{exact, factorial, file_of, full_names, loops, script_of, Random};

pub struct Lesson {
    pub title: &'static str,
    pub file: Vec<u8>,
}

fn lesson(title: &'static str, file: Vec<u8>) -> Lesson {
    Lesson { title, file }
}

/// Files for validation, drawing, one step and splitting: by their size.
pub fn files() -> Vec<Lesson> {
    vec![
        lesson("factorial, 135 bytes", factorial().bytes()),
        lesson("sorting, 40 entries", sorting()),
        lesson("127 loops, 255 arrows", loops(127).bytes()),
        lesson("largest, 7,244 bytes", exact(&full_names(), 512, 256, 256).bytes()),
    ]
}

/// Bubbles through an array for ever.
fn sorting() -> Vec<u8> {
    file_of(
        "i j t A8",
        "do true -> i := 0; do 7 > i -> j := i + 1; if A[i] > A[j] -> t := A[j]; A[j] := A[i]; A[i] := t [] !(A[i] > A[j]) -> skip fi; i := i + 1 od od",
    )
}

/// Lessons that never end, so that a run uses up its budget.
pub fn endless() -> Vec<Lesson> {
    // 40 guards of which only the last is true, and a value of many operators in its arm.
    let tests: String = (0..40).map(|k| format!("x > {} -> skip [] ", 1000 + k)).collect();
    let sum = vec!["x * y - x / 3"; 20].join(" + ");
    // The largest tables: x := A[A[...A[7]]], 511 elements in one another.
    let nested = format!("{}0{}", "A[".repeat(500), "]".repeat(500));
    vec![
        lesson("two variables", file_of("x y", "do x >= 0 -> y := y + x; y := y - x od")),
        lesson("factorial again and again", file_of("x y n", "do true -> x := n; y := 1; do x > 0 -> y := x * y; x := x - 1 od od")),
        lesson("sorting", sorting()),
        lesson("40 guards, 160 operators", file_of("x y z", &format!("do {tests}true -> z := {sum} od"))),
        lesson("500 elements in one another", file_of("x A9", &format!("do true -> x := {nested} od"))),
    ]
}

/// Those that are run on the deterministic graph: single guards, an if of two, and many.
pub fn endless_choices() -> Vec<Lesson> {
    endless().into_iter().filter(|lesson| ["factorial again and again", "sorting", "40 guards, 160 operators"].contains(&lesson.title)).collect()
}

/// A lesson whose sheet has so many records for each start record: mostly 16, 15 assignments in turn, none of which changes a sign.
pub struct Walk {
    pub title: &'static str,
    pub file: Vec<u8>,
    /// Records of the sheet for each start record.
    pub each: usize,
    /// Names of any sign, names after them that are plus, and arrays after these of any set.
    names: usize,
    plus: usize,
    arrays: usize,
}

const LETTERS: &str = "abcdefghijklmnopqrstuvwxyzABCDEF";

fn names(count: usize) -> String {
    LETTERS.chars().take(count).map(|c| c.to_string()).collect::<Vec<_>>().join(" ")
}

fn walk(title: &'static str, count: usize, factor: &str) -> Walk {
    let letters: Vec<char> = LETTERS.chars().take(count).collect();
    let steps: Vec<String> = (0..15).map(|k| letters[k % count]).map(|x| format!("{x} := {x} * {factor}")).collect();
    let script = script_of(&names(count), &steps.join("; "));
    Walk { title, file: script.bytes(), each: 16, names: count, plus: 0, arrays: 0 }
}

/// The same with an element in one step, whose index is a variable: plus in all records, but it might not be.
fn indexed_walk() -> Walk {
    let steps: Vec<String> = "abcdef".chars().cycle().take(14).map(|x| format!("{x} := {x} * 1")).collect();
    let file = file_of("a b c d e f g h A4", &format!("h := A[g]; {}", steps.join("; ")));
    Walk { title: "9 names, an index", file, each: 16, names: 6, plus: 3, arrays: 0 }
}

/// The same with nine elements and eight operators in each step, on sets of up to three signs. A power of 0 is plus, whatever the set.
fn array_walk() -> Walk {
    let value = "A[0] * B[0] + C[0] * D[0] - A[0] * C[0] + B[0] * D[0] - A[0]";
    let steps: Vec<String> = "abcdefgh".chars().cycle().take(15).map(|x| format!("{x} := {x} * ({value}) ^ 0")).collect();
    let file = file_of("a b c d e f g h A4 B4 C4 D4", &steps.join("; "));
    Walk { title: "8 names, 4 arrays, 450 entries", file, each: 16, names: 8, plus: 0, arrays: 4 }
}

/// So many guards of 8 names, none of which any sign makes true.
fn guards(count: usize) -> String {
    "abcdefgh".chars().cycle().take(count).map(|x| format!("0 > {x} * {x} -> skip [] ")).collect()
}

/// Seven ifs in turn of which only the last guard is true, and an assignment: nodes with many guards.
fn choice_walk() -> Walk {
    let steps = vec![format!("if {}true -> skip fi", guards(10)); 7].join("; ");
    Walk { title: "8 names, 7 ifs of 11 guards", file: file_of(&names(8), &format!("{steps}; a := a * 1")), each: 16, names: 8, plus: 0, arrays: 0 }
}

/// A loop with as many guards as there is room for, which is left at once.
fn loop_walk() -> Walk {
    let guards = guards(85);
    Walk { title: "8 names, 85 guards", file: file_of(&names(8), &format!("do {} od", guards.trim_end_matches(" [] "))), each: 2, names: 8, plus: 0, arrays: 0 }
}

/// Walks on the deterministic graph: no guard, many nodes with several, one node with many.
pub fn choices() -> Vec<Walk> {
    vec![walk("8 names", 8, "1"), choice_walk(), loop_walk()]
}

/// Of 8 names with short actions, of 9 with an index, of 32 names, of 32 names with actions of 31 entries each, 465 in all, and of 12 names, four of them arrays, with actions of 30.
pub fn walks() -> Vec<Walk> {
    let product = vec!["1"; 15].join(" * ");
    vec![walk("8 names", 8, "1"), indexed_walk(), walk("32 names", 32, "1"), walk("32 names, 465 entries", 32, &format!("({product})")), array_walk()]
}

impl Walk {
    /// So many different start records, in no order.
    pub fn starts(&self, count: usize) -> Vec<u8> {
        let mut random = Random(20_261_115);
        let mut seen = std::collections::HashSet::new();
        let mut list = Vec::new();
        while seen.len() < count {
            let mut record: Vec<u8> = (0..self.names).map(|_| 1 << random.below(3)).collect();
            record.extend(std::iter::repeat_n(4, self.plus));
            record.extend((0..self.arrays).map(|_| 1 + random.below(7) as u8));
            if seen.insert(record.clone()) {
                list.extend(record);
            }
        }
        list
    }

    pub fn width(&self) -> usize {
        self.names + self.plus + self.arrays + 2
    }
}
