//! Runs and step calls on graphs by name: the factorial lesson, refusals, counts, limits, and random lessons.

use super::*;

pub fn by_name(out: &mut Out) {
    out.group("by name");
    factorials(out);
    refusals(out);
    firsts(out);
    counts(out);
    limits(out);
    random(out);
}

/// A case on the graph of a construction, with which its title ends.
pub fn known(out: &mut Out, construction: Construction, title: &str, file: &[u8], memory: &[i32], ask: &Ask, expected: &str) {
    let case = on(memory, ask);
    out.known(&format!("{title}, {construction:?}"), file, &answers::by_name(construction, &case), expected);
}

/// "So is its factorial run, because each choice there has a single guard."
fn factorials(out: &mut Out) {
    let file = factorial().bytes();
    for construction in CONSTRUCTIONS {
        for (budget, expected) in [
            (0, "answer 1; node 0 count 0 memory 3 0"),
            (2, "answer 1; node 3 count 2 memory 3 1"),
            (10, "answer 1; node 2 count 10 memory 0 6"),
            (11, "answer 0; node 1 count 11 memory 0 6"),
            (65535, "answer 0; node 1 count 11 memory 0 6"),
        ] {
            known(out, construction, &format!("factorial, budget {budget}"), &file, &[3, 0], &Ask::Budget(budget), expected);
        }
        let calls = steps(&[0, 4, 1, 2, 3, 1, 2, 3, 1, 2, 3, 1, 4]);
        let expected = format!("taken; undefined 31; {}undefined 31; taken; node 1 count 11 memory 0 6", "taken; ".repeat(9));
        known(out, construction, "factorial, calls", &file, &[3, 0], &calls, &expected);
    }
}

/// A refusal on each graph, of a run and of steps from a run that is under way.
fn refuses(out: &mut Out, title: &str, file: &[u8], memory: &[i32], no: &str) {
    let cells = if memory.len() <= 16 { spaced(memory) } else { String::new() };
    for construction in CONSTRUCTIONS {
        known(out, construction, &format!("{title}, run"), file, memory, &Ask::Budget(9), &format!("{no}; node 0 count 0 memory{cells}"));
        let from = Ask::Calls(Run { node: 2, count: 7 }, vec![1, 4]);
        known(out, construction, &format!("{title}, step"), file, memory, &from, &format!("{no}; {no}; node 2 count 7 memory{cells}"));
    }
}

/// Questions 1 to 11 and 20, and 12.
fn refusals(out: &mut Out) {
    for (title, file, number, at) in refused_files() {
        refuses(out, &title, &file, &[3, 5], &format!("refused {number} at {at}"));
    }
    for length in [0, 1, 3, 16, 17, 512, 1024] {
        refuses(out, &format!("{length} cells"), &factorial().bytes(), &vec![3; length], "refused 12 at 0");
    }
}

/// Questions 14 and 15, and which of several comes first.
fn firsts(out: &mut Out) {
    let file = file_of("x y", "if x >= y -> x := y [] y >= x -> y := x fi; skip");
    let loose = draft_of("x y", "break").bytes();
    // Arrows: 0 to 3; 3 to 2; 0 to 4; 4 to 2; 2 to 1. Of nodes 0 to 4.
    for (title, bytes, memory, node, arrow, expected) in [
        ("14", &file, &[3, 5][..], 5, 0, "refused 14 at 0"),
        ("14, the last node there is", &file, &[3, 5], 65535, 0, "refused 14 at 0"),
        ("15 of another node's arrow", &file, &[3, 5], 0, 1, "refused 15 at 0"),
        ("15 of no arrow", &file, &[3, 5], 0, 5, "refused 15 at 0"),
        ("15, nothing leaves node 1", &file, &[3, 5], 1, 2, "refused 15 at 0"),
        ("12, 14 and 15", &file, &[3], 9, 9, "refused 12 at 0"),
        ("14 and 15", &file, &[3, 5], 5, 5, "refused 14 at 0"),
        ("20, 12, 14 and 15", &loose, &[3], 9, 9, "refused 20 at 16"),
        ("an undefined guard", &file, &[3, 5], 0, 0, "undefined 31"),
    ] {
        for construction in CONSTRUCTIONS {
            let from = Ask::Calls(Run { node, count: 7 }, vec![arrow]);
            let expected = format!("{expected}; node {node} count 7 memory{}", spaced(memory));
            known(out, construction, title, bytes, memory, &from, &expected);
        }
    }
}

/// "The count stays at 65,535", on both graphs.
fn counts(out: &mut Out) {
    let file = file_of("x", "do x >= 0 -> skip [] true -> x := 5 od");
    for construction in CONSTRUCTIONS {
        for (count, after) in [(0, 2), (65533, 65535), (65534, 65535), (65535, 65535)] {
            let from = Ask::Calls(Run { node: 0, count }, vec![0, 1]);
            let expected = format!("taken; taken; node 0 count {after} memory 1");
            known(out, construction, &format!("count {count}"), &file, &[1], &from, &expected);
        }
        known(out, construction, "budget 65535", &file, &[1], &Ask::Budget(65535), "answer 1; node 2 count 65535 memory 1");
        let late = Ask::Calls(Run { node: 0, count: 65535 }, vec![2, 3]);
        let expected = match construction {
            Nondeterministic => "taken; taken; node 0 count 65535 memory 5",
            Deterministic => "undefined 31; refused 15 at 0; node 0 count 65535 memory 1",
        };
        known(out, construction, "the second guard at 65535", &file, &[1], &late, expected);
    }
}

/// 85 guards, of which one or two are special; 127 loops; the largest file.
fn limits(out: &mut Out) {
    let arms = |special: &[(usize, &str)]| {
        let guard = |k: usize| special.iter().find(|s| s.0 == k).map_or("!true", |s| s.1);
        (0..85).map(|k| format!("{} -> skip", guard(k))).collect::<Vec<_>>().join(" [] ")
    };
    let (t, u) = ("x = 9", "x / 0 = 0");
    let stuck = "answer 2; node 0 count 0 memory 9";
    for (special, expected) in [
        (vec![(84, t)], ["answer 0; node 1 count 2 memory 9"; 2]),
        (vec![(0, t), (84, t)], ["answer 0; node 1 count 2 memory 9"; 2]),
        (vec![(0, t), (84, u)], ["answer 0; node 1 count 2 memory 9"; 2]),
        (vec![(0, u), (84, t)], ["answer 0; node 1 count 2 memory 9", stuck]),
        (vec![(83, u), (84, t)], ["answer 0; node 1 count 2 memory 9", stuck]),
        (vec![(84, u)], [stuck; 2]),
    ] {
        let text = format!("if {} fi", arms(&special));
        for (construction, expected) in CONSTRUCTIONS.into_iter().zip(expected) {
            known(out, construction, &format!("85 guards, {special:?}"), &file_of("x", &text), &[9], &Ask::Budget(9), expected);
        }
    }
    // The last guard's arrow, with the first true, and with the middle one undefined.
    for (special, expected) in [
        (vec![(0, t), (84, t)], ["taken; node 86 count 1 memory 9", "undefined 31; node 0 count 0 memory 9"]),
        (vec![(42, u), (84, t)], ["taken; node 86 count 1 memory 9", "undefined 32; node 0 count 0 memory 9"]),
        (vec![(0, t), (42, u)], ["undefined 31; node 0 count 0 memory 9", "undefined 32; node 0 count 0 memory 9"]),
    ] {
        let text = format!("do {} od", arms(&special));
        for (construction, expected) in CONSTRUCTIONS.into_iter().zip(expected) {
            known(out, construction, &format!("the last of 85, {special:?}"), &file_of("x", &text), &[9], &steps(&[168]), expected);
        }
    }
    let largest = exact(&full_names(), 512, 256, 256).bytes();
    for construction in CONSTRUCTIONS {
        known(out, construction, "127 loops", &loops(127).bytes(), &[9], &Ask::Budget(65535), "answer 1; node 128 count 65535 memory 9");
        for k in [1, -1] {
            let memory = vec![k; 512];
            out.put(&format!("largest file, cells {k}, {construction:?}"), &largest, &answers::by_name(construction, &on(&memory, &Ask::Budget(2000))));
        }
    }
}

/// Random lessons, mostly on the deterministic graph.
fn random(out: &mut Out) {
    out.group("random by name");
    let r = &mut Random(20_260_601_002);
    for k in 0..240 {
        let construction = if k % 8 == 7 { Nondeterministic } else { Deterministic };
        let script = match k % 6 {
            0..=3 => random_choice_script(r),
            4 => small_script(r, [12, 32, 50][k / 6 % 3]),
            _ => random_array_script(r),
        };
        let file = script.loaded();
        let lesson = file.fit();
        let memory = if k % 6 == 5 { random_array_memory(r, lesson.cells) } else { random_memory(r, lesson.cells) };
        assert_alike(&file);
        assert_deterministic(&file, &memory);
        assert_same_run(&file, 500, &memory);
        let (word, ask) = match k % 3 {
            0 => ("run", Ask::Budget([r.below(8), 40 + r.below(100), 2000][k / 3 % 3] as u16)),
            1 => {
                let length = 8 + r.below(40);
                ("steps", steps(&random_calls(r, &file, construction, &memory, length)))
            }
            _ => {
                let node = r.below(usize::from(lesson.graph.nodes) + 1) as u16;
                let calls = (0..=lesson.graph.arrows.len() as u16).take(40).collect();
                ("start", Ask::Calls(Run { node, count: r.next() as u16 }, calls))
            }
        };
        out.put(&format!("{k}, {word}, {construction:?}"), &file.bytes, &answers::by_name(construction, &on(&memory, &ask)));
    }
}
