//! The largest files and the deepest expressions; random runs.

use super::*;

/// The largest files, the deepest expressions and the widest loops.
pub fn limits(out: &mut Out) {
    out.group("limit");
    for (shape, word) in [(0, "left"), (1, "right"), (2, "in halves")] {
        let file = sequence(128, shape).bytes();
        out.known(&format!("128 skips nested {word}"), &file, &on(&[9], &Ask::Budget(128)), "answer 0; node 1 count 128 memory 9");
        out.put(&format!("128 skips nested {word}, 127"), &file, &on(&[9], &Ask::Budget(127)));
    }
    let file = loops(127).bytes();
    out.put("127 loops", &file, &on(&[9], &Ask::Budget(65535)));
    out.put("127 loops, 126", &file, &on(&[9], &Ask::Budget(126)));
    // A[A[..A[7]..]], 511 elements deep, in arrays that lead on, and in one whose element 3 leads out.
    let names: Vec<u16> = vec![0, 9];
    let file = exact(&names, 512, 0, 1).bytes();
    let deep = |out: &mut Out, title: &str, memory: [i32; 10], expected: &str| out.known(title, &file, &on(&memory, &steps(&[0])), expected);
    deep(out, "511 elements", [9, 0, 1, 2, 3, 4, 5, 6, 7, 8], "taken; node 1 count 1 memory 7 0 1 2 3 4 5 6 7 8");
    // From 7 in a round of nine: 511 is 56 rounds and 7 more.
    deep(out, "511 elements in a round", [9, 1, 2, 3, 4, 5, 6, 7, 8, 0], "taken; node 1 count 1 memory 5 1 2 3 4 5 6 7 8 0");
    deep(out, "511 elements, out below", [9, 1, 2, 3, -4, 5, 6, 7, 8, 0], "undefined 34; node 0 count 0 memory 9 1 2 3 -4 5 6 7 8 0");
    deep(out, "511 elements, out above", [9, 1, 2, 3, 9, 5, 6, 7, 8, 0], "undefined 35; node 0 count 0 memory 9 1 2 3 9 5 6 7 8 0");
    // 255 negations of true, under a guard that is false for it, and 254.
    out.known(
        "255 negations",
        &exact(&names, 0, 256, 3).bytes(),
        &on(&[9; 10], &steps(&[0, 2])),
        "undefined 31; taken; node 1 count 1 memory 9 9 9 9 9 9 9 9 9 9",
    );
    out.known(
        "254 negations",
        &exact(&names, 0, 255, 3).bytes(),
        &on(&[9; 10], &steps(&[2, 0, 1])),
        "undefined 31; taken; taken; node 0 count 2 memory 9 9 9 9 9 9 9 9 9 9",
    );
    let largest = exact(&full_names(), 512, 256, 256).bytes();
    for k in [0, 1, 7, 39, -1, 41] {
        let memory = vec![k; 512];
        out.put(&format!("largest file, cells {k}"), &largest, &on(&memory, &Ask::Budget(2000)));
        out.put(&format!("largest file, cells {k}, steps"), &largest, &on(&memory, &steps(&(0..60).collect::<Vec<u16>>())));
    }
    // A loop of 85 arms, of which one or none is true, and one or none undefined.
    let arms = |arm: &dyn Fn(usize) -> &'static str| (0..85).map(|k| format!("{} -> skip", arm(k))).collect::<Vec<_>>().join(" [] ");
    for (title, index, special, expected) in [
        ("85 arms, all false", 85, "", "answer 0; node 1 count 1 memory 9"),
        ("85 arms, the last true", 84, "x = 9", "answer 1; node 86 count 65535 memory 9"),
        ("85 arms, the first true", 0, "x = 9", "answer 1; node 2 count 65535 memory 9"),
        ("85 arms, the last undefined", 84, "x / 0 = 0", "answer 2; node 0 count 0 memory 9"),
        ("85 arms, the first undefined", 0, "x / 0 = 0", "answer 2; node 0 count 0 memory 9"),
    ] {
        let text = format!("do {} od", arms(&|k| if k == index { special } else { "!true" }));
        let budget = if expected.starts_with("answer 1") { 65535 } else { 1 };
        out.known(title, &file_of("x", &text), &on(&[9], &Ask::Budget(budget)), expected);
    }
}

pub fn random(out: &mut Out) {
    let mut r = Random(20_260_214_005);
    out.group("random run");
    for k in 0..320 {
        let file = small_script(&mut r, [6, 12, 20, 32, 50, 80][k % 6]).loaded();
        let memory = random_memory(&mut r, file.fit().cells);
        let budget = [r.below(8), 40 + r.below(100), 500, 3000][k % 4] as u16;
        out.put(&format!("{k}, budget {budget}"), &file.bytes, &on(&memory, &Ask::Budget(budget)));
    }
    out.group("random steps");
    for k in 0..240 {
        let file = small_script(&mut r, [6, 12, 20, 32, 50, 80][k % 6]).loaded();
        let memory = random_memory(&mut r, file.fit().cells);
        let length = 8 + r.below(40);
        let calls = random_calls(&mut r, &file, Nondeterministic, &memory, length);
        out.put(&k.to_string(), &file.bytes, &on(&memory, &steps(&calls)));
    }
    out.group("random lesson");
    for k in 0..200 {
        let text = format!("{}; {}", random_command(&mut r, 4, 0), random_command(&mut r, 4, 0));
        let file = lesson_of(&text).bytes;
        let memory = random_memory(&mut r, 13);
        let budget = [4000, 4000, 100, 30][k % 4];
        out.put(&format!("{k}, budget {budget}"), &file, &on(&memory, &Ask::Budget(budget)));
    }
    // Nodes and counts of any kind, and memories that may not fit.
    out.group("random start");
    for k in 0..160 {
        let file = small_script(&mut r, [6, 12, 20, 32][k % 4]).loaded();
        let lesson = file.fit();
        let cells = if r.chance(8) { r.below(40) } else { lesson.cells };
        let memory = random_memory(&mut r, cells);
        let node = if r.chance(8) { r.next() as u16 } else { r.below(usize::from(lesson.graph.nodes) + 1) as u16 };
        let count = if r.chance(3) { 65535 - r.below(6) as u16 } else { r.next() as u16 };
        // All arrows in turn: those that leave the node are found.
        let calls: Vec<u16> = (0..lesson.graph.arrows.len() as u16 + 1).take(80).collect();
        out.put(&k.to_string(), &file.bytes, &on(&memory, &Ask::Calls(Run { node, count }, calls)));
    }
    out.group("damaged");
    for k in 0..160 {
        let mut script = small_script(&mut r, [3, 8, 16, 32][k % 4]);
        let memory = random_memory(&mut r, script.loaded().fit().cells);
        let mut file = script.bytes();
        if k % 2 == 0 {
            damage_script(&mut r, &mut script);
            file = script.bytes();
        } else {
            damage_bytes(&mut r, &mut file);
        }
        let ask = if k % 4 < 2 { Ask::Budget(50) } else { steps(&[0, 1, 2]) };
        out.put(&k.to_string(), &file, &on(&memory, &ask));
    }
}
