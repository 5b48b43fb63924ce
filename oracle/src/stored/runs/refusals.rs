//! Refusals, and counts.

use super::*;

/// A file, a memory that fits, and the same asked of them as a run and as a step from a run that is under way.
fn refuses(out: &mut Out, title: &str, file: &[u8], memory: &[i32], number: u32, at: usize) {
    let cells = if memory.len() <= 16 { spaced(memory) } else { String::new() };
    let no = format!("refused {number} at {at}");
    out.known(&format!("{title}, run"), file, &on(memory, &Ask::Budget(9)), &format!("{no}; node 0 count 0 memory{cells}"));
    let from = Ask::Calls(Run { node: 2, count: 7 }, vec![1, 4]);
    out.known(&format!("{title}, step"), file, &on(memory, &from), &format!("{no}; {no}; node 2 count 7 memory{cells}"));
}

/// Questions 1 to 11 and 20, a few of each, of the factorial lesson.
pub fn refusals(out: &mut Out) {
    out.group("refusal");
    let f = factorial();
    let file = f.bytes();
    let memory = [3, 5];
    refuses(out, "empty file", &[], &memory, 1, 0);
    for tag in 1..=4u8 {
        let head = f.head(tag);
        refuses(out, &format!("cut in head {tag}"), &file[..head + 2], &memory, 1, head);
        let changed = |at: usize, to: u8| {
            let mut bytes = file.clone();
            bytes[head + at] = to;
            bytes
        };
        refuses(out, &format!("tag {tag} is 9"), &changed(0, 9), &memory, 2, head);
        refuses(out, &format!("length of field {tag}"), &changed(2, file[head + 2] + 1), &memory, 3, head);
        refuses(out, &format!("field {tag} cut"), &file[..f.head(tag + 1) - 1], &memory, 4, head);
    }
    refuses(out, "one byte more", &[file.clone(), vec![0]].concat(), &memory, 5, file.len());
    let mut s = f.clone();
    s.names[1] = 65;
    refuses(out, "size 65", &s.bytes(), &memory, 6, 5);
    for (t, i) in [(0, 0), (0, 7), (1, 0), (2, 0), (2, 6)] {
        let at = f.place(t, i);
        refuses(out, &format!("7 at {at}"), &with_entry(&f, t, i, entry(10, 0, 0, 0)).bytes(), &memory, 7, at);
        refuses(out, &format!("8 at {at}"), &with_entry(&f, t, i, entry(0, 0, 0, 1)).bytes(), &memory, 8, at);
        let wrong = if t == 2 { entry(3, 99, 0, 0) } else { entry(5, 99, 0, 0) };
        refuses(out, &format!("9 at {at}"), &with_entry(&f, t, i, wrong).bytes(), &memory, 9, at);
    }
    refuses(out, "an array for a variable", &with_entry(&f, 2, 0, entry(2, 1, 0, 0)).bytes(), &memory, 8, f.place(2, 0));
    refuses(out, "10, a number unused", &with_entry(&f, 2, 0, entry(0, 0, 0, 0)).bytes(), &memory, 10, f.place(0, 0));
    let mut s = Script::new(&[0, 0]);
    s.true_skip();
    refuses(out, "11", &s.bytes(), &memory, 11, s.place(2, 1));
    // The names take 7 bytes, the heads of two empty fields 6, the last head 3; the condition of an if 7 more.
    for (text, at) in [("break", 16), ("continue", 16), ("skip; break", 23), ("if true -> continue fi", 23), ("do true -> break od; break", 44)] {
        refuses(out, &format!("20, {text}"), &draft_of("x y", text).bytes(), &memory, 20, at);
    }
}

/// Question 12: memories that are shorter or longer than the script's.
pub fn memories(out: &mut Out) {
    out.group("memory");
    let file = factorial().bytes();
    for length in [0, 1, 3, 4, 16, 17, 511, 512, 513, 600, 1024] {
        refuses(out, &format!("factorial, {length} cells"), &file, &vec![3; length], 12, 0);
    }
    let names = "x A64 B64 C64 D64 E64 F64 G64 H63";
    let large = file_of(names, "x := 1; if H[62] > 0 -> skip fi");
    for length in [0, 1, 2, 511, 513, 514, 1024] {
        refuses(out, &format!("512 cells, lent {length}"), &large, &vec![3; length], 12, 0);
    }
    out.known("512 cells, lent 512", &large, &on(&[3; 512], &Ask::Budget(9)), "answer 0; node 1 count 3 memory");
    // One cell is one cell, whether a variable's or an array's.
    for (names, text) in [("x", "x := 1"), ("A1", "A[0] := 1")] {
        let file = file_of(names, text);
        for length in [0, 2] {
            refuses(out, &format!("{text}, {length} cells"), &file, &vec![5; length], 12, 0);
        }
        out.known(&format!("{text}, 1 cell"), &file, &on(&[5], &Ask::Budget(9)), "answer 0; node 1 count 1 memory 1");
    }
}

/// Step calls from a run at a node, with 7 arrows taken.
fn from(node: u16, calls: &[u16]) -> Ask {
    Ask::Calls(Run { node, count: 7 }, calls.to_vec())
}

/// Question 14.
pub fn nodes(out: &mut Out) {
    let file = factorial().bytes();
    let memory = [3, 5];
    out.group("node");
    for node in [5, 6, 255, 256, 32768, 65535] {
        for edge in [0, 4, 5, 65535] {
            out.known(&format!("{node}, arrow {edge}"), &file, &on(&memory, &from(node, &[edge])), &format!("refused 14 at 0; node {node} count 7 memory 3 5"));
        }
    }
    // The last node is in the graph, and so is node 1, which no arrow leaves.
    out.known("4", &file, &on(&memory, &from(4, &[3])), "taken; node 2 count 8 memory 2 5");
    for edge in 0..=5 {
        out.known(&format!("1, arrow {edge}"), &file, &on(&memory, &from(1, &[edge])), "refused 15 at 0; node 1 count 7 memory 3 5");
    }
    // 129 nodes, the most.
    let longest = sequence(128, 0).bytes();
    for (node, expected) in [(128, "refused 15 at 0"), (129, "refused 14 at 0")] {
        out.known(&format!("{node} of 129"), &longest, &on(&[9], &from(node, &[128])), &format!("{expected}; node {node} count 7 memory 9"));
    }
}

/// Question 15.
pub fn arrows(out: &mut Out) {
    let (file, memory) = (factorial().bytes(), [3, 5]);
    out.group("arrow");
    let leaves = [0, 2, 3, 4, 2];
    for node in [0, 2, 3, 4] {
        for edge in [0, 1, 2, 3, 4, 5, 6, 255, 256, 260, 65535] {
            let title = format!("{edge} from node {node}");
            if leaves.get(usize::from(edge)) != Some(&node) {
                out.known(&title, &file, &on(&memory, &from(node, &[edge])), &format!("refused 15 at 0; node {node} count 7 memory 3 5"));
            } else {
                out.put(&title, &file, &on(&memory, &from(node, &[edge])));
            }
        }
    }
    // 255 arrows, the most.
    let most = loops(127).bytes();
    out.known("254 of 255", &most, &on(&[9], &from(0, &[254])), "undefined 31; node 0 count 7 memory 9");
    out.known("255 of 255", &most, &on(&[9], &from(0, &[255])), "refused 15 at 0; node 0 count 7 memory 9");
}

/// Which of several questions comes first.
pub fn firsts(out: &mut Out) {
    let file = factorial().bytes();
    out.group("first");
    let damaged = |file: &[u8]| [file, &[0]].concat();
    let end = file.len();
    let loose = draft_of("x y", "break").bytes();
    for (title, bytes, memory, node, edge, expected) in [
        ("5 and 12", damaged(&file), &[3][..], 0, 0, format!("refused 5 at {end}")),
        ("5, 12, 14 and 15", damaged(&file), &[3], 9, 9, format!("refused 5 at {end}")),
        ("5 and 14", damaged(&file), &[3, 5], 9, 0, format!("refused 5 at {end}")),
        ("5 and 15", damaged(&file), &[3, 5], 0, 9, format!("refused 5 at {end}")),
        ("1 and 12", Vec::new(), &[], 0, 0, "refused 1 at 0".to_string()),
        ("20 and 12", loose.clone(), &[3], 0, 0, "refused 20 at 16".to_string()),
        ("20, 12, 14 and 15", loose.clone(), &[], 9, 9, "refused 20 at 16".to_string()),
        ("20 and 14", loose.clone(), &[3, 5], 2, 0, "refused 20 at 16".to_string()),
        ("20 and 15", loose.clone(), &[3, 5], 0, 1, "refused 20 at 16".to_string()),
        ("12, 14 and 15", file.clone(), &[3], 9, 9, "refused 12 at 0".to_string()),
        ("12 and 14", file.clone(), &[3], 5, 0, "refused 12 at 0".to_string()),
        ("12 and 15", file.clone(), &[3], 0, 1, "refused 12 at 0".to_string()),
        ("14 and 15", file.clone(), &[3, 5], 5, 5, "refused 14 at 0".to_string()),
        ("15 before an action is undefined", file.clone(), &[0, 5], 0, 1, "refused 15 at 0".to_string()),
        ("nothing but an undefined action", file.clone(), &[0, 5], 2, 1, "undefined 31".to_string()),
    ] {
        let expected = format!("{expected}; node {node} count 7 memory{}", spaced(memory));
        out.known(title, &bytes, &on(memory, &from(node, &[edge])), &expected);
    }
    // A run never asks 14 and 15, and asks 12 before its budget.
    out.known("12 and a budget of 0", &file, &on(&[3], &Ask::Budget(0)), "refused 12 at 0; node 0 count 0 memory 3");
    out.known("20, 12 and a budget of 0", &loose, &on(&[3], &Ask::Budget(0)), "refused 20 at 16; node 0 count 0 memory 3");
}

/// "The count stays at 65,535", and is left as it was by what is undefined or refused.
pub fn counted(out: &mut Out) {
    out.group("count");
    let file = factorial().bytes();
    for (count, after) in [(0, 1), (1, 2), (255, 256), (32767, 32768), (65533, 65534), (65534, 65535), (65535, 65535)] {
        let from = |node: u16, calls: &[u16]| Ask::Calls(Run { node, count }, calls.to_vec());
        out.known(&format!("{count}, taken"), &file, &on(&[3, 5], &from(0, &[0])), &format!("taken; node 2 count {after} memory 3 1"));
        out.known(&format!("{count}, guard taken"), &file, &on(&[3, 5], &from(2, &[1])), &format!("taken; node 3 count {after} memory 3 5"));
        out.known(&format!("{count}, exit taken"), &file, &on(&[0, 5], &from(2, &[4])), &format!("taken; node 1 count {after} memory 0 5"));
        out.known(&format!("{count}, undefined"), &file, &on(&[3, 5], &from(2, &[4])), &format!("undefined 31; node 2 count {count} memory 3 5"));
        out.known(&format!("{count}, refused"), &file, &on(&[3, 5], &from(2, &[3])), &format!("refused 15 at 0; node 2 count {count} memory 3 5"));
        out.known(&format!("{count}, no such node"), &file, &on(&[3, 5], &from(9, &[3])), &format!("refused 14 at 0; node 9 count {count} memory 3 5"));
        out.known(&format!("{count}, one cell"), &file, &on(&[3], &from(0, &[0])), &format!("refused 12 at 0; node 0 count {count} memory 3"));
        let calls = [0, 1, 1, 2, 3, 4, 1, 2, 3, 0];
        let outcomes = "taken; taken; refused 15 at 0; taken; taken; undefined 31; taken; taken; taken; refused 15 at 0";
        let after = count.saturating_add(7);
        out.known(&format!("{count}, some of each"), &file, &on(&[3, 5], &from(0, &calls)), &format!("{outcomes}; node 2 count {after} memory 1 6"));
    }
    // By hand from a fresh run, as far as a list goes: 512 calls of a loop of two arrows.
    let file = file_of("x", "do true -> x := x + 1 od");
    let calls: Vec<u16> = (0..CALLS as u16).map(|k| k % 2).collect();
    out.known("512 calls", &file, &on(&[0], &steps(&calls)), &format!("{}node 0 count 512 memory 256", "taken; ".repeat(CALLS)));
    let last = Ask::Calls(Run { node: 0, count: 65530 }, calls[..12].to_vec());
    out.known("past 65535", &file, &on(&[0], &last), &format!("{}node 0 count 65535 memory 6", "taken; ".repeat(12)));
}
