//! Breaks and continues: their arrows, and question 20.

use super::*;

pub fn jumps(out: &mut Out) {
    out.group("jump");
    adding_and_counting_graphs(out);
    graphs_of_one_loop(out);
    graphs_of_loops_in_loops(out);
    longest_graphs(out);
    out.group("loose");
    first_places(out);
    lowest(out);
    beside_others(out);
    in_other_modes(out);
}

/// A graph of which every arrow has been worked out by hand: from, to, action kind and entry, as they are printed.
fn drawn(out: &mut Out, title: &str, script: &Script, nodes: usize, arrows: &str) {
    let arrows: Vec<&str> = arrows.split(", ").collect();
    let counts = format!("nodes {nodes} arrows {}", arrows.len());
    out.known(title, &script.bytes(), &Mode::Edges, &counts);
    assert!(out.text.ends_with(&format!(": {counts}\n{}\n", arrows.join("\n"))), "{title}");
}

fn drawn_of(out: &mut Out, text: &str, nodes: usize, arrows: &str) {
    drawn(out, text, &script_of("x y", text), nodes, arrows);
}

/// The book's Example 2.25, with a break, and with a continue or a skip in its place.
fn adding_and_counting_graphs(out: &mut Out) {
    for (jump, target) in [("break", 1), ("continue", 4), ("skip", 6)] {
        let before = "0 2 1 0, 2 3 1 1, 3 4 1 2, 4 5 2 0, 5 7 2 1, 7 8 1 3, 8 6 1 4, 5 9 2 2, 9 10 1 7";
        let arrows = format!("{before}, 10 {target} 1 8, 6 4 1 13, 4 1 3 15");
        drawn(out, &format!("adding and counting, {jump}"), &adding_and_counting(jump), 11, &arrows);
    }
}

fn graphs_of_one_loop(out: &mut Out) {
    drawn_of(out, "do true -> break od", 3, "0 2 2 0, 2 1 1 0, 0 1 3 1");
    drawn_of(out, "do true -> continue od", 3, "0 2 2 0, 2 0 1 0, 0 1 3 1");
    // The loop's first node is not 0, its last is not 1.
    drawn_of(out, "skip; do true -> break od; skip", 5, "0 2 1 0, 2 4 2 0, 4 3 1 1, 2 3 3 2, 3 1 1 4");
    drawn_of(out, "skip; do true -> continue od; skip", 5, "0 2 1 0, 2 4 2 0, 4 2 1 1, 2 3 3 2, 3 1 1 4");
    // The node after a jump stays, reached or not.
    drawn_of(out, "do true -> break; x := 1 od", 4, "0 2 2 0, 2 1 1 0, 3 0 1 1, 0 1 3 3");
    drawn_of(out, "do true -> continue; x := 1 od", 4, "0 2 2 0, 2 0 1 0, 3 0 1 1, 0 1 3 3");
    drawn_of(out, "do true -> x := 1; break od", 4, "0 2 2 0, 2 3 1 0, 3 1 1 1, 0 1 3 3");
    drawn_of(out, "do true -> break; continue; break od", 5, "0 2 2 0, 2 1 1 0, 3 0 1 1, 4 1 1 2, 0 1 3 5");
    drawn_of(out, "do true -> break; do true -> skip od od", 5, "0 2 2 0, 2 1 1 0, 3 4 2 1, 4 3 1 1, 3 0 3 2, 0 1 3 5");
    // In the arms of the loop itself, and of ifs in it.
    drawn_of(out, "do x > 0 -> break [] y > 0 -> continue [] true -> skip od", 5, "0 2 2 0, 2 1 1 0, 0 3 2 1, 3 0 1 2, 0 4 2 2, 4 0 1 5, 0 1 3 7");
    drawn_of(out, "do true -> if x > 0 -> break [] true -> continue fi od", 5, "0 2 2 0, 2 3 2 1, 3 1 1 0, 2 4 2 2, 4 0 1 2, 0 1 3 6");
    drawn_of(out, "do true -> if x > 0 -> if y > 0 -> break fi; x := 1 fi; y := 1 od", 7, "0 2 2 0, 2 4 2 1, 4 6 2 2, 6 1 1 0, 5 3 1 3, 3 0 1 7, 0 1 3 9");
    // In an if about the loop nothing changes.
    drawn_of(out, "if true -> do true -> break od [] true -> skip fi", 5, "0 2 2 0, 2 3 2 1, 3 1 1 0, 2 1 3 1, 0 4 2 2, 4 1 1 4");
    // The entries in another order: the continue is entry 0, and runs last.
    let mut s = Script::new(&[0]);
    let (again, skip, leave) = (s.jump(CONTINUE), s.skip(), s.jump(BREAK));
    let (b, c, d) = (s.truth(), s.truth(), s.truth());
    let (g, h) = (s.guard(c, leave), s.guard(d, skip));
    let both = s.choice(h, g);
    let test = s.if_fi(both);
    let body = s.then(test, again);
    let body = s.guard(b, body);
    s.do_od(body);
    drawn(out, "entries in another order", &s, 6, "0 2 2 0, 2 4 2 2, 4 3 1 1, 2 5 2 1, 5 1 1 2, 3 0 1 0, 0 1 3 8");
}

/// "Of the innermost do around it."
fn graphs_of_loops_in_loops(out: &mut Out) {
    let inner = "do y > 0 -> if y > 1 -> break [] true -> continue fi od";
    let inside = "0 2 2 0, 2 4 2 1, 4 5 2 2, 5 3 1 0, 4 6 2 3, 6 2 1 2, 2 3 3 6";
    drawn_of(
        out,
        &format!("do x > 0 -> {inner}; if x > 1 -> break [] true -> continue fi od"),
        9,
        &format!("{inside}, 3 7 2 4, 7 1 1 8, 3 8 2 5, 8 0 1 10, 0 1 3 15"),
    );
    drawn_of(out, "do x > 0 -> do y > 0 -> break od; x := x - 1 od", 5, "0 2 2 0, 2 4 2 1, 4 3 1 0, 2 3 3 1, 3 0 1 3, 0 1 3 5");
    drawn_of(out, "do x > 0 -> do y > 0 -> continue od; x := x - 1 od", 5, "0 2 2 0, 2 4 2 1, 4 2 1 0, 2 3 3 1, 3 0 1 3, 0 1 3 5");
    // A loop that is the whole body of another ends where that one begins.
    drawn_of(out, "do true -> do true -> break od od", 4, "0 2 2 0, 2 3 2 1, 3 0 1 0, 2 0 3 1, 0 1 3 3");
    drawn_of(out, "do true -> do true -> continue od od", 4, "0 2 2 0, 2 3 2 1, 3 2 1 0, 2 0 3 1, 0 1 3 3");
    // The outer loop again: after the inner one, before it, and in an arm beside it.
    drawn_of(out, "do true -> do true -> skip od; break od", 5, "0 2 2 0, 2 4 2 1, 4 2 1 0, 2 3 3 1, 3 1 1 3, 0 1 3 5");
    drawn_of(out, "do true -> do true -> break od; continue od", 5, "0 2 2 0, 2 4 2 1, 4 3 1 0, 2 3 3 1, 3 0 1 3, 0 1 3 5");
    drawn_of(out, "do x > 0 -> do true -> break od [] true -> break od", 5, "0 2 2 0, 2 3 2 1, 3 0 1 0, 2 0 3 1, 0 4 2 2, 4 1 1 4, 0 1 3 6");
    drawn_of(
        out,
        "do true -> do true -> do true -> break od; break od; break od",
        7,
        "0 2 2 0, 2 4 2 1, 4 6 2 2, 6 5 1 0, 4 5 3 1, 5 3 1 3, 2 3 3 5, 3 1 1 7, 0 1 3 9",
    );
    drawn_of(
        out,
        "do true -> do true -> do true -> continue od; continue od; continue od",
        7,
        "0 2 2 0, 2 4 2 1, 4 6 2 2, 6 4 1 0, 4 5 3 1, 5 2 1 3, 2 3 3 5, 3 0 1 7, 0 1 3 9",
    );
    // Loops one after another.
    drawn_of(out, "do true -> break od; do true -> continue od", 5, "0 3 2 0, 3 2 1 0, 0 2 3 1, 2 4 2 1, 4 2 1 3, 2 1 3 4");
}

/// 129 nodes and 255 arrows, with jumps in place of skips.
fn longest_graphs(out: &mut Out) {
    // The innermost of 127 loops goes from 127 to 126, and its guard's node is 128.
    for (kind, word, target) in [(BREAK, "break", 126), (CONTINUE, "continue", 127)] {
        let s = loops_about(kind, 127);
        out.known(&format!("127 loops about a {word}"), &s.bytes(), &Mode::Sum(1785), "nodes 129 arrows 255");
        assert_eq!(Graph::of(&s, Nondeterministic).arrows[127].written(), (128, target, 1, 0));
    }
    out.known("127 loops about a break, 1784 bytes", &loops_about(BREAK, 127).bytes(), &Mode::Sum(1784), "refused 13 at 0");
    for (shape, word) in [(0, "left"), (1, "right"), (2, "in halves")] {
        let mode = if shape == 0 { Mode::Edges } else { Mode::Sum(1785) };
        out.known(&format!("127 jumps nested {word}"), &jumps_in_a_loop(127, shape).bytes(), &mode, "nodes 129 arrows 129");
    }
    // One loop with as many arms as fit, each a jump.
    let arms: Vec<String> = (0..85).map(|k| format!("true -> {}", ["break", "continue"][k % 2])).collect();
    out.known("85 arms", &file_of("x", &format!("do {} od", arms.join(" [] "))), &Mode::Sum(1785), "nodes 87 arrows 171");
    // 64 loops, a jump in each.
    let text: Vec<String> = (0..64).map(|k| format!("do true -> {} od", ["break", "continue"][k % 2])).collect();
    out.known("64 loops in sequence", &file_of("x", &text.join("; ")), &Mode::Sum(1785), "nodes 129 arrows 192");
}

fn refused_at(out: &mut Out, title: &str, s: &Script, number: u32, at: usize) {
    out.known(title, &s.bytes(), &Mode::Edges, &format!("refused {number} at {at}"));
}

fn loose(out: &mut Out, text: &str, at: usize) {
    refused_at(out, text, &draft_of("x", text), 20, at);
}

/// 20 at its first possible offset, with one name, and at each place that a command can stand at. A condition more moves the commands by 7 bytes.
fn first_places(out: &mut Out) {
    for jump in ["break", "continue"] {
        loose(out, jump, 14);
        loose(out, &format!("{jump}; skip"), 14);
        loose(out, &format!("skip; {jump}"), 21);
        loose(out, &format!("if true -> {jump} fi"), 21);
        loose(out, &format!("if true -> skip [] true -> {jump} fi"), 42);
        loose(out, &format!("if true -> if true -> {jump} fi fi"), 28);
        // A do beside it is not about it.
        loose(out, &format!("do true -> skip od; {jump}"), 42);
        loose(out, &format!("{jump}; do true -> skip od"), 21);
        loose(out, &format!("if true -> do true -> skip od [] true -> {jump} fi"), 63);
        // Nor is one with a jump of its own.
        loose(out, &format!("do true -> break od; {jump}"), 42);
        loose(out, &format!("do true -> continue od; {jump}"), 42);
        loose(out, &format!("{jump}; do true -> {jump} od"), 21);
        loose(out, &format!("if true -> do true -> do true -> {jump} od od; {jump} fi"), 70);
    }
    // Late in the file: 126 loops about a break are 253 entries, and the continue after them is the next.
    let mut s = loops_about(BREAK, 126);
    let c = s.tables[COMMANDS].len() as u16 - 1;
    let d = s.jump(CONTINUE);
    s.then(c, d);
    refused_at(out, "at entry 253", &s, 20, 5 + 3 + (3 + 126 * 7) + 3 + 253 * 7);
}

/// "The lowest such entry": by its number, whatever comes first in the script.
fn lowest(out: &mut Out) {
    loose(out, "break; continue", 14);
    loose(out, "continue; break", 14);
    loose(out, "break; break", 14);
    loose(out, "skip; continue; break", 21);
    loose(out, "do true -> break od; continue; break", 42);
    // Arms exchanged, so that the lower entry is in the second.
    let mut s = Script::new(&[0]);
    let (low, high) = (s.jump(CONTINUE), s.jump(BREAK));
    let (b, c) = (s.truth(), s.truth());
    let (g, h) = (s.guard(b, high), s.guard(c, low));
    let both = s.choice(g, h);
    s.if_fi(both);
    refused_at(out, "the lower one in the second arm", &s, 20, 28);
    let mut s = Script::new(&[0]);
    let (low, high, inside) = (s.jump(CONTINUE), s.jump(BREAK), s.jump(BREAK));
    let b = s.truth();
    let g = s.guard(b, inside);
    let looped = s.do_od(g);
    let last = s.then(looped, low);
    s.then(high, last);
    refused_at(out, "the lower one last", &s, 20, 21);
    // Entry 0 is in the loop, entry 1 is not.
    s.tables[COMMANDS][usize::from(g)].operands[1] = low;
    s.tables[COMMANDS][usize::from(last)].operands[1] = inside;
    refused_at(out, "the lowest of all in a loop", &s, 20, 28);
}

/// Two questions at once: 20 comes after 11 and before 13.
fn beside_others(out: &mut Out) {
    let mut s = draft_of("x", "break; skip");
    for (title, e, number) in [
        ("7", entry(10, 0, 0, 0), 7),
        ("8 of a skip", entry(0, 0, 1, 0), 8),
        ("8 of a break", entry(BREAK, 0, 0, 1), 8),
        ("8 of a continue", entry(CONTINUE, 256, 0, 0), 8),
        ("9", entry(3, 0, 1, 0), 9),
    ] {
        s.tables[COMMANDS][1] = e;
        refused_at(out, &format!("{title} and 20"), &s, number, 21);
    }
    let mut s = draft_of("x", "break; skip");
    s.tables[COMMANDS].insert(2, entry(0, 0, 0, 0));
    refused_at(out, "10 of a later entry and 20", &s, 10, 28);
    s.tables[COMMANDS][2] = entry(CONTINUE, 0, 0, 0);
    refused_at(out, "10 of a jump and 20 of another", &s, 10, 28);
    let mut s = draft_of("x", "break; skip");
    s.tables[COMMANDS][2] = entry(3, 0, 0, 0);
    refused_at(out, "10, a jump used twice", &s, 10, 14);
    // An arithmetic entry that is not used has a lower place than any jump.
    s.tables[COMMANDS][2] = entry(3, 0, 1, 0);
    s.number(7);
    refused_at(out, "10 of a number and 20", &s, 10, 8);
    // true -> break, alone and in a choice.
    let mut s = Script::new(&[0]);
    let (b, c) = (s.truth(), s.jump(BREAK));
    s.guard(b, c);
    refused_at(out, "11 and 20", &s, 11, 28);
    let h = s.true_skip();
    s.choice(1, h);
    refused_at(out, "11 of a choice and 20", &s, 11, 56);
    for room in [0, 6, 7, 2000] {
        out.known(&format!("20, {room} bytes"), &draft_of("x", "continue").bytes(), &Mode::Sum(room), "refused 20 at 14");
    }
}

/// The other operations on a file, and the sheet program's input.
fn in_other_modes(out: &mut Out) {
    let fit = script_of("x", "do true -> break od");
    let s = draft_of("x", "if true -> break fi");
    out.put("fit, read", &fit.bytes(), &Mode::Readings);
    out.known("read", &s.bytes(), &Mode::Readings, "refused 20 at 21");
    let input = |s: &Script, list: &[u8]| [s.bytes(), field(5, list)].concat();
    let end = s.bytes().len();
    for (title, bytes, expected) in [
        ("fit input", input(&fit, &[4]), "fit".to_string()),
        ("input", input(&s, &[4]), "refused 20 at 21".to_string()),
        ("input, no record", input(&s, &[]), "refused 20 at 21".to_string()),
        ("input, a wrong record", input(&s, &[9]), "refused 20 at 21".to_string()),
        ("input, 1 of the list", s.bytes(), format!("refused 1 at {end}")),
        ("input, 2 of the list", [s.bytes(), field(6, &[4])].concat(), format!("refused 2 at {end}")),
        ("input, 3 of the list", input(&s, &[4; 513]), format!("refused 3 at {end}")),
        ("input, 4 of the list", input(&s, &[4])[..end + 3].to_vec(), format!("refused 4 at {end}")),
        ("input, 5 after the list", [input(&s, &[4]), vec![0]].concat(), format!("refused 5 at {}", end + 4)),
    ] {
        out.known(title, &bytes, &Mode::Input, &expected);
    }
    out.put("fit parts", &input(&fit, &[4, 2]), &Mode::Parts);
    out.known("parts", &input(&s, &[4, 2]), &Mode::Parts, "refused 20 at 21");
}
