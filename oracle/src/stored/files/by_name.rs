//! Graphs by name: the deterministic one arrow by arrow, and both with question 13 and refusals.

use super::*;

pub fn deterministic(out: &mut Out) {
    out.group("deterministic");
    known_scripts(out);
    single_guards(out);
    overlapping_guards(out);
    nested_choices(out);
    choices_in_bodies(out);
    jumps(out);
    many_guards(out);
}

pub fn by_name(out: &mut Out) {
    out.group("by name");
    same_as_unnamed(out);
    rooms(out);
    refusals(out);
    random(out);
}

/// A deterministic graph of which every arrow has been worked out by hand: from, to, action kind and entry, as they are printed.
fn drawn(out: &mut Out, title: &str, script: &Script, nodes: usize, arrows: &str) {
    let arrows: Vec<&str> = arrows.split(", ").collect();
    let counts = format!("nodes {nodes} arrows {}", arrows.len());
    out.known(title, &script.bytes(), &answers::by_name(Deterministic, &Mode::Edges), &counts);
    assert!(out.text.ends_with(&format!(": {counts}\n{}\n", arrows.join("\n"))), "{title}");
    assert_alike(&script.loaded());
}

fn drawn_of(out: &mut Out, text: &str, nodes: usize, arrows: &str) {
    drawn(out, text, &script_of("x y", text), nodes, arrows);
}

fn known_scripts(out: &mut Out) {
    // Document 01: 0 to 2 y := 1; 2 to 3 guard; 3 to 4 product; 4 to 2 subtraction; 2 to 1 exit.
    drawn(out, "factorial", &factorial(), 5, "0 2 1 0, 2 3 4 4, 3 4 1 1, 4 2 1 2, 2 1 3 4");
    drawn(out, "every kind", &tour(), 8, "0 3 4 6, 3 5 1 0, 5 4 1 1, 4 0 1 4, 0 6 4 7, 6 2 1 2, 0 2 3 8, 2 7 4 11, 7 1 1 10");
    // The book's Example 2.25.
    for (jump, target) in [("break", 1), ("continue", 4), ("skip", 6)] {
        let before = "0 2 1 0, 2 3 1 1, 3 4 1 2, 4 5 4 15, 5 7 4 6, 7 8 1 3, 8 6 1 4, 5 9 4 10, 9 10 1 7";
        let arrows = format!("{before}, 10 {target} 1 8, 6 4 1 13, 4 1 3 15");
        drawn(out, &format!("adding and counting, {jump}"), &adding_and_counting(jump), 11, &arrows);
    }
}

/// "The first of a construct too."
fn single_guards(out: &mut Out) {
    drawn_of(out, "skip", 2, "0 1 1 0");
    drawn_of(out, "if x > 0 -> skip fi", 3, "0 2 4 1, 2 1 1 0");
    drawn_of(out, "do x > 0 -> skip od", 3, "0 2 4 1, 2 0 1 0, 0 1 3 1");
    drawn_of(out, "skip; if x > 0 -> y := 1 fi", 4, "0 2 1 0, 2 3 4 2, 3 1 1 1");
    // A condition of several entries: the entry is the guarded command's, not the condition's.
    drawn_of(out, "if x > 0 and !(y > 0) -> skip fi", 3, "0 2 4 1, 2 1 1 0");
}

/// Guards that overlap: the larger of two numbers, and document 002's example.
fn overlapping_guards(out: &mut Out) {
    drawn_of(out, "if x >= y -> y := x [] y >= x -> x := y fi", 4, "0 2 4 1, 2 1 1 0, 0 3 4 3, 3 1 1 2");
    drawn_of(out, "do x >= y -> y := x [] y >= x -> x := y od", 4, "0 2 4 1, 2 0 1 0, 0 3 4 3, 3 0 1 2, 0 1 3 4");
    drawn_of(out, "if x >= 10 -> y := 10 [] x >= 5 -> y := 5 [] x >= 0 -> y := 0 fi", 5, "0 2 4 1, 2 1 1 0, 0 3 4 3, 3 1 1 2, 0 4 4 6, 4 1 1 5");
    drawn_of(
        out,
        "if x > 0 -> skip [] y > 0 -> skip fi; if x > 1 -> skip [] y > 1 -> skip fi",
        7,
        "0 3 4 1, 3 2 1 0, 0 4 4 3, 4 2 1 2, 2 5 4 7, 5 1 1 6, 2 6 4 9, 6 1 1 8",
    );
}

fn nested_choices(out: &mut Out) {
    let [a, b, c, d] = [0, 1, 2, 3].map(|n| format!("x > {n} -> skip"));
    drawn_of(out, &format!("if {a} [] {b} [] {c} fi"), 5, "0 2 4 1, 2 1 1 0, 0 3 4 3, 3 1 1 2, 0 4 4 6, 4 1 1 5");
    drawn_of(out, &format!("do {a} [] {b} [] {c} od"), 5, "0 2 4 1, 2 0 1 0, 0 3 4 3, 3 0 1 2, 0 4 4 6, 4 0 1 5, 0 1 3 7");
    drawn_of(out, &format!("if {a} [] {{ {b} [] {c} }} fi"), 5, "0 2 4 1, 2 1 1 0, 0 3 4 3, 3 1 1 2, 0 4 4 5, 4 1 1 4");
    drawn_of(out, &format!("do {a} [] {{ {b} [] {c} }} od"), 5, "0 2 4 1, 2 0 1 0, 0 3 4 3, 3 0 1 2, 0 4 4 5, 4 0 1 4, 0 1 3 7");
    let halves = "0 2 4 1, 2 0 1 0, 0 3 4 3, 3 0 1 2, 0 4 4 6, 4 0 1 5, 0 5 4 8, 5 0 1 7, 0 1 3 10";
    drawn_of(out, &format!("do {{ {a} [] {b} }} [] {{ {c} [] {d} }} od"), 6, halves);
    let right = "0 2 4 1, 2 1 1 0, 0 3 4 3, 3 1 1 2, 0 4 4 5, 4 1 1 4, 0 5 4 7, 5 1 1 6";
    drawn_of(out, &format!("if {a} [] {{ {b} [] {{ {c} [] {d} }} }} fi"), 6, right);
    // The arms' entries in another order than the text's.
    let mut s = Script::new(&[0]);
    let g: Vec<u16> = (0..4).map(|_| s.true_skip()).collect();
    let c = s.choice(g[3], g[0]);
    let d = s.choice(g[2], g[1]);
    let c = s.choice(d, c);
    s.if_fi(c);
    drawn(out, "if of four, entries in another order", &s, 6, "0 2 4 5, 2 1 1 4, 0 3 4 3, 3 1 1 2, 0 4 4 7, 4 1 1 6, 0 5 4 1, 5 1 1 0");
}

/// "The same if or do": a body begins anew, and what is in it does not count for the next arm.
fn choices_in_bodies(out: &mut Out) {
    let (y, x) = ("y > 0 -> skip [] y > 1 -> skip", "x > 1 -> skip");
    drawn_of(out, &format!("if x > 0 -> if {y} fi [] {x} fi"), 6, "0 2 4 6, 2 3 4 1, 3 1 1 0, 2 4 4 3, 4 1 1 2, 0 5 4 8, 5 1 1 7");
    drawn_of(out, &format!("if x > 0 -> skip [] x > 1 -> if {y} fi fi"), 6, "0 2 4 1, 2 1 1 0, 0 3 4 8, 3 4 4 3, 4 1 1 2, 3 5 4 5, 5 1 1 4");
    drawn_of(out, &format!("do x > 0 -> do {y} od [] {x} od"), 6, "0 2 4 6, 2 3 4 1, 3 2 1 0, 2 4 4 3, 4 2 1 2, 2 0 3 4, 0 5 4 8, 5 0 1 7, 0 1 3 9");
    drawn_of(
        out,
        "do x > 0 -> do y > 0 -> skip od; x := x - 1 [] y > 0 -> skip od",
        6,
        "0 2 4 5, 2 4 4 1, 4 2 1 0, 2 3 3 1, 3 0 1 3, 0 5 4 7, 5 0 1 6, 0 1 3 8",
    );
    drawn_of(out, &format!("if x > 0 -> do {y} od [] {x} fi"), 6, "0 2 4 6, 2 3 4 1, 3 2 1 0, 2 4 4 3, 4 2 1 2, 2 1 3 4, 0 5 4 8, 5 1 1 7");
    drawn_of(out, &format!("do x > 0 -> if {y} fi [] {x} od"), 6, "0 2 4 6, 2 3 4 1, 3 0 1 0, 2 4 4 3, 4 0 1 2, 0 5 4 8, 5 0 1 7, 0 1 3 9");
}

fn jumps(out: &mut Out) {
    drawn_of(out, "do true -> break od", 3, "0 2 4 1, 2 1 1 0, 0 1 3 1");
    drawn_of(out, "do true -> continue; x := 1 od", 4, "0 2 4 3, 2 0 1 0, 3 0 1 1, 0 1 3 3");
    drawn_of(out, "do x > 0 -> break [] y > 0 -> continue [] true -> skip od", 5, "0 2 4 1, 2 1 1 0, 0 3 4 3, 3 0 1 2, 0 4 4 6, 4 0 1 5, 0 1 3 7");
    drawn_of(
        out,
        "do x > 0 -> if y > 0 -> break [] true -> continue fi [] y > 0 -> do x > 1 -> skip od od",
        7,
        "0 2 4 6, 2 3 4 1, 3 1 1 0, 2 4 4 3, 4 0 1 2, 0 5 4 10, 5 6 4 8, 6 5 1 7, 5 0 3 8, 0 1 3 11",
    );
    drawn_of(
        out,
        "do x > 0 -> do y > 0 -> if y > 1 -> break [] true -> continue fi od; if x > 1 -> break [] true -> continue fi od",
        9,
        "0 2 4 15, 2 4 4 6, 4 5 4 1, 5 3 1 0, 4 6 4 3, 6 2 1 2, 2 3 3 6, 3 7 4 9, 7 1 1 8, 3 8 4 11, 8 0 1 10, 0 1 3 15",
    );
}

/// As many guards as fit, in one if or do and in 127 loops.
fn many_guards(out: &mut Out) {
    let arms: Vec<String> = (0..85).map(|k| format!("x > {k} -> skip")).collect();
    // Entries: skip and guard of the first arm, then skip, guard and choice of each.
    let pair = |k: usize, to: usize| format!("0 {} 4 {}, {} {to} 1 {}", k + 2, if k == 0 { 1 } else { 3 * k }, k + 2, if k == 0 { 0 } else { 3 * k - 1 });
    let pairs = |to: usize| (0..85).map(|k| pair(k, to)).collect::<Vec<_>>().join(", ");
    drawn(out, "if of 85 guards", &script_of("x y", &format!("if {} fi", arms.join(" [] "))), 87, &pairs(1));
    drawn(out, "do of 85 guards", &script_of("x y", &format!("do {} od", arms.join(" [] "))), 87, &format!("{}, 0 1 3 253", pairs(0)));
    // The outermost loop is the last entry, and goes from 0 to 1; each other goes from its guard's node back to the loop about it.
    let first = |j: usize| if j == 0 { 0 } else { j + 1 };
    let guards = (0..127).map(|j| format!("{} {} 4 {}", first(j), j + 2, 253 - 2 * j));
    let exits = (0..127).rev().map(|j| format!("{} {} 3 {}", first(j), if j == 0 { 1 } else { first(j - 1) }, 253 - 2 * j));
    let arrows: Vec<String> = guards.chain(["128 127 1 0".to_string()]).chain(exits).collect();
    drawn(out, "127 loops", &loops(127), 129, &arrows.join(", "));
}

/// Document 01's graph by name is the one that is drawn where none is named.
fn same_as_unnamed(out: &mut Out) {
    for (title, script) in [
        ("factorial", factorial()),
        ("every kind", tour()),
        ("the larger of two", script_of("x y", "if x >= y -> y := x [] y >= x -> x := y fi")),
        ("nested choices", script_of("x", "do x > 0 -> if x > 1 -> skip [] { x > 2 -> skip [] x > 3 -> break } fi [] true -> continue od")),
        ("adding and counting", adding_and_counting("break")),
        ("127 skips", sequence(127, 0)),
    ] {
        let (file, mode) = (script.bytes(), answers::by_name(Nondeterministic, &Mode::Edges));
        out.put(title, &file, &mode);
        let told = Mode::Edges.told(&script.loaded()).line;
        assert!(out.text.ends_with(&format!("{title}: {told}\n")), "{title}");
    }
}

/// Question 13: both graphs need the same room.
fn rooms(out: &mut Out) {
    let choices = script_of("x y", "do x > 0 -> if y > 0 -> break [] true -> continue fi [] y > 0 -> do x > 1 -> skip od od");
    for (name, s, counts) in [
        ("skip", sequence(1, 0), "nodes 2 arrows 1"),
        ("factorial", factorial(), "nodes 5 arrows 5"),
        ("tour", tour(), "nodes 8 arrows 9"),
        ("choices", choices, "nodes 7 arrows 10"),
        ("127 loops", loops(127), "nodes 129 arrows 255"),
    ] {
        let need = 7 * counts.rsplit(' ').next().unwrap().parse::<u16>().unwrap();
        for construction in CONSTRUCTIONS {
            for room in [0, 6, 7, need - 7, need - 1, need, need + 1, need + 7, 1785, 2000] {
                let expected = if room < need { "refused 13 at 0" } else { counts };
                let title = format!("{name}, {room} bytes, {construction:?}");
                out.known(&title, &s.bytes(), &answers::by_name(construction, &Mode::Sum(room)), expected);
            }
        }
    }
    let largest = exact(&full_names(), 512, 256, 256).bytes();
    for (room, expected) in [(1777, "refused 13 at 0"), (1778, "nodes 129 arrows 254")] {
        out.known(&format!("largest file, {room} bytes"), &largest, &answers::by_name(Deterministic, &Mode::Sum(room)), expected);
    }
}

/// Each refusal of a file on both graphs, arrow by arrow and drawn, with room and without.
fn refusals(out: &mut Out) {
    for (title, file, number, at) in refused_files() {
        for construction in CONSTRUCTIONS {
            for (word, mode) in [("listed", Mode::Edges), ("no room", Mode::Sum(0)), ("room", Mode::Sum(1785))] {
                let title = format!("{title}, {word}, {construction:?}");
                out.known(&title, &file, &answers::by_name(construction, &mode), &format!("refused {number} at {at}"));
            }
        }
    }
}

/// Fit scripts and damaged ones, mostly on the deterministic graph.
fn random(out: &mut Out) {
    out.group("random by name");
    let r = &mut Random(20_260_601_001);
    for k in 0..160 {
        let construction = if k % 8 == 7 { Nondeterministic } else { Deterministic };
        let mut script = if k % 2 == 0 { random_choice_script(r) } else { random_script(r, [8, 16, 32, 64][k / 2 % 4]) };
        if k % 4 == 3 {
            damage_script(r, &mut script);
        } else {
            assert_alike(&script.loaded());
        }
        let mode = if k < 16 { Mode::Edges } else { Mode::Sum(1785) };
        out.put(&format!("{k}, {construction:?}"), &script.bytes(), &answers::by_name(construction, &mode));
    }
}
