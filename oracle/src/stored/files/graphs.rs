//! Graphs: the factorial lesson, every kind of entry, ifs and dos in one another; question 13.

use super::*;

pub fn graphs(out: &mut Out) {
    out.group("graph");
    out.put("factorial", &factorial().bytes(), &Mode::Edges);
    // Document 01: 0 to 2 y := 1; 2 to 3 guard; 3 to 4 product; 4 to 2 subtraction; 2 to 1 exit.
    assert!(out.text.ends_with("factorial: nodes 5 arrows 5\n0 2 1 0\n2 3 2 0\n3 4 1 1\n4 2 1 2\n2 1 3 4\n"));
    out.put("every kind", &tour().bytes(), &Mode::Edges);
    small_graphs(out);
    for word in ["if", "do"] {
        arms(out, word);
        for inner_word in ["if", "do"] {
            arms_with(out, word, inner_word);
        }
    }
    deep_graphs(out);
}

fn small_graphs(out: &mut Out) {
    out.known("skip alone", &skip_over(&[0]).bytes(), &Mode::Edges, "nodes 2 arrows 1");

    let mut s = Script::new(&[1]);
    let i = s.number(0);
    let v = s.number(1);
    s.store(0, i, v);
    out.put("one store", &s.bytes(), &Mode::Edges);

    let mut s = Script::new(&[0]);
    let x = s.variable(0);
    let zero = s.number(0);
    let b = s.compare(2, x, zero);
    let c = s.skip();
    let g = s.guard(b, c);
    s.if_fi(g);
    out.known("if of one", &s.bytes(), &Mode::Edges, "nodes 3 arrows 2");

    let mut s = Script::new(&[0]);
    let g = s.true_skip();
    s.do_od(g);
    out.known("do of one", &s.bytes(), &Mode::Edges, "nodes 3 arrows 3");
}

fn close(s: &mut Script, word: &str, g: u16) -> u16 {
    if word == "do" {
        s.do_od(g)
    } else {
        s.if_fi(g)
    }
}

/// Three and four arms, in choices that are nested in every way.
fn arms(out: &mut Out, word: &str) {
    let mut s = Script::new(&[0]);
    let g = s.true_skip();
    let h = s.true_skip();
    let k = s.true_skip();
    let c = s.choice(g, h);
    let c = s.choice(c, k);
    close(&mut s, word, c);
    out.put(&format!("{word} of three, nested left"), &s.bytes(), &Mode::Edges);

    let mut s = Script::new(&[0]);
    let g = s.true_skip();
    let h = s.true_skip();
    let k = s.true_skip();
    let c = s.choice(h, k);
    let c = s.choice(g, c);
    close(&mut s, word, c);
    out.put(&format!("{word} of three, nested right"), &s.bytes(), &Mode::Edges);

    let mut s = Script::new(&[0]);
    let g: Vec<u16> = (0..4).map(|_| s.true_skip()).collect();
    let c = s.choice(g[3], g[0]);
    let d = s.choice(g[2], g[1]);
    let c = s.choice(d, c);
    close(&mut s, word, c);
    out.put(&format!("{word} of four, entries in another order"), &s.bytes(), &Mode::Edges);
}

/// Ifs and dos in the arms of an if or a do.
fn arms_with(out: &mut Out, word: &str, inner_word: &str) {
    let mut s = Script::new(&[0]);
    let g = s.true_skip();
    let h = s.true_skip();
    let c = s.choice(g, h);
    let inner = close(&mut s, inner_word, c);
    let b = s.truth();
    let g = s.guard(b, inner);
    let h = s.true_skip();
    let c = s.choice(g, h);
    close(&mut s, word, c);
    out.put(&format!("{inner_word} of two in the first arm of {word}"), &s.bytes(), &Mode::Edges);

    let mut s = Script::new(&[0]);
    let h = s.true_skip();
    let g = s.true_skip();
    let inner = close(&mut s, inner_word, g);
    let b = s.truth();
    let g = s.guard(b, inner);
    let c = s.choice(h, g);
    close(&mut s, word, c);
    out.put(&format!("{inner_word} in the second arm of {word}"), &s.bytes(), &Mode::Edges);

    let mut s = Script::new(&[0, 3]);
    let mut arms = Vec::new();
    for _ in 0..2 {
        let g = s.true_skip();
        let h = s.true_skip();
        let c = s.choice(g, h);
        let inner = close(&mut s, inner_word, c);
        let n = s.number(4);
        let after = s.assign(0, n);
        let both = s.then(inner, after);
        let b = s.truth();
        let b = s.not(b);
        arms.push(s.guard(b, both));
    }
    let c = s.choice(arms[0], arms[1]);
    let whole = close(&mut s, word, c);
    let before = s.skip();
    s.then(before, whole);
    out.put(&format!("{word} whose arms are {inner_word} of two and a command"), &s.bytes(), &Mode::Edges);
}

fn deep_graphs(out: &mut Out) {
    let mut s = Script::new(&[0]);
    let mut c = s.skip();
    for k in 0..6 {
        let b = s.truth();
        let mut g = s.guard(b, c);
        if k % 2 == 0 {
            let h = s.true_skip();
            g = s.choice(g, h);
        }
        c = if k % 3 == 0 { s.do_od(g) } else { s.if_fi(g) };
        let d = s.skip();
        c = s.then(c, d);
    }
    out.put("six deep, ifs and dos", &s.bytes(), &Mode::Edges);

    let mut s = Script::new(&[0]);
    let c: Vec<u16> = (0..5).map(|_| s.skip()).collect();
    let left = c[1..].iter().fold(c[0], |p, &q| s.then(p, q));
    let d: Vec<u16> = (0..5).map(|_| s.skip()).collect();
    let right = d[..4].iter().rev().fold(d[4], |q, &p| s.then(p, q));
    s.then(right, left);
    out.put("sequences nested right, then left", &s.bytes(), &Mode::Edges);
}

/// Question 13, and what of the buffer is written.
pub fn rooms(out: &mut Out) {
    out.group("room");
    for (name, s) in [("skip", sequence(1, 0)), ("factorial", factorial()), ("tour", tour()), ("127 loops", loops(127))] {
        let file = s.bytes();
        let need = Graph::of(&s, Nondeterministic).bytes().len() as u16;
        for room in [0, 6, 7, need - 7, need - 1, need, need + 1, need + 7, 1785, 1999, 2000] {
            out.put(&format!("{name}, {room} bytes"), &file, &Mode::Sum(room));
        }
        out.put(&format!("{name} cut, 0 bytes"), &file[..file.len() - 1], &Mode::Sum(0));
    }
}
