//! Files near others, and random ones.

use super::*;

/// Every file a byte away from the tour, from two loops with a jump in each, or from the factorial.
pub fn neighbours(out: &mut Out) {
    out.group("near");
    other_bytes(out, "tour", &tour().bytes());
    other_bytes(out, "jumps", &file_of("x", "do true -> do true -> break od; continue od"));
    let file = factorial().bytes();
    for i in 0..file.len() {
        out.put(&format!("factorial, first {i}"), &file[..i], &Mode::Sum(1785));
        let mut bytes = file.clone();
        bytes.remove(i);
        out.put(&format!("factorial, without byte {i}"), &bytes, &Mode::Sum(1785));
        let mut bytes = file.clone();
        bytes.insert(i, 0);
        out.put(&format!("factorial, 0 before byte {i}"), &bytes, &Mode::Sum(1785));
    }
}

fn other_bytes(out: &mut Out, name: &str, file: &[u8]) {
    for i in 0..file.len() {
        for to in [file[i].wrapping_add(1), file[i].wrapping_sub(1)] {
            // A zero becomes one, and not 255 too.
            if to == 255 && file[i] == 0 {
                continue;
            }
            let mut bytes = file.to_vec();
            bytes[i] = to;
            out.put(&format!("{name}, byte {i} to {to}"), &bytes, &Mode::Sum(1785));
        }
    }
}

pub fn random(out: &mut Out) {
    let r = &mut Random(20_260_101_004);
    fit(out, r);
    entry_damage(out, r);
    guarded_last(out, r);
    loose_jumps(out, r);
    byte_damage(out, r);
    random_inputs(out, r);
}

fn fit(out: &mut Out, r: &mut Random) {
    out.group("random");
    for k in 0..240 {
        let size = [4, 10, 20, 30, 50, 80][k % 6];
        let s = random_script(r, if k < 234 { size } else { 300 });
        let mode = if k < 12 { Mode::Edges } else { Mode::Sum(1785) };
        let bytes = s.bytes();
        out.put(&k.to_string(), &bytes, &mode);
        if k % 8 == 0 {
            out.put(&format!("{k}, read"), &bytes, &Mode::Readings);
        }
    }
}

fn entry_damage(out: &mut Out, r: &mut Random) {
    out.group("entry damage");
    for k in 0..360 {
        let mut s = random_script(r, [3, 8, 16, 32][k % 4]);
        for _ in 0..1 + k % 3 {
            damage_script(r, &mut s);
        }
        out.put(&k.to_string(), &s.bytes(), &Mode::Sum(1785));
    }
    out.group("other reference");
    for k in 0..120 {
        let mut s = random_script(r, [8, 16, 32][k % 3]);
        for _ in 0..1 + k % 2 {
            refer_elsewhere(r, &mut s);
        }
        out.put(&k.to_string(), &s.bytes(), &Mode::Sum(1785));
    }
}

/// A script under one guard more, or two in a choice: well formed, but for its last entry.
fn guarded_last(out: &mut Out, r: &mut Random) {
    out.group("guarded last");
    for k in 0..40 {
        let mut s = random_script(r, [4, 8, 16, 32][k % 4]);
        let b = s.truth();
        let c = s.tables[2].len() as u16 - 1;
        let g = s.guard(b, c);
        if k % 2 == 1 {
            let h = s.true_skip();
            s.choice(h, g);
        }
        out.known(&k.to_string(), &s.bytes(), &Mode::Edges, &format!("refused 11 at {}", s.place(2, s.tables[2].len() - 1)));
    }
}

/// Jumps that came loose, found once more from the last entry down: whatever is in a do is left out.
fn loose_jumps(out: &mut Out, r: &mut Random) {
    out.group("random loose");
    for k in 0..80 {
        let mut s = random_script(r, [8, 16, 32, 64][k % 4]);
        loosen(r, &mut s);
        let told = out.put(&k.to_string(), &s.bytes(), &Mode::Sum(1785));
        match outside(&s, s.tables[COMMANDS].len() as u16 - 1).into_iter().min() {
            Some(lowest) => assert_eq!(told, format!("refused 20 at {}", s.place(COMMANDS, usize::from(lowest)))),
            None => assert!(told.starts_with("nodes "), "{told}"),
        }
    }
}

/// The jumps in an entry that have no do of it about them.
fn outside(s: &Script, n: u16) -> Vec<u16> {
    let Entry { kind, operands: [p, q, _] } = s.tables[COMMANDS][usize::from(n)];
    match kind {
        3 | 7 => [outside(s, p), outside(s, q)].concat(),
        4 => outside(s, p),
        6 => outside(s, q),
        BREAK | CONTINUE => vec![n],
        _ => Vec::new(),
    }
}

fn byte_damage(out: &mut Out, r: &mut Random) {
    out.group("byte damage");
    for k in 0..300 {
        let mut bytes = random_script(r, [3, 8, 16, 32][k % 4]).bytes();
        for _ in 0..1 + k % 3 {
            damage_bytes(r, &mut bytes);
        }
        out.put(&k.to_string(), &bytes, &Mode::Sum(1785));
    }
    out.group("noise");
    for k in 0..60 {
        let length = r.below(40);
        let mut bytes: Vec<u8> = (0..length).map(|_| r.below(8) as u8).collect();
        // The first bytes of a head, so that some noise gets further.
        for (i, x) in [1, 0, 2, 0, 0, 2, 0, 0, 3, 0, 0, 4, 0, 7].into_iter().enumerate() {
            if i < bytes.len() && i < k / 2 {
                bytes[i] = x;
            }
        }
        out.put(&k.to_string(), &bytes, &Mode::Sum(1785));
    }
}

fn random_inputs(out: &mut Out, r: &mut Random) {
    out.group("random input");
    for k in 0..150 {
        let mut s = random_script(r, [3, 8, 16][k % 3]);
        if k % 5 == 1 {
            damage_script(r, &mut s);
        }
        let count = r.below(6) * s.names.len();
        let list: Vec<u8> = (0..count).map(|_| 1 + r.below(7) as u8).collect();
        let mut bytes = [s.bytes(), field(5, &list)].concat();
        if k % 5 > 1 {
            damage_bytes(r, &mut bytes);
        }
        out.put(&k.to_string(), &bytes, &Mode::Input);
    }
}
