//! The sheet program's input: its questions and its parts.

use super::*;

/// Five fields: the sheet program's input.
pub fn inputs(out: &mut Out) {
    out.group("input");
    let f = factorial();
    let file = f.bytes();
    let end = file.len();
    let with = |list: &[u8]| [file.clone(), field(5, list)].concat();
    known(out, "empty", &[], "refused 1 at 0");
    known(out, "factorial, 4 2", &with(&[4, 2]), "fit");
    known(out, "factorial, no record", &with(&[]), "fit");
    known(out, "factorial, 512 records", &with(&[4, 2].repeat(512)), "fit");
    known(out, "factorial, 513 records", &with(&[4, 2].repeat(513)), &format!("refused 3 at {end}"));
    known(out, "factorial, one byte", &with(&[4]), &format!("refused 3 at {end}"));
    known(out, "factorial, 1023 bytes", &with(&[4; 1023]), &format!("refused 3 at {end}"));
    for left in 0..3 {
        known(out, &format!("factorial, {left} bytes of a head"), &with(&[4, 2])[..end + left], &format!("refused 1 at {end}"));
    }
    for tag in [0, 1, 4, 6, 255] {
        let mut bytes = with(&[4, 2]);
        bytes[end] = tag;
        known(out, &format!("factorial, tag {tag}"), &bytes, &format!("refused 2 at {end}"));
        bytes[end + 2] = 3;
        known(out, &format!("factorial, tag {tag}, three bytes"), &bytes, &format!("refused 2 at {end}"));
    }
    for left in [0, 1] {
        known(out, &format!("factorial, {left} of two bytes"), &with(&[4, 2])[..end + 3 + left], &format!("refused 4 at {end}"));
    }
    for extra in [1usize, 2, 3, 500] {
        let bytes = [with(&[4, 2]), vec![5; extra]].concat();
        known(out, &format!("factorial, {extra} extra"), &bytes, &format!("refused 5 at {}", end + 5));
    }
    let mut bytes = [file.clone(), vec![5, 255, 255]].concat();
    known(out, "factorial, length 65535", &bytes, &format!("refused 3 at {end}"));
    bytes[end + 2] = 254;
    known(out, "factorial, length 65534", &bytes, &format!("refused 3 at {end}"));
    inputs_by_names(out);
    inputs_refused(out);
}

fn known(out: &mut Out, title: &str, file: &[u8], expected: &str) {
    out.known(title, file, &Mode::Input, expected);
}

/// Whole records of one name to 32, and lists that are not.
fn inputs_by_names(out: &mut Out) {
    for count in [1usize, 2, 3, 7, 32] {
        let mut s = Script::new(&vec![0; count]);
        s.skip();
        let file = s.bytes();
        let end = file.len();
        for records in [0, 1, 2, 511, 512] {
            let bytes = [file.clone(), field(5, &vec![2; records * count])].concat();
            if count < 32 || records != 511 {
                known(out, &format!("{count} names, {records} records"), &bytes, "fit");
            }
        }
        let bytes = [file.clone(), field(5, &vec![2; 513 * count])].concat();
        known(out, &format!("{count} names, 513 records"), &bytes, &format!("refused 3 at {end}"));
        if count > 1 {
            for length in [count - 1, count + 1, 512 * count - 1, 512 * count + 1] {
                if length > 4000 {
                    continue;
                }
                let bytes = [file.clone(), field(5, &vec![2; length])].concat();
                known(out, &format!("{count} names, {length} bytes"), &bytes, &format!("refused 3 at {end}"));
            }
        }
    }
}

/// Refusals of the script itself come in their order: 1 to 5 of all fields, then the entries.
fn inputs_refused(out: &mut Out) {
    let f = factorial();
    let file = f.bytes();
    let end = file.len();
    let with = |list: &[u8]| [file.clone(), field(5, list)].concat();
    let mut s = f.clone();
    s.names[0] = 65;
    let bad = s.bytes();
    known(out, "6, list there", &[bad.clone(), field(5, &[4, 2])].concat(), "refused 6 at 3");
    known(out, "6 and 1 of the list", &bad, &format!("refused 1 at {end}"));
    known(out, "6 and 3 of the list", &[bad.clone(), field(5, &[4])].concat(), &format!("refused 3 at {end}"));
    known(out, "6 and 5 after the list", &[bad, field(5, &[4, 2, 1, 1]), vec![0]].concat(), &format!("refused 5 at {}", end + 7));
    for tag in 1..=4u8 {
        let head = f.head(tag);
        let mut bytes = with(&[4, 2]);
        bytes[head] = 5;
        known(out, &format!("tag 5 for {tag}"), &bytes, &format!("refused 2 at {head}"));
        known(out, &format!("ends before {tag}"), &file[..head + 2], &format!("refused 1 at {head}"));
        let mut bytes = with(&[4, 2]);
        bytes[head + 2] += 1;
        known(out, &format!("length of {tag}"), &bytes, &format!("refused 3 at {head}"));
        known(out, &format!("content of {tag} cut"), &file[..f.head(tag + 1) - 1], &format!("refused 4 at {head}"));
    }
    let t = tour();
    let list = field(5, &[4, 2, 7, 1, 1, 1, 1, 1]);
    let change = |table: usize, i: usize, e: Entry| [with_entry(&t, table, i, e).bytes(), list.clone()].concat();
    known(out, "tour", &[t.bytes(), list.clone()].concat(), "fit");
    for (table, i) in [(0, 0), (0, 19), (1, 0), (1, 7), (2, 0), (2, 13)] {
        let at = t.place(table, i);
        known(out, &format!("tour, 7 at {at}"), &change(table, i, entry(10, 0, 0, 0)), &format!("refused 7 at {at}"));
        known(out, &format!("tour, 8 at {at}"), &change(table, i, entry(0, 0, 0, 9)), &format!("refused 8 at {at}"));
        known(out, &format!("tour, 9 at {at}"), &change(table, i, entry(5, 99, if table == 2 { 0 } else { 99 }, 0)), &format!("refused 9 at {at}"));
    }
    known(out, "tour, 10", &change(2, 0, entry(0, 0, 0, 0)), &format!("refused 10 at {}", t.place(0, 18)));
    let mut s = Script::new(&[0]);
    s.true_skip();
    known(out, "11", &[s.bytes(), field(5, &[1])].concat(), "refused 11 at 28");
    known(out, "11, without a list", &s.bytes(), "refused 1 at 35");
}

/// The parts of the sheet program's input, and the field reader on inputs and on what is left of them.
pub fn parts(out: &mut Out) {
    out.group("parts");
    let file = factorial().bytes();
    for list in [vec![], vec![4, 2], vec![1, 2, 4, 4], vec![2; 1024]] {
        let bytes = [file.clone(), field(5, &list)].concat();
        out.put(&format!("factorial, list of {}", list.len()), &bytes, &Mode::Parts);
        out.put(&format!("factorial, list of {}, one byte more", list.len()), &[bytes.clone(), vec![5]].concat(), &Mode::Parts);
    }
    let end = file.len();
    out.known("factorial alone", &file, &Mode::Parts, &format!("refused 1 at {end}"));
    out.put("tour", &[tour().bytes(), field(5, &[4, 2, 7, 1, 1, 1, 1, 1])].concat(), &Mode::Parts);
    out.put("six fields", &[file.clone(), field(5, &[4, 2]), field(6, &[1])].concat(), &Mode::Parts);
    let whole = [file.clone(), field(5, &[4, 2])].concat();
    for i in 0..whole.len() {
        out.put(&format!("first {i}"), &whole[..i], &Mode::Parts);
    }
    // The lengths of the heads, more than there is and less.
    for tag in 1..=5u8 {
        let head = if tag == 5 { end } else { factorial().head(tag) };
        for (at, to) in [(0, 9), (1, 1), (1, 255), (2, 0), (2, 1), (2, 255)] {
            let mut bytes = whole.clone();
            bytes[head + at] = to;
            out.put(&format!("byte {} to {to}", head + at), &bytes, &Mode::Parts);
        }
    }
    let mut r = Random(20_260_115_016);
    for k in 0..60 {
        let s = random_script(&mut r, [3, 8, 16][k % 3]);
        let count = r.below(9) * s.names.len();
        let list: Vec<u8> = (0..count).map(|_| r.next() as u8).collect();
        let mut bytes = [s.bytes(), field(5, &list)].concat();
        if k % 3 == 2 {
            damage_bytes(&mut r, &mut bytes);
        }
        out.put(&format!("random {k}"), &bytes, &Mode::Parts);
    }
}
