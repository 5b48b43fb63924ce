//! Questions 6 to 11, at their first possible offsets and at later ones, and two at once.

use super::*;

/// Questions 6 to 11 at their first possible offset and at later ones, and two at once.
pub fn rest(out: &mut Out) {
    out.group("more");
    sizes(out);
    first_arithmetic(out);
    first_boolean(out);
    first_command(out);
    guarded_last(out);
    for (table, name) in TABLES.into_iter().enumerate() {
        uses(out, table, name);
    }
    two_of_fields(out);
    two_of_entries(out);
    two_of_uses(out);
}

fn known(out: &mut Out, title: &str, s: &Script, number: u32, at: usize) {
    out.known(title, &s.bytes(), &Mode::Edges, &format!("refused {number} at {at}"));
}

/// 6: by size, in each name.
fn sizes(out: &mut Out) {
    for i in 0..32 {
        let mut s = skip_over(&[0; 32]);
        s.names[i] = 65;
        known(out, &format!("6, size of name {i}"), &s, 6, 3 + 2 * i);
        s.names[i] = 256;
        known(out, &format!("6, size 256 of name {i}"), &s, 6, 3 + 2 * i);
    }
}

/// 7 to 10 at their first possible offsets: one name, so that the first arithmetic entry is at 8.
fn first_arithmetic(out: &mut Out) {
    let mut s = Script::new(&[0]);
    s.add(0, entry(8, 0, 0, 0));
    s.skip();
    known(out, "7, first arithmetic", &s, 7, 8);
    s.tables[0][0] = entry(0, 0, 0, 1);
    known(out, "8, first arithmetic", &s, 8, 8);
    s.tables[0][0] = entry(1, 1, 0, 0);
    known(out, "8, first arithmetic, missing name", &s, 8, 8);
    s.tables[0][0] = entry(2, 0, 0, 0);
    known(out, "8, first arithmetic, wrong sort of name", &s, 8, 8);
    s.tables[0][0] = entry(3, 0, 0, 0);
    known(out, "9, first arithmetic, refers to itself", &s, 9, 8);
    s.tables[0][0] = entry(0, 0, 0, 0);
    known(out, "10, first arithmetic unused", &s, 10, 8);
}

fn first_boolean(out: &mut Out) {
    let mut s = Script::new(&[0]);
    s.add(1, entry(7, 0, 0, 0));
    s.skip();
    known(out, "7, first boolean", &s, 7, 11);
    s.tables[1][0] = entry(0, 0, 0, 1);
    known(out, "8, first boolean", &s, 8, 11);
    s.tables[1][0] = entry(1, 0, 0, 0);
    known(out, "9, first boolean, no arithmetic there", &s, 9, 11);
    s.tables[1][0] = entry(6, 0, 0, 0);
    known(out, "9, first boolean, refers to itself", &s, 9, 11);
    s.tables[1][0] = entry(0, 0, 0, 0);
    known(out, "10, first boolean unused", &s, 10, 11);
}

fn first_command(out: &mut Out) {
    let mut s = Script::new(&[0]);
    s.add(2, entry(10, 0, 0, 0));
    known(out, "7, first command", &s, 7, 14);
    for kind in [BREAK, CONTINUE] {
        s.tables[2][0] = entry(kind, 0, 0, 1);
        known(out, &format!("8, first command, kind {kind}"), &s, 8, 14);
    }
    s.tables[2][0] = entry(0, 1, 0, 0);
    known(out, "8, first command", &s, 8, 14);
    s.tables[2][0] = entry(1, 1, 0, 0);
    known(out, "8, first command, missing name", &s, 8, 14);
    s.tables[2][0] = entry(2, 0, 0, 0);
    known(out, "8, first command, wrong sort of name", &s, 8, 14);
    for kind in [1, 3, 4, 5, 6, 7] {
        s.tables[2][0] = entry(kind, 0, 0, 0);
        known(out, &format!("9, first command, kind {kind}"), &s, 9, 14);
    }
    s.tables[2][0] = entry(0, 0, 0, 0);
    s.skip();
    known(out, "10, first command unused", &s, 10, 14);
    s.add(2, entry(3, 0, 0, 0));
    known(out, "10, first command used twice", &s, 10, 14);
}

/// 11 needs a boolean, a command and a guarded command, which is last: the least offset is 3 + 2 + 3 + 3 + 7 + 3 + 7.
fn guarded_last(out: &mut Out) {
    let mut s = Script::new(&[0]);
    s.true_skip();
    known(out, "11, a guarded command last", &s, 11, 28);
    let g = s.true_skip();
    s.choice(1, g);
    known(out, "11, a choice last", &s, 11, s.place(2, 4));
    let mut s = loops(127);
    s.tables[2].pop();
    known(out, "11, at entry 253", &s, 11, s.place(2, 253));
}

/// 10, in each table: unused, used twice, in the middle and at the end.
fn uses(out: &mut Out, table: usize, name: &str) {
    let t = tour();
    for i in 0..t.tables[table].len() {
        if table == COMMANDS && i + 1 == t.tables[COMMANDS].len() {
            continue;
        }
        // Each reference to another entry of the same sort: the one is used twice, the other not at all.
        for (user, j, k) in users(&t, table, i) {
            let reach = if user == table { j } else { t.tables[table].len() };
            for other in 0..reach {
                let same_sort = table != COMMANDS || is_guarded(t.tables[COMMANDS][i]) == is_guarded(t.tables[COMMANDS][other]);
                if other == i || !same_sort || (other + i) % 5 != 0 {
                    continue;
                }
                let mut s = t.clone();
                s.tables[user][j].operands[k] = other as u16;
                known(out, &format!("10, {name} {other} for {i}"), &s, 10, t.place(table, i.min(other)));
            }
        }
    }
    // An entry more at the table's end (commands: before the last).
    let mut s = t.clone();
    let at = if table == COMMANDS { s.tables[COMMANDS].len() - 1 } else { s.tables[table].len() };
    s.tables[table].insert(at, entry(0, 0, 0, 0));
    known(out, &format!("10, {name} more at the end"), &s, 10, s.place(table, at));
    let mut s = exact(&[0, 9], 512, 256, 255);
    let last = s.tables[table].len() - 1;
    s.tables[table][last] = entry(0, 0, 0, 0);
    known(out, &format!("10, {name} last but one of many"), &s, 10, s.place(table, last - 1));
}

/// Two at once: the order shows.
fn two_of_fields(out: &mut Out) {
    let f = factorial();
    let mut s = f.clone();
    s.names[1] = 65;
    let mut bytes = s.bytes();
    bytes.push(1);
    out.known("5 and 6", &bytes, &Mode::Edges, &format!("refused 5 at {}", f.bytes().len()));
    out.known("4 and 6", &s.bytes()[..134], &Mode::Edges, &format!("refused 4 at {}", s.head(4)));
    out.known("1 and 6", &s.bytes()[..8], &Mode::Edges, "refused 1 at 7");
    bytes = s.bytes();
    bytes[7] = 9;
    out.known("2 and 6", &bytes, &Mode::Edges, "refused 2 at 7");
    bytes = s.bytes();
    bytes[9] += 1;
    out.known("3 and 6", &bytes, &Mode::Edges, "refused 3 at 7");
    bytes[7] = 9;
    out.known("2 and 3", &bytes, &Mode::Edges, "refused 2 at 7");
    bytes[7] = 2;
    bytes.truncate(20);
    out.known("3 and 4", &bytes, &Mode::Edges, "refused 3 at 7");
    bytes[0] = 0;
    out.known("2 of the first field, 3 of the second", &bytes, &Mode::Edges, "refused 2 at 0");
    out.known("1 and 2", &[9, 0], &Mode::Edges, "refused 1 at 0");
    s.tables[0][0].kind = 8;
    known(out, "6 and 7", &s, 6, 5);
    s.names[0] = 65;
    known(out, "6 twice and 7", &s, 6, 3);
}

fn two_of_entries(out: &mut Out) {
    let f = factorial();
    let mut s = f.clone();
    s.names[0] = 64;
    known(out, "an array named as a variable", &s, 8, s.place(0, 1));
    let mut s = f.clone();
    s.tables[0][5] = entry(8, 65535, 65535, 65535);
    known(out, "7 and 8 and 9 of one entry", &s, 7, s.place(0, 5));
    s.tables[0][5] = entry(5, 65535, 65535, 65535);
    known(out, "8 and 9 of one entry", &s, 8, s.place(0, 5));
    s.tables[0][5] = entry(5, 65535, 65535, 0);
    known(out, "9 of both operands", &s, 9, s.place(0, 5));
    s.tables[0][6].kind = 99;
    known(out, "9 of an entry, 7 of the next", &s, 9, s.place(0, 5));
    s.tables[0][4] = entry(1, 0, 1, 0);
    known(out, "8 of an entry, 9 of the next", &s, 8, s.place(0, 4));
    let mut s = f.clone();
    s.tables[1][0] = entry(2, 65535, 0, 0);
    s.tables[2][0].kind = 10;
    known(out, "9 of a boolean, 7 of a command", &s, 9, s.place(1, 0));
    s.tables[0][8] = entry(4, 6, 8, 0);
    known(out, "9 of an arithmetic and of a boolean", &s, 9, s.place(0, 8));
}

fn two_of_uses(out: &mut Out) {
    let f = factorial();
    let mut s = f.clone();
    s.tables[2][6] = entry(3, 0, 6, 0);
    s.tables[0][0] = entry(0, 0, 1, 0);
    s.tables[2][0] = entry(0, 0, 0, 0);
    known(out, "9 of the last command, 10 of the first number", &s, 9, s.place(2, 6));
    s.tables[2][6] = entry(3, 0, 5, 0);
    known(out, "10 of the first number", &s, 10, s.place(0, 0));
    s.tables[2][6] = entry(10, 0, 5, 0);
    known(out, "7 of the last command, 10 of the first number", &s, 7, s.place(2, 6));
    let mut s = f.clone();
    s.tables[2].pop();
    s.tables[2].pop();
    known(out, "10 and 11", &s, 10, s.place(2, 0));
    let mut s = f.clone();
    s.tables[1].push(entry(0, 0, 0, 0));
    s.tables[2][0] = entry(0, 0, 0, 0);
    known(out, "10 of an arithmetic, a boolean", &s, 10, s.place(0, 0));
    let mut s = f.clone();
    s.tables[0].push(entry(0, 0, 0, 0));
    s.tables[1].push(entry(0, 0, 0, 0));
    s.tables[2].insert(0, entry(0, 0, 0, 0));
    for e in s.tables[2].iter_mut().filter(|e| e.kind == 3) {
        e.operands[0] += 1;
        e.operands[1] += 1;
    }
    for e in s.tables[2].iter_mut().filter(|e| e.kind == 6) {
        e.operands[1] += 1;
    }
    for e in s.tables[2].iter_mut().filter(|e| e.kind == 5) {
        e.operands[0] += 1;
    }
    known(out, "10 in all three tables", &s, 10, s.place(0, 9));
    s.tables[0].pop();
    known(out, "10 of a boolean and a command", &s, 10, s.place(1, 1));
    s.tables[1].pop();
    known(out, "10 of a command", &s, 10, s.place(2, 0));
}

/// The operands that refer to an entry: table, entry, operand.
fn users(s: &Script, table: usize, i: usize) -> Vec<(usize, usize, usize)> {
    let mut found = Vec::new();
    for t in 0..3 {
        for (j, e) in s.tables[t].iter().enumerate() {
            for k in 0..3 {
                if referred(rule(t, e.kind).unwrap()[k]) == Some(table) && usize::from(e.operands[k]) == i {
                    found.push((t, j, k));
                }
            }
        }
    }
    found
}
