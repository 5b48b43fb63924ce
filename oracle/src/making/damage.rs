//! Files that are nearly fit.

use super::*;
use crate::language::*;

/// A script with some of its names or entries changed.
pub fn damage_script(r: &mut Random, s: &mut Script) {
    let t = r.below(3);
    let count = s.tables[t].len();
    match r.below(9) {
        0 => {
            let i = r.below(s.names.len());
            s.names[i] = r.below(80) as u16;
        }
        1 if count > 0 => s.tables[t][r.below(count)].kind = r.below(11) as u8,
        2..=4 if count > 0 => {
            let i = r.below(count);
            s.tables[t][i].operands[r.below(3)] = r.below(count + 2) as u16;
        }
        5 if count > 1 => {
            let i = r.below(count - 1);
            s.tables[t].swap(i, i + 1);
        }
        6 if count > 0 => {
            let e = s.tables[t][r.below(count)];
            s.tables[t].insert(r.below(count + 1), e);
        }
        7 if count > 0 => {
            s.tables[t].remove(r.below(count));
        }
        8 => loosen(r, s),
        _ => {}
    }
}

/// A fit script in which a jump comes loose: a skip outside every do becomes one, or one is put before or after the script, or a do becomes an if. The last is of no use where
/// no jump is in it. A script that is not fit stays as it is.
pub fn loosen(r: &mut Random, s: &mut Script) {
    if read(&s.bytes(), 4).is_err() {
        return;
    }
    let inside = inside_do(s);
    let found = |kind: u8| -> Vec<usize> { (0..inside.len()).filter(|&i| s.tables[COMMANDS][i].kind == kind && !inside[i]).collect() };
    let (skips, dos) = (found(0), found(DO));
    let jump = [BREAK, CONTINUE][r.below(2)];
    if !dos.is_empty() && r.chance(3) {
        s.tables[COMMANDS][dos[r.below(dos.len())]].kind = 4;
    } else if !skips.is_empty() && !r.chance(3) {
        for _ in 0..1 + r.below(2) {
            s.tables[COMMANDS][skips[r.below(skips.len())]].kind = jump;
        }
    } else {
        let c = s.tables[COMMANDS].len() as u16 - 1;
        let d = s.jump(jump);
        let pair = [(c, d), (d, c)][r.below(2)];
        s.then(pair.0, pair.1);
    }
}

pub fn damage_bytes(r: &mut Random, bytes: &mut Vec<u8>) {
    if bytes.is_empty() {
        return;
    }
    let i = r.below(bytes.len());
    match r.below(6) {
        0 => bytes[i] = r.next() as u8,
        1 => bytes[i] = bytes[i].wrapping_add(1),
        2 => bytes[i] = bytes[i].wrapping_sub(1),
        3 => bytes.truncate(i),
        4 => {
            let end = (i + 1 + r.below(9)).min(bytes.len());
            bytes.drain(i..end);
        }
        _ => {
            for _ in 0..1 + r.below(9) {
                let x = if r.chance(2) { 0 } else { r.next() as u8 };
                bytes.insert(i, x);
            }
        }
    }
}

/// One reference goes to another entry that it might name: some entry is used twice and another not at all.
pub fn refer_elsewhere(r: &mut Random, s: &mut Script) {
    for _ in 0..50 {
        let t = r.below(3);
        if s.tables[t].is_empty() {
            continue;
        }
        let (i, k) = (r.below(s.tables[t].len()), r.below(3));
        let operand = rule(t, s.tables[t][i].kind).unwrap()[k];
        let Some(to) = referred(operand) else { continue };
        let x = r.below(if to == t { i } else { s.tables[to].len() });
        if to < 2 || is_guarded(s.tables[2][x]) == (operand == Operand::Guarded) {
            s.tables[t][i].operands[k] = x as u16;
            return;
        }
    }
}
