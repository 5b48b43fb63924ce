//! Lists of records as text, and known answers.

use super::*;

/// A start list as text: "4 2; 1 2" are two records.
pub fn starts(text: &str) -> Vec<u8> {
    text.split([';', ' ']).filter(|s| !s.is_empty()).map(|s| s.parse().unwrap()).collect()
}

/// A sheet as text, as the sheet program prints it: "0 4 2; 2 4 4" are two records, at nodes 0 and 2.
pub fn sheet_of(text: &str) -> Vec<u8> {
    let record = |part: &str| match part.trim().split_once(' ') {
        Some((node, signs)) => at_node(node.parse().unwrap(), &starts(signs)),
        None => Vec::new(),
    };
    text.split(';').flat_map(record).collect()
}

/// The verdict on a sheet, with the offending record.
pub fn judges(out: &mut Out, title: &str, file: &[u8], initial: &str, sheet: &str, expected: &str) {
    out.known(title, file, &judging(&starts(initial), &sheet_of(sheet)), expected);
}

/// A start list solved with room to spare: the sheet, which is accepted with its mark.
pub fn finishes(out: &mut Out, title: &str, file: &[u8], initial: &[u8], sheet: &[u8], mark: Mark) {
    let width = Loaded::of(file).fit().width(List::Sheet);
    assert_eq!(solved(&Loaded::of(file), Nondeterministic, initial).1, sheet, "{} {title}", out.group);
    let expected = format!("finished with {}{}; accepted {}", sheet.len() / width, shown(sheet, width), told_mark(mark));
    out.known(title, file, &solving(initial, sheet.len() + 50), &expected);
}

/// The same on the graph of a construction by name, with which the title ends.
pub fn finishes_on(out: &mut Out, construction: Construction, title: &str, file: &[u8], initial: &[u8], sheet: &[u8], mark: Mark) {
    let width = Loaded::of(file).fit().width(List::Sheet);
    assert_eq!(solved(&Loaded::of(file), construction, initial).1, sheet, "{} {title}", out.group);
    let expected = format!("finished with {}{}; accepted {}", sheet.len() / width, shown(sheet, width), told_mark(mark));
    known_on(out, construction, title, file, &solving(initial, sheet.len() + 50), &expected);
}

/// A case on the graph of a construction by name, with which the title ends.
pub fn known_on(out: &mut Out, construction: Construction, title: &str, file: &[u8], ask: &Ask, expected: &str) {
    out.known(&format!("{title}, {construction:?}"), file, &answers::by_name(construction, ask), expected);
}

/// The same with all in text.
pub fn solves(out: &mut Out, names: &str, text: &str, initial: &str, sheet: &str, mark: Mark) {
    finishes(out, &format!("{text} from {initial}"), &file_of(names, text), &starts(initial), &sheet_of(sheet), mark);
}

pub const FACTORIAL: &str = "0 4 2; 2 4 4; 3 4 4; 4 4 4; 2 1 4; 2 2 4; 1 1 4; 1 2 4";

pub const WIDE_NAMES: [&str; 32] = [
    "a", "b", "c", "d", "e", "f", "g", "h", "i", "j", "k", "l", "m", "n", "o", "p", "q", "r", "s", "t", "u", "v", "w", "x", "y", "z", "A", "B", "C", "D", "E",
    "F",
];

/// Names a to h and X of 1, of which the first `count` variables are given any sign in turn: 3^k records at the node after k assignments.
pub fn fan(count: usize) -> (Vec<u8>, Vec<u8>) {
    let names = ["a", "b", "c", "d", "e", "f", "g", "h"];
    let text: Vec<String> = names[..count].iter().map(|x| format!("{x} := X[0]")).collect();
    let file = file_of(&format!("{} X1", names[..count].join(" ")), &text.join("; "));
    (file, [vec![ZERO; count], vec![7]].concat())
}

/// So many different records of four arrays.
pub fn different(count: usize) -> Vec<u8> {
    (0..count).flat_map(|k| [1 + k % 7, 1 + k / 7 % 7, 1 + k / 49 % 7, 1 + k / 343 % 7]).map(|x| x as u8).collect()
}

/// One refusal of a file by each operation. The lists would be refused too.
pub fn refuses(out: &mut Out, title: &str, file: &[u8], initial: &[u8], sheet: &[u8], no: &str) {
    out.known(&format!("{title}, judged"), file, &judging(initial, sheet), &format!("{no}; offending"));
    out.known(&format!("{title}, marked"), file, &Ask::Mark(Chunks::of(sheet)), no);
    out.known(&format!("{title}, solved"), file, &solving(initial, 40), &format!("{no} with 0; {no}"));
    out.known(&format!("{title}, split"), file, &Ask::Split(vec![0, 5]), &format!("{no} record 0 column 0; ").repeat(2));
}
