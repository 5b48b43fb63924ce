//! Files that are refused, each for one question: for operations that ask 1 to 11 and 20 first.

use super::*;
use crate::language::*;

/// Files over two variables, each with its title, the question and the place: a few of each question 1 to 11 and 20, of the factorial lesson and of short scripts.
pub fn refused_files() -> Vec<(String, Vec<u8>, u32, usize)> {
    let f = factorial();
    let file = f.bytes();
    let mut refused = vec![("empty file".to_string(), Vec::new(), 1, 0)];
    for tag in 1..=4u8 {
        let head = f.head(tag);
        let changed = |at: usize, to: u8| {
            let mut bytes = file.clone();
            bytes[head + at] = to;
            bytes
        };
        refused.push((format!("cut in head {tag}"), file[..head + 2].to_vec(), 1, head));
        refused.push((format!("tag {tag} is 9"), changed(0, 9), 2, head));
        refused.push((format!("length of field {tag}"), changed(2, file[head + 2] + 1), 3, head));
        refused.push((format!("field {tag} cut"), file[..f.head(tag + 1) - 1].to_vec(), 4, head));
    }
    refused.push(("one byte more".to_string(), [file.clone(), vec![0]].concat(), 5, file.len()));
    let mut s = f.clone();
    s.names[1] = 65;
    refused.push(("size 65".to_string(), s.bytes(), 6, 5));
    for (t, i) in [(0, 0), (0, 7), (1, 0), (2, 0), (2, 6)] {
        let at = f.place(t, i);
        refused.push((format!("7 at {at}"), with_entry(&f, t, i, entry(10, 0, 0, 0)).bytes(), 7, at));
        refused.push((format!("8 at {at}"), with_entry(&f, t, i, entry(0, 0, 0, 1)).bytes(), 8, at));
        let wrong = if t == 2 { entry(3, 99, 0, 0) } else { entry(5, 99, 0, 0) };
        refused.push((format!("9 at {at}"), with_entry(&f, t, i, wrong).bytes(), 9, at));
    }
    refused.push(("10, a number unused".to_string(), with_entry(&f, 2, 0, entry(0, 0, 0, 0)).bytes(), 10, f.place(0, 0)));
    let mut s = Script::new(&[0, 0]);
    s.true_skip();
    refused.push(("11".to_string(), s.bytes(), 11, s.place(2, 1)));
    // The names take 7 bytes, the heads of two empty fields 6, the last head 3; a condition 7 more, and so does each entry.
    for (text, at) in [("break", 16), ("skip; continue", 23), ("if true -> break fi", 23), ("do true -> break od; continue", 44)] {
        refused.push((format!("20, {text}"), draft_of("x y", text).bytes(), 20, at));
    }
    refused
}
