//! Questions 1 to 5 in each field, and 7 to 9 of each operand.

use super::*;

/// Questions 1 to 5, in each field.
pub fn heads(out: &mut Out) {
    out.group("fields");
    for (name, s) in [("factorial", factorial()), ("tour", tour())] {
        let file = s.bytes();
        for tag in 1..=4u8 {
            let head = s.head(tag);
            let put = |out: &mut Out, title: &str, file: &[u8], expected: u32| {
                let expected = format!("refused {expected} at {head}");
                out.known(&format!("{name} {tag}, {title}"), file, &Mode::Edges, &expected);
            };
            for left in 0..3 {
                put(out, &format!("{left} bytes of the head"), &file[..head + left], 1);
            }
            for wrong in [0, tag - 1, tag + 1, 255] {
                let mut bytes = file.clone();
                bytes[head] = wrong;
                if wrong != tag {
                    put(out, &format!("tag {wrong}"), &bytes, 2);
                    put(out, &format!("tag {wrong}, no more than the head"), &bytes[..head + 3], 2);
                    bytes[head + 1] = 255;
                    put(out, &format!("tag {wrong}, too long"), &bytes, 2);
                }
            }
            let length = s.content(tag).len();
            let width = if tag == 1 { 2 } else { 7 };
            let most = [0, 32, 512, 256, 256][usize::from(tag)];
            let mut wrong = vec![1, width - 1, width + 1, length - 1, length + 1, width * most + 1, width * (most + 1), 65535];
            if tag == 1 || tag == 4 {
                wrong.push(0);
            }
            for length in wrong {
                let mut bytes = file.clone();
                bytes[head + 1] = (length / 256) as u8;
                bytes[head + 2] = (length % 256) as u8;
                put(out, &format!("length {length}"), &bytes, 3);
                put(out, &format!("length {length}, no more than the head"), &bytes[..head + 3], 3);
                bytes.resize(head + 3 + length + 40, 0);
                if length < 8000 {
                    put(out, &format!("length {length}, with its content"), &bytes, 3);
                }
            }
            for missing in [1, width, length] {
                put(out, &format!("{missing} bytes of content missing"), &file[..head + 3 + length - missing], 4);
            }
            // A length that is allowed, and reaches past the end of the file.
            let mut bytes = file.clone();
            bytes[head + 1] = (width * most / 256) as u8;
            bytes[head + 2] = (width * most % 256) as u8;
            bytes.truncate(head + 3 + width * most - 1);
            put(out, "the greatest length, cut", &bytes, 4);
        }
        for extra in [1usize, 2, 3, 7, 300] {
            let mut bytes = file.clone();
            bytes.extend(std::iter::repeat_n(4, extra));
            out.known(&format!("{name}, {extra} extra"), &bytes, &Mode::Edges, &format!("refused 5 at {}", file.len()));
        }
    }
    // The first possible offset of 5: one name, no expressions, one command.
    let mut s = Script::new(&[0]);
    s.skip();
    let mut bytes = s.bytes();
    bytes.push(0);
    out.known("smallest file, 1 extra", &bytes, &Mode::Edges, "refused 5 at 21");
}

/// Questions 7, 8 and 9, of each operand of each entry of the tour.
pub fn entries(out: &mut Out) {
    out.group("entry");
    let s = tour();
    for (t, table) in TABLES.into_iter().enumerate() {
        for i in 0..s.tables[t].len() {
            let e = s.tables[t][i];
            let at = s.place(t, i);
            let put = |out: &mut Out, title: &str, e: Entry, expected: u32| {
                let bytes = with_entry(&s, t, i, e).bytes();
                let title = format!("{table} {i}, {title}");
                out.known(&title, &bytes, &Mode::Edges, &format!("refused {expected} at {at}"));
            };
            for kind in [[8, 7, 10][t], 255] {
                put(out, &format!("kind {kind}"), Entry { kind, ..e }, 7);
            }
            for k in 0..3 {
                let operand = rule(t, e.kind).unwrap()[k];
                let letter = ["P", "Q", "R"][k];
                let change = |x: u16| {
                    let mut e = e;
                    e.operands[k] = x;
                    e
                };
                match operand {
                    Literal => {}
                    Zero => {
                        for x in [1, 256] {
                            put(out, &format!("unused {letter} {x}"), change(x), 8);
                        }
                    }
                    Variable | Array => {
                        for x in [4, 65535] {
                            put(out, &format!("name {letter} {x} missing"), change(x), 8);
                        }
                        let x = if operand == Variable { 2 } else { 1 };
                        put(out, &format!("name {letter} {x} of the wrong sort"), change(x), 8);
                    }
                    _ => {
                        let to = referred(operand).unwrap();
                        let count = s.tables[to].len();
                        let past = if to == t { vec![i, i + 1, count] } else { vec![count, count + 1] };
                        for x in past.into_iter().chain([65535]) {
                            put(out, &format!("reference {letter} {x}"), change(x as u16), 9);
                        }
                        if to == 2 {
                            let wrong = (0..i).find(|&j| is_guarded(s.tables[2][j]) != (operand == Guarded));
                            if let Some(x) = wrong {
                                put(out, &format!("reference {letter} {x} of the wrong sort"), change(x as u16), 9);
                            }
                        }
                    }
                }
            }
        }
    }
}
