//! Questions 1 to 11, 20, 16 and 17.

use super::*;

/// Question 16: lists that are not whole records, and lists of 4,096 and 4,097.
pub fn wholes(out: &mut Out) {
    out.group("whole");
    let file = factorial().bytes();
    let no = "refused 16 at 0";
    let (sheet, start) = (sheet_of(FACTORIAL), vec![4, 2]);
    for cut in [1, 2, 3, 5, 31] {
        out.known(&format!("sheet of {cut} bytes"), &file, &judging(&start, &sheet[..cut]), &format!("{no}; offending"));
        out.known(&format!("sheet of {cut} bytes, mark"), &file, &Ask::Mark(Chunks::of(&sheet[..cut])), no);
    }
    for extra in [1, 3, 511] {
        let start = vec![4; extra];
        out.known(&format!("start list of {extra} bytes"), &file, &judging(&start, &sheet), &format!("{no}; offending"));
        out.known(&format!("start list of {extra} bytes, solved"), &file, &solving(&start, 100), &format!("{no} with 0; {no}"));
    }
    // 16 is asked of both lists before 17 of any.
    out.known("a wrong byte in the start list", &file, &judging(&[0, 0], &sheet[..5]), &format!("{no}; offending"));
    out.known("a wrong byte in the sheet", &file, &judging(&[4, 2, 4], &[9; 8]), &format!("{no}; offending"));
    out.known("a wrong byte before", &file, &solving(&[0, 0, 4], 100), &format!("{no} with 0; {no}"));
    for (times, fits) in [(4095, true), (4096, true), (4097, false)] {
        let starts = Chunks::repeated(&start, times);
        let records = Chunks::repeated(&sheet_of("1 4 4"), times);
        let verdict = |fits: bool, fine: &str| if fits { format!("{fine}; offending") } else { format!("{no}; offending") };
        out.known(&format!("{times} start records"), &file, &Ask::Judge(starts.clone(), Chunks::of(&sheet)), &verdict(fits, "accepted index clean"));
        out.known(&format!("{times} records"), &file, &Ask::Judge(Chunks(Vec::new()), records.clone()), &verdict(fits, "accepted index clean"));
        out.known(
            &format!("{times} of both"),
            &file,
            &Ask::Judge(starts.clone(), records.clone()),
            &if fits { "41 record 0; offending 4 2".to_string() } else { format!("{no}; offending") },
        );
        out.known(&format!("{times} records, mark"), &file, &Ask::Mark(records.clone()), if fits { "index clean" } else { no });
        let solved = if fits { format!("finished with 8{}; accepted index clean", shown(&sheet, 4)) } else { format!("{no} with 0; {no}") };
        out.known(&format!("{times} start records, solved"), &file, &Ask::Solve(starts, 100), &solved);
        // 32 names: 34 bytes a record.
        let wide = file_of(&WIDE_NAMES.join(" "), "skip");
        let (start, records) = (Chunks::repeated(&[PLUS; 32], times), Chunks::repeated(&at_node(1, &[PLUS; 32]), times));
        out.known(&format!("{times} records of 32 names"), &wide, &Ask::Judge(Chunks(Vec::new()), records), &verdict(fits, "accepted index clean"));
        let two = [at_node(0, &[PLUS; 32]), at_node(1, &[PLUS; 32])].concat();
        let solved = if fits { format!("finished with 2{}; accepted index clean", shown(&two, 34)) } else { format!("{no} with 0; {no}") };
        out.known(&format!("{times} start records of 32 names"), &wide, &Ask::Solve(start, 100), &solved);
    }
    out.known("4096 start records and a byte", &file, &Ask::Solve(Chunks::repeated(&start, 4096).then(&[4]), 100), &format!("{no} with 0; {no}"));
    out.known("4096 records and a byte", &file, &Ask::Mark(Chunks::repeated(&sheet_of("1 4 4"), 4096).then(&[0])), no);
    // 65,536 records are none in sixteen bits.
    let single = file_of("x", "skip");
    out.known("65536 start records", &single, &Ask::Solve(Chunks(vec![(65535, vec![4]), (1, vec![4])]), 100), &format!("{no} with 0; {no}"));
}

/// Question 17 of names x, A of 4, y, B of 64, over a graph of four nodes: every kind of byte at every place of three records.
pub fn wrong_bytes(out: &mut Out) {
    out.group("wrong");
    let file = file_of("x A4 y B64", "x := 1; y := A[x]; B[0] := y");
    let (start, sheet) = (starts("4 7 2 1; 1 1 4 7; 2 3 1 5"), sheet_of("1 4 7 2 1; 2 1 1 4 7; 3 2 3 1 5"));
    let changed = |list: &[u8], at: usize, byte: u8| {
        let mut list = list.to_vec();
        list[at] = byte;
        list
    };
    let refused_start = |out: &mut Out, title: &str, start: &[u8], at: usize| {
        let no = format!("refused 17 at {at} of the start list");
        out.known(&format!("{title}, judged"), &file, &judging(start, &sheet), &format!("{no}; offending"));
        out.known(&format!("{title}, solved"), &file, &solving(start, 300), &format!("{no} with 0; {no}"));
    };
    let refused_sheet = |out: &mut Out, title: &str, sheet: &[u8], at: usize| {
        let no = format!("refused 17 at {at} of the sheet");
        out.known(&format!("{title}, judged"), &file, &judging(&start, sheet), &format!("{no}; offending"));
        out.known(&format!("{title}, marked"), &file, &Ask::Mark(Chunks::of(sheet)), &no);
    };
    for record in 0..3 {
        for name in 0..4 {
            let variable = name % 2 == 0;
            let wrong: &[u8] = if variable { &[0, 3, 5, 6, 7, 8, 9, 16, 255] } else { &[0, 8, 9, 15, 128, 255] };
            for &byte in wrong {
                let (at, at_sheet) = (record * 4 + name, record * 6 + 2 + name);
                refused_start(out, &format!("start byte {at} is {byte}"), &changed(&start, at, byte), at);
                refused_sheet(out, &format!("sheet byte {at_sheet} is {byte}"), &changed(&sheet, at_sheet, byte), at_sheet);
            }
        }
        for (high, low) in [(0, 4), (0, 5), (0, 255), (1, 0), (1, 1), (255, 255), (128, 0)] {
            let list = changed(&changed(&sheet, record * 6, high), record * 6 + 1, low);
            refused_sheet(out, &format!("node {high} {low} of record {record}"), &list, record * 6);
        }
    }
    // Every well-formed byte at some place.
    for byte in [1, 2, 4] {
        let told = out.put(&format!("start byte 0 is {byte}"), &file, &solving(&changed(&start, 0, byte), 2000));
        assert!(told.starts_with("finished"), "{told}");
    }
    for byte in 1..=7 {
        let told = out.put(&format!("start byte 5 is {byte}"), &file, &solving(&changed(&start, 5, byte), 2000));
        assert!(told.starts_with("finished"), "{told}");
        out.known(&format!("sheet byte 9 is {byte}"), &file, &Ask::Mark(Chunks::of(&changed(&sheet, 9, byte))), "index record 1 arrow 1");
    }
    // The first of two wrong bytes, a node before its record's signs, and the start list before the sheet.
    refused_start(out, "start bytes 7 and 5", &changed(&changed(&start, 7, 0), 5, 8), 5);
    refused_start(out, "start bytes 0 and 11", &changed(&changed(&start, 0, 7), 11, 0), 0);
    refused_sheet(out, "sheet bytes 9 and 8", &changed(&changed(&sheet, 9, 0), 8, 3), 8);
    refused_sheet(out, "sheet bytes 6 and 8", &changed(&changed(&sheet, 6, 9), 8, 3), 6);
    refused_sheet(out, "sheet bytes 5 and 6", &changed(&changed(&sheet, 6, 9), 5, 0), 5);
    let both = judging(&changed(&start, 11, 0), &changed(&sheet, 0, 9));
    out.known("both lists", &file, &both, "refused 17 at 11 of the start list; offending");
    // 17 is asked before 41 and 42.
    out.known("before 41", &file, &judging(&starts("4 7 2 2; 0 1 1 1"), &sheet), "refused 17 at 4 of the start list; offending");
    out.known("before 42", &file, &judging(&[], &sheet_of("0 4 7 2 1; 4 4 7 2 1")), "refused 17 at 6 of the sheet; offending");
    wrong_at_the_end(out, &file, &sheet);
}

/// The last of 4,096 records, the last node, the last of 32 names.
fn wrong_at_the_end(out: &mut Out, file: &[u8], sheet: &[u8]) {
    let last = Chunks::repeated(&starts("4 7 2 1"), 4095).then(&starts("4 7 2 8"));
    out.known(
        "the last of 4096 start records",
        file,
        &Ask::Solve(last.clone(), 300),
        "refused 17 at 16383 of the start list with 0; refused 17 at 16383 of the start list",
    );
    out.known("the last of 4096 start records, judged", file, &Ask::Judge(last, Chunks::of(sheet)), "refused 17 at 16383 of the start list; offending");
    let last = Chunks::repeated(&sheet_of("1 4 7 2 1"), 4095).then(&sheet_of("4 4 7 2 1"));
    out.known("the last of 4096 records", file, &Ask::Judge(Chunks(Vec::new()), last), "refused 17 at 24570 of the sheet; offending");
    // 129 nodes, and the start and the end alone.
    for (title, file, nodes) in [("129 nodes", sequence(128, 0).bytes(), 129), ("2 nodes", file_of("x", "skip"), 2)] {
        for node in [nodes - 1, nodes, nodes + 1] {
            let expected = if node < nodes { "index clean" } else { "refused 17 at 3 of the sheet" };
            out.known(&format!("{title}, node {node}"), &file, &Ask::Mark(Chunks::of(&[at_node(0, &[4]), at_node(node, &[4])].concat())), expected);
        }
    }
    // 32 names: each byte in turn.
    let wide = file_of(&WIDE_NAMES.join(" "), "skip");
    for k in 0..32 {
        let mut list = [PLUS; 64];
        list[32 + k] = 7;
        out.known(
            &format!("32 names, byte {}", 32 + k),
            &wide,
            &solving(&list, 100),
            &format!("refused 17 at {} of the start list with 0; refused 17 at {} of the start list", 32 + k, 32 + k),
        );
    }
}

/// Questions 1 to 11 and 20, of the factorial lesson with its own lists, and with lists that would be refused by 16 and 17.
pub fn refusals(out: &mut Out) {
    out.group("refusal");
    let f = factorial();
    let file = f.bytes();
    let sheet = sheet_of(FACTORIAL);
    let mut damaged: Vec<(String, Vec<u8>, u32, usize)> = vec![("empty file".to_string(), Vec::new(), 1, 0)];
    for tag in 1..=4u8 {
        let head = f.head(tag);
        let changed = |at: usize, to: u8| {
            let mut bytes = file.clone();
            bytes[head + at] = to;
            bytes
        };
        damaged.push((format!("cut in head {tag}"), file[..head + 2].to_vec(), 1, head));
        damaged.push((format!("tag {tag} is 9"), changed(0, 9), 2, head));
        damaged.push((format!("length of field {tag}"), changed(2, file[head + 2] + 1), 3, head));
        damaged.push((format!("field {tag} cut"), file[..f.head(tag + 1) - 1].to_vec(), 4, head));
    }
    damaged.push(("one byte more".to_string(), [file.clone(), vec![0]].concat(), 5, file.len()));
    let mut s = f.clone();
    s.names[1] = 65;
    damaged.push(("size 65".to_string(), s.bytes(), 6, 5));
    for (t, i) in [(0, 0), (0, 7), (1, 0), (2, 0), (2, 6)] {
        let at = f.place(t, i);
        damaged.push((format!("7 at {at}"), with_entry(&f, t, i, entry(10, 0, 0, 0)).bytes(), 7, at));
        damaged.push((format!("8 at {at}"), with_entry(&f, t, i, entry(0, 0, 0, 1)).bytes(), 8, at));
        let wrong = if t == 2 { entry(3, 99, 0, 0) } else { entry(5, 99, 0, 0) };
        damaged.push((format!("9 at {at}"), with_entry(&f, t, i, wrong).bytes(), 9, at));
    }
    damaged.push(("10, a number unused".to_string(), with_entry(&f, 2, 0, entry(0, 0, 0, 0)).bytes(), 10, f.place(0, 0)));
    let mut s = Script::new(&[0, 0]);
    s.true_skip();
    damaged.push(("11".to_string(), s.bytes(), 11, s.place(2, 1)));
    for (text, at) in [("break", 16), ("do true -> break od; continue", 44)] {
        damaged.push((format!("20, {text}"), draft_of("x y", text).bytes(), 20, at));
    }
    for (title, file, number, at) in damaged {
        let no = format!("refused {number} at {at}");
        refuses(out, &title, &file, &[4, 2], &sheet, &no);
        refuses(out, &format!("{title}, lists not whole"), &file, &[9; 3], &[9; 5], &no);
    }
}
