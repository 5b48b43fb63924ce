//! Room, start lists, places split, and the limits.

use super::*;

/// The solver's room: from none to too much, one record short, one byte short.
pub fn rooms(out: &mut Out) {
    out.group("room");
    // The verdict on what was written before 18 is that the next record is missing.
    let short = [
        "41 record 0",
        "42 record 0 arrow 0",
        "42 record 1 arrow 1",
        "42 record 2 arrow 2",
        "42 record 3 arrow 3",
        "42 record 3 arrow 3",
        "42 record 4 arrow 4",
        "42 record 5 arrow 4",
    ];
    let (file, sheet) = (factorial().bytes(), sheet_of(FACTORIAL));
    for bytes in [0, 1, 3, 4, 5, 7, 8, 9, 12, 16, 20, 24, 27, 28, 29, 31, 32, 33, 35, 36, 100, 16383, 16384, 16385, 16388, 65536, LIST] {
        let room = bytes / 4;
        let expected = match short.get(room) {
            Some(verdict) => format!("refused 18 at 0 with {room}{}; {verdict}", shown(&sheet[..4 * room], 4)),
            None => format!("finished with 8{}; accepted index clean", shown(&sheet, 4)),
        };
        out.known(&format!("factorial, {bytes} bytes"), &file, &solving(&[4, 2], bytes), &expected);
    }
    little_room(out);
    room_by_names(out);
    room_for_many(out);
}

fn little_room(out: &mut Out) {
    // A record that is listed already needs no room.
    let skip = file_of("x", "skip");
    for (bytes, expected) in [(5, "refused 18 at 0 with 1; 0 0 4; 42 record 0 arrow 0"), (6, "finished with 2; 0 0 4; 0 1 4; accepted index clean")] {
        out.known(&format!("repeats, {bytes} bytes"), &skip, &solving(&[4; 9], bytes), expected);
    }
    let around = file_of("x", "do true -> skip od");
    for (bytes, expected) in [(3, "refused 18 at 0 with 1; 0 0 4; 42 record 0 arrow 0"), (6, "finished with 2; 0 0 4; 0 2 4; accepted index clean")] {
        out.known(&format!("around, {bytes} bytes"), &around, &solving(&[4], bytes), expected);
    }
    // Nothing to list needs no room at all.
    for bytes in [0, 1, 100] {
        out.known(&format!("no start record, {bytes} bytes"), &skip, &solving(&[], bytes), "finished with 0; accepted index clean");
    }
    out.known("no room for the second start record", &skip, &solving(&[4, 2], 3), "refused 18 at 0 with 1; 0 0 4; 41 record 1");
}

/// One name to 32: exactly enough, a byte short, a record short.
fn room_by_names(out: &mut Out) {
    for count in [1, 2, 5, 30, 32] {
        let names = WIDE_NAMES[..count].join(" ");
        let file = file_of(&names, "a := a - 1");
        let start = vec![PLUS; count];
        let (_, sheet) = solved(&Loaded::of(&file), Nondeterministic, &start);
        assert_eq!(sheet.len(), 4 * (2 + count));
        for (bytes, fits) in [(sheet.len(), 4), (sheet.len() - 1, 3), (sheet.len() - 2 - count, 3), (sheet.len() + 1, 4), (1 + count, 0), (2 + count, 1)] {
            let told = out.put(&format!("{count} names, {bytes} bytes"), &file, &solving(&start, bytes));
            let answer = if fits == 4 { "finished with 4".to_string() } else { format!("refused 18 at 0 with {fits}") };
            assert!(told.starts_with(&answer), "{told}");
        }
    }
}

/// More than 4,096 records are to be listed, or would have room.
fn room_for_many(out: &mut Out) {
    let (file, start) = fan(8);
    let width = 11;
    for bytes in [65536, LIST, 4096 * width, 4096 * width - 1, 4096 * width + 1, 4097 * width, 1000 * width] {
        let room = (bytes / width).min(4096);
        let told = out.put(&format!("9841 records, {bytes} bytes"), &file, &solving(&start, bytes));
        assert!(told.starts_with(&format!("refused 18 at 0 with {room};")), "{told}");
    }
    let (file, start) = fan(7);
    for (bytes, answer) in
        [(LIST, "finished with 3280;"), (32800, "finished with 3280;"), (32799, "refused 18 at 0 with 3279;"), (65536, "finished with 3280;")]
    {
        let told = out.put(&format!("3280 records, {bytes} bytes"), &file, &solving(&start, bytes));
        assert!(told.starts_with(answer), "{told}");
    }
    // Exactly 4,096, and two more.
    let skip = file_of("A4 B4 C4 D4", "skip");
    for (count, bytes, answer) in [
        (2048, LIST, "finished with 4096;"),
        (2048, 24576, "finished with 4096;"),
        (2048, 24575, "refused 18 at 0 with 4095;"),
        (2049, LIST, "refused 18 at 0 with 4096;"),
    ] {
        let told = out.put(&format!("{count} start records, {bytes} bytes"), &skip, &solving(&different(count), bytes));
        assert!(told.starts_with(answer), "{told}");
    }
    // 32 names in the sheet program's buffer: 1,927 records.
    let wide = file_of(&format!("{} G1", WIDE_NAMES[..31].join(" ")), &(0..7).map(|k| format!("{} := G[0]", WIDE_NAMES[k])).collect::<Vec<_>>().join("; "));
    let told = out.put("32 names, 65536 bytes", &wide, &solving(&[vec![ZERO; 31], vec![7]].concat(), 65536));
    assert!(told.starts_with("refused 18 at 0 with 1927;"), "{told}");
    let told = out.put("32 names, all the room", &wide, &solving(&[vec![ZERO; 31], vec![7]].concat(), LIST));
    assert!(told.starts_with("finished with 3280;"), "{told}");
}

/// Start lists: none, repeats, many, and their order in the solver's list.
pub fn start_lists(out: &mut Out) {
    out.group("start");
    solves(out, "x", "skip", "", "", CLEAN);
    solves(out, "x", "skip", "4", "0 4; 1 4", CLEAN);
    solves(out, "x", "skip", "4; 4; 4", "0 4; 1 4", CLEAN);
    solves(out, "x", "skip", "4; 2; 4; 1; 2", "0 4; 0 2; 0 1; 1 4; 1 2; 1 1", CLEAN);
    solves(out, "x", "skip", "1; 2; 4", "0 1; 0 2; 0 4; 1 1; 1 2; 1 4", CLEAN);
    // A start record that a loop comes back to, and records that meet.
    solves(out, "x", "do true -> x := x * x od", "1; 4", "0 1; 0 4; 2 1; 2 4", CLEAN);
    solves(out, "x", "x := 0; x := 1", "1; 4; 2", "0 1; 0 4; 0 2; 2 2; 1 4", CLEAN);
    // Arrow by arrow, result by result, record by record.
    solves(out, "x", "if true -> x := x - 1 [] true -> x := 0 - x fi", "4", "0 4; 2 4; 3 4; 1 1; 1 2; 1 4", CLEAN);
    solves(out, "x y", "x := x - y; y := x", "4 4", "0 4 4; 2 1 4; 2 2 4; 2 4 4; 1 1 1; 1 2 2; 1 4 4", CLEAN);
    solves(out, "x", "do x > 0 -> x := x - 1 od; x := 1", "4", "0 4; 3 4; 0 1; 0 2; 2 1; 2 2; 1 4", CLEAN);
    // Stuck: nothing is reached.
    solves(out, "x", "if !true -> skip fi", "4", "0 4", CLEAN);
    solves(out, "x", "x := x / 0", "4", "0 4", CLEAN);
    solves(out, "x", "x := 2 ^ x", "1", "0 1", CLEAN);
    let file = factorial().bytes();
    let expected = format!("finished with 8{}; accepted index clean", shown(&sheet_of(FACTORIAL), 4));
    for times in [2, 511, 512, 513, 4096] {
        out.known(&format!("{times} times one record"), &file, &Ask::Solve(Chunks::repeated(&[4, 2], times), 40), &expected);
    }
    let nine: Vec<u8> = [1, 2, 4].iter().flat_map(|&x| [1, 2, 4].map(|y| [x, y]).concat()).collect();
    for times in [1, 57, 455] {
        let told = out.put(&format!("{times} times nine records"), &file, &Ask::Solve(Chunks::repeated(&nine, times), 400));
        // Nine at node 0, then x with y plus at 2, and so on as in the factorial lesson.
        assert_eq!(told, "finished with 16; 0 0 1 1; 0 0 1 2; 0 0 1 4; 0 0 2 1; 0 0 2 2; 0 0 2 4; 0 0 4 1; 0 0 4 2; 0 0 4 4; 0 2 1 4; 0 2 2 4; 0 2 4 4; 0 1 1 4; 0 1 2 4; 0 3 4 4; 0 4 4 4; accepted index clean");
    }
    let skip = file_of("A4 B4 C4 D4", "skip");
    for count in [511, 512, 513, 1000] {
        let told = out.put(&format!("{count} different records"), &skip, &solving(&different(count), 12 * count));
        assert!(told.starts_with(&format!("finished with {};", 2 * count)), "{told}");
    }
}

pub fn splits(out: &mut Out) {
    out.group("split");
    let file = factorial().bytes();
    let places = vec![0, 1, 3, 4, 5, 7, 8, 31, 32, 65535, 65536, 4294967295];
    out.known(
        "factorial",
        &file,
        &Ask::Split(places),
        "record 0 column 0; record 0 column 1; record 0 column 3; record 1 column 0; record 1 column 1; record 1 column 3; record 2 column 0; record 7 column 3; record 8 column 0; record 16383 column 3; record 16384 column 0; record 1073741823 column 3; ",
    );
    let file = file_of("x", "skip");
    out.known(
        "one name",
        &file,
        &Ask::Split(vec![0, 2, 3, 5, 4294967295]),
        "record 0 column 0; record 0 column 2; record 1 column 0; record 1 column 2; record 1431655765 column 0; ",
    );
    let file = file_of(&WIDE_NAMES.join(" "), "skip");
    out.known(
        "32 names",
        &file,
        &Ask::Split(vec![33, 34, 139263, 139264, 4294967295]),
        "record 0 column 33; record 1 column 0; record 4095 column 33; record 4096 column 0; record 126322567 column 17; ",
    );
    for count in 1..=32 {
        let file = file_of(&WIDE_NAMES[..count].join(" "), "skip");
        let width = count as u32 + 2;
        let mut places = vec![
            0,
            1,
            width - 1,
            width,
            width + 1,
            2 * width - 1,
            2 * width,
            8 * width - 1,
            8 * width,
            100 * width + 1,
            4095 * width,
            4096 * width - 1,
            4096 * width,
        ];
        places.extend([65535, 65536, 2147483647, 2147483648, 4294967294, 4294967295, u32::MAX / width * width, u32::MAX / width * width - 1]);
        out.put(&format!("{count} names"), &file, &Ask::Split(places));
    }
    out.known("no place", &file, &Ask::Split(Vec::new()), "");
}

/// The largest files, the deepest expressions and the widest loops.
pub fn limits(out: &mut Out) {
    out.group("limit");
    for (shape, word) in [(0, "left"), (1, "right"), (2, "in halves")] {
        let told = out.put(&format!("128 skips nested {word}"), &sequence(128, shape).bytes(), &solving(&[4], 400));
        assert!(told.starts_with("finished with 129; accepted index clean"), "{told}");
    }
    let told = out.put("127 loops", &loops(127).bytes(), &solving(&[4], 400));
    // Each loop's guard is true: the exits are not taken.
    assert!(told.starts_with("finished with 128; accepted index clean"), "{told}");
    // A[A[..A[7]..]], 511 elements deep: through plus only, through plus or minus, and through minus, where nothing is below.
    let deep = exact(&[0, 9], 512, 0, 1).bytes();
    finishes(out, "511 elements, plus", &deep, &[2, 4], &sheet_of("0 2 4; 1 4 4"), CLEAN);
    finishes(out, "511 elements, plus and minus", &deep, &[2, 5], &sheet_of("0 2 5; 1 1 5; 1 4 5"), Some((0, 0)));
    finishes(out, "511 elements, minus", &deep, &[2, 1], &sheet_of("0 2 1"), Some((0, 0)));
    // 255 negations of true as a loop's guard, and 254.
    finishes(out, "255 negations", &exact(&[0, 9], 0, 256, 3).bytes(), &[2, 4], &sheet_of("0 2 4; 1 2 4"), CLEAN);
    finishes(out, "254 negations", &exact(&[0, 9], 0, 255, 3).bytes(), &[2, 4], &sheet_of("0 2 4; 2 2 4"), CLEAN);
    let arms = |special: &str, at: usize| (0..85).map(|k| format!("{} -> skip", if k == at { special } else { "!true" })).collect::<Vec<_>>().join(" [] ");
    for (special, at, sheet) in
        [("!true", 0, "0 4; 1 4"), ("true", 84, "0 4; 86 4"), ("x > x", 84, "0 4; 86 4; 1 4"), ("true", 0, "0 4; 2 4"), ("x / 0 = 0", 84, "0 4")]
    {
        let text = format!("do {} od", arms(special, at));
        finishes(out, &format!("85 arms, {special} at {at}"), &file_of("x", &text), &[4], &sheet_of(sheet), CLEAN);
    }
    // A record at every node, so that every entry is asked about: the assignment of the deepest element is that of the innermost loop.
    let largest = Lesson::of(exact(&full_names(), 512, 256, 256), Nondeterministic);
    let file = largest.script.bytes();
    for array in [1, 2, 4, 5, 7] {
        let record = [vec![MINUS; 20], vec![array; 12]].concat();
        let everywhere: Vec<u8> = (0..largest.graph.nodes).flat_map(|node| at_node(node, &record)).collect();
        out.put(&format!("largest file, arrays {array}"), &file, &solving(&record.repeat(2), 20000));
        let mark = out.put(&format!("largest file, arrays {array}, marked"), &file, &Ask::Mark(Chunks::of(&everywhere)));
        assert_eq!(mark == "index clean", array & MINUS == 0, "{mark}");
        out.put(&format!("largest file, arrays {array}, judged"), &file, &judging(&record, &everywhere));
    }
}
