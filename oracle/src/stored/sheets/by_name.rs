//! Sheets on graphs by name: the factorial lesson, room, refusals, the third term, limits, and random lessons.

use super::*;

pub fn by_name(out: &mut Out) {
    out.group("by name");
    factorials(out);
    rooms(out);
    refusals(out);
    lists_refused(out);
    followed(out);
    limits(out);
    random(out);
}

/// Each choice has a single guard: both graphs have the same sheets.
fn factorials(out: &mut Out) {
    let file = factorial().bytes();
    let without = ["41 record 0; offending 4 2", "42 record 0 arrow 0; offending 0 0 4 2", "42 record 1 arrow 1; offending 0 2 4 4"];
    for construction in CONSTRUCTIONS {
        finishes_on(out, construction, "factorial", &file, &[4, 2], &sheet_of(FACTORIAL), CLEAN);
        known_on(out, construction, "factorial judged", &file, &judging(&[4, 2], &sheet_of(FACTORIAL)), "accepted index clean; offending");
        for (k, expected) in without.iter().enumerate() {
            let mut records: Vec<&str> = FACTORIAL.split("; ").collect();
            records.remove(k);
            let title = format!("factorial without record {k}");
            known_on(out, construction, &title, &file, &judging(&[4, 2], &sheet_of(&records.join("; "))), expected);
        }
        let last = sheet_of(FACTORIAL)[..28].to_vec();
        known_on(out, construction, "factorial without record 7", &file, &judging(&[4, 2], &last), "42 record 5 arrow 4; offending 0 2 2 4");
    }
}

/// Question 18. On the deterministic graph less room may do; the verdict on what was written is by the same graph.
fn rooms(out: &mut Out) {
    let file = file_of("x", "if x > 0 -> skip [] true -> x := 0 fi");
    let sheets = [sheet_of("0 4; 2 4; 3 4; 1 4; 1 2"), sheet_of("0 4; 2 4; 1 4")];
    let verdicts = [
        &["41 record 0", "42 record 0 arrow 0", "42 record 0 arrow 2", "42 record 1 arrow 1", "42 record 2 arrow 3"][..],
        &["41 record 0", "42 record 0 arrow 0", "42 record 1 arrow 1"],
    ];
    for (construction, (sheet, verdicts)) in CONSTRUCTIONS.into_iter().zip(sheets.iter().zip(verdicts)) {
        for bytes in [0, 1, 2, 3, 5, 6, 8, 9, 10, 11, 12, 14, 15, 16, 100, 65536] {
            let room = bytes / 3;
            let expected = match verdicts.get(room) {
                Some(verdict) => format!("refused 18 at 0 with {room}{}; {verdict}", shown(&sheet[..3 * room], 3)),
                None => format!("finished with {}{}; accepted index clean", verdicts.len(), shown(sheet, 3)),
            };
            known_on(out, construction, &format!("{bytes} bytes"), &file, &solving(&[4], bytes), &expected);
        }
    }
    // 4,096 records: each start record at four nodes, or at three where the second guard is not reached.
    let file = file_of("A4 B4 C4 D4", "if true -> skip [] true -> skip fi");
    for (construction, count, answer) in [
        (Nondeterministic, 1024, "finished with 4096;"),
        (Nondeterministic, 1025, "refused 18 at 0 with 4096;"),
        (Deterministic, 1024, "finished with 3072;"),
        (Deterministic, 1025, "finished with 3075;"),
        (Deterministic, 1365, "finished with 4095;"),
        (Deterministic, 1366, "refused 18 at 0 with 4096;"),
    ] {
        let ask = solving(&different(count), LIST);
        let told = out.put(&format!("{count} start records, {construction:?}"), &file, &answers::by_name(construction, &ask));
        assert!(told.starts_with(answer), "{told}");
    }
}

/// Questions 1 to 11 and 20 by each operation that takes a graph, with lists that are fit and with lists that would be refused too.
fn refusals(out: &mut Out) {
    for (title, file, number, at) in refused_files() {
        let no = format!("refused {number} at {at}");
        for construction in CONSTRUCTIONS {
            let judge = if number % 2 == 0 { judging(&[4, 2], &sheet_of(FACTORIAL)) } else { judging(&[9; 3], &[9; 5]) };
            known_on(out, construction, &format!("{title}, judged"), &file, &judge, &format!("{no}; offending"));
            known_on(out, construction, &format!("{title}, solved"), &file, &solving(&[4, 2], 40), &format!("{no} with 0; {no}"));
            let follow = Ask::Follow(Chunks::of(&[4, 2]), vec![3, 0], vec![0, 1]);
            let expected = format!("{no} with 0; has not; {no} has not; {no} has not; {no}");
            known_on(out, construction, &format!("{title}, followed"), &file, &follow, &expected);
        }
    }
}

/// Questions 16 and 17, over a script whose guards overlap: the graph does not matter to them.
fn lists_refused(out: &mut Out) {
    let file = file_of("x A4", "if x >= 0 -> skip [] A[x] > 0 -> skip fi");
    let (start, sheet) = (starts("4 7; 1 1"), sheet_of("0 4 7; 3 1 1"));
    for construction in CONSTRUCTIONS {
        let no = "refused 16 at 0";
        known_on(out, construction, "start list of 3 bytes", &file, &judging(&start[..3], &sheet), &format!("{no}; offending"));
        known_on(out, construction, "sheet of 7 bytes", &file, &judging(&start, &sheet[..7]), &format!("{no}; offending"));
        known_on(out, construction, "start list of 3 bytes, solved", &file, &solving(&start[..3], 90), &format!("{no} with 0; {no}"));
        let many = Ask::Solve(Chunks::repeated(&[4, 7], 4097), 90);
        known_on(out, construction, "4097 start records", &file, &many, &format!("{no} with 0; {no}"));
        let many = Ask::Judge(Chunks::of(&start), Chunks::repeated(&sheet_of("1 4 7"), 4097));
        known_on(out, construction, "4097 records", &file, &many, &format!("{no}; offending"));
        for (at, byte) in [(0, 3), (1, 8), (2, 0), (3, 0)] {
            let mut list = start.clone();
            list[at] = byte;
            let no = format!("refused 17 at {at} of the start list");
            known_on(out, construction, &format!("start byte {at} is {byte}"), &file, &judging(&list, &sheet), &format!("{no}; offending"));
            known_on(out, construction, &format!("start byte {at} is {byte}, solved"), &file, &solving(&list, 90), &format!("{no} with 0; {no}"));
        }
        // Nodes 0 to 3 are there.
        for (at, byte, place) in [(1, 4, 0), (0, 1, 0), (5, 4, 4), (2, 7, 2), (7, 8, 7)] {
            let mut list = sheet.clone();
            list[at] = byte;
            let expected = format!("refused 17 at {place} of the sheet; offending");
            known_on(out, construction, &format!("sheet byte {at} is {byte}"), &file, &judging(&start, &list), &expected);
        }
    }
}

/// The third term on each graph: calls that are taken on the one and undefined on the other.
fn followed(out: &mut Out) {
    let calls = vec![0, 4, 1, 2, 3, 1, 2, 9, 3, 1, 2, 3, 4, 0];
    let expected = "finished with 8; has; taken has; undefined 31 has; taken has; taken has; taken has; taken has; taken has; refused 15 at 0 has; taken has; taken has; taken has; taken has; taken has; refused 15 at 0 has; index clean";
    for construction in CONSTRUCTIONS {
        known_on(out, construction, "factorial", &factorial().bytes(), &Ask::Follow(Chunks::of(&[4, 2]), vec![3, 0], calls.clone()), expected);
    }
    for (names, text, initial, memory, calls, expected) in [
        (
            "x",
            "if x > 0 -> skip [] true -> x := 0 fi",
            "4",
            vec![3],
            vec![2, 3, 0, 1],
            [
                "finished with 5; has; taken has; taken has; refused 15 at 0 has; refused 15 at 0 has; index clean",
                "finished with 3; has; undefined 31 has; refused 15 at 0 has; taken has; taken has; index clean",
            ],
        ),
        // From a memory whose record is not in the start list.
        (
            "x",
            "if x > 0 -> skip [] true -> x := 0 fi",
            "4",
            vec![-3],
            vec![2, 3],
            ["finished with 5; has not; taken has not; taken has; index clean", "finished with 3; has not; taken has not; taken has not; index clean"],
        ),
        (
            "x A2",
            "if A[x] > 0 -> skip [] true -> x := 0 fi",
            "1 4",
            vec![-1, 5, 5],
            vec![0, 2, 3],
            [
                "finished with 3; has; undefined 34 has; taken has; taken has; index record 0 arrow 0",
                "finished with 1; has; undefined 34 has; undefined 34 has; refused 15 at 0 has; index record 0 arrow 0",
            ],
        ),
    ] {
        for (construction, expected) in CONSTRUCTIONS.into_iter().zip(expected) {
            let ask = Ask::Follow(Chunks::of(&starts(initial)), memory.clone(), calls.clone());
            known_on(out, construction, &format!("{text} from{}, calls{}", spaced(&memory), spaced(&calls)), &file_of(names, text), &ask, expected);
        }
    }
}

/// 85 guards, of which one or two are not false; 127 loops; the largest file.
fn limits(out: &mut Out) {
    let arms = |special: &[(usize, &str)]| {
        let guard = |k: usize| special.iter().find(|s| s.0 == k).map_or("!true", |s| s.1);
        (0..85).map(|k| format!("{} -> skip", guard(k))).collect::<Vec<_>>().join(" [] ")
    };
    for (special, sheets) in [
        (vec![(84, "true")], ["0 4; 86 4"; 2]),
        (vec![(0, "true"), (84, "true")], ["0 4; 2 4; 86 4", "0 4; 2 4"]),
        (vec![(0, "x > x"), (84, "true")], ["0 4; 2 4; 86 4"; 2]),
        (vec![(42, "x / 0 = 0"), (84, "true")], ["0 4; 86 4", "0 4"]),
        (vec![(0, "x > x"), (42, "x / 0 = 0")], ["0 4; 2 4"; 2]),
        (vec![(0, "x > x"), (84, "x > x")], ["0 4; 2 4; 86 4; 1 4"; 2]),
    ] {
        let file = file_of("x", &format!("do {} od", arms(&special)));
        for (construction, sheet) in CONSTRUCTIONS.into_iter().zip(sheets) {
            finishes_on(out, construction, &format!("85 guards, {special:?}"), &file, &[4], &sheet_of(sheet), CLEAN);
        }
    }
    let largest = exact(&full_names(), 512, 256, 256).bytes();
    let record = [vec![MINUS; 20], vec![5; 12]].concat();
    let loops = loops(127).bytes();
    for construction in CONSTRUCTIONS {
        let told = out.put(&format!("127 loops, {construction:?}"), &loops, &answers::by_name(construction, &solving(&[4], 400)));
        assert!(told.starts_with("finished with 128; accepted index clean"), "{told}");
        out.put(&format!("largest file, {construction:?}"), &largest, &answers::by_name(construction, &solving(&record, 20000)));
    }
}

/// Random lessons solved and judged, mostly on the deterministic graph.
fn random(out: &mut Out) {
    out.group("random by name");
    let r = &mut Random(20_260_601_003);
    for k in 0..240 {
        let construction = if k % 8 == 7 { Nondeterministic } else { Deterministic };
        let file = if k % 3 == 2 { random_lesson(r, k) } else { random_choice_script(r).loaded() };
        let initial = random_start(r, file.fit());
        let sheets = CONSTRUCTIONS.map(|construction| solved(&file, construction, &initial));
        if sheets[0].0.is_ok() {
            assert_covers(&file, &initial, &sheets[0].1, &sheets[1].1);
        }
        if k % 2 == 0 {
            let title = format!("{k}, {construction:?}");
            random_solve(out, r, &title, construction, &file, &initial);
        } else {
            // A sheet of either graph, as it is or without one record.
            let sheet = without_one(r, &sheets[k / 2 % 2].1, file.fit().width(List::Sheet));
            out.put(&format!("{k}, judged, {construction:?}"), &file.bytes, &answers::by_name(construction, &judging(&initial, &sheet)));
        }
    }
}

/// Exactly enough room, a byte or a record short, a part, or more.
fn random_solve(out: &mut Out, r: &mut Random, title: &str, construction: Construction, file: &Loaded, initial: &[u8]) {
    let (answer, sheet) = solved(file, construction, initial);
    let (width, all) = (file.fit().width(List::Sheet), sheet.len());
    let room = [all, all.saturating_sub(1), all.saturating_sub(width), r.below(all + 1), all + r.below(3 * width)][r.below(5)].min(LIST);
    let told = out.put(&format!("{title}, {room} bytes"), &file.bytes, &answers::by_name(construction, &solving(initial, room)));
    assert_eq!(told.starts_with("finished"), answer.is_ok() && room >= all, "{told}");
    assert_eq!(told.contains("accepted"), told.starts_with("finished"), "{told}");
}

/// The first records of a sheet, half of the time without one of them.
fn without_one(r: &mut Random, sheet: &[u8], width: usize) -> Vec<u8> {
    let mut sheet = sheet[..sheet.len().min(200 * width)].to_vec();
    if !sheet.is_empty() && r.chance(2) {
        let at = r.below(sheet.len() / width) * width;
        sheet.drain(at..at + width);
    }
    sheet
}
