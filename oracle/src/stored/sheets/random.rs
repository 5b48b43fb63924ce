//! Sheets that are changed, and random ones.

use super::*;

/// A solver's sheet as it is, with each record left out, with records twice, in other orders, and with a byte changed.
fn changes(out: &mut Out, r: &mut Random, title: &str, file: &[u8], initial: &[u8], all: bool) {
    let width = Loaded::of(file).fit().width(List::Sheet);
    let (answer, sheet) = solved(&Loaded::of(file), Nondeterministic, initial);
    if answer.is_err() || sheet.is_empty() || sheet.len() > 1200 {
        return;
    }
    let records: Vec<&[u8]> = sheet.chunks(width).collect();
    let told = out.put(title, file, &judging(initial, &sheet));
    assert!(told.starts_with("accepted"), "{title}: {told}");
    let is_clean = told.contains("clean");
    for k in 0..records.len() {
        if !all && !r.chance(records.len()) {
            continue;
        }
        let mut fewer = records.clone();
        fewer.remove(k);
        let told = out.put(&format!("{title}, without record {k}"), file, &judging(initial, &fewer.concat()));
        // The solver lists nothing that an accepted sheet could do without.
        assert!(told.starts_with("41") || told.starts_with("42"), "{title}: {told}");
    }
    let mut shuffled: Vec<&[u8]> = records.iter().chain(&records[..r.below(records.len())]).copied().collect();
    for k in (1..shuffled.len()).rev() {
        shuffled.swap(k, r.below(k + 1));
    }
    let told = out.put(&format!("{title}, shuffled with repeats"), file, &judging(initial, &shuffled.concat()));
    assert!(told.starts_with("accepted") && told.contains("clean") == is_clean, "{title}: {told}");
    for _ in 0..if all { 6 } else { 2 } {
        let mut changed = sheet.clone();
        let at = r.below(changed.len());
        changed[at] = if r.chance(4) { r.next() as u8 } else { [1, 2, 4, 3, 5, 6, 7, 0][r.below(8)] };
        out.put(&format!("{title}, byte {at} is {}", changed[at]), file, &judging(initial, &changed));
    }
}

pub fn changed(out: &mut Out) {
    out.group("changed");
    let mut r = Random(20_260_301_001);
    let lessons = [
        ("x y", "y := 1; do x > 0 -> y := x * y; x := x - 1 od", "4 2"),
        ("x A4", "if x > 0 -> A[x] := x - 1 [] !x > 0 -> A[0] := 0 fi", "4 7; 1 1"),
        ("x y z", "do x > y -> x := x - 1 [] y > x -> y := y - 1 od; z := x / y", "4 4 2"),
        ("i A4", "i := 0; do 4 > i -> A[i] := A[i] - 1; i := i + 1 od", "2 4"),
        ("j A4", "do j > 0 && A[j - 1] > A[j] -> A[j] := A[j - 1]; j := j - 1 od", "4 6"),
        ("x", "do true -> if x > 0 -> x := -1 [] 0 >= x -> x := 1 fi od", "2"),
        ("x y", "do x > 0 -> if y > 0 -> break [] 0 >= y -> y := y + 1; continue fi; x := 0 od", "4 1"),
        ("i A4", "i := 3; do true -> if A[i] > 0 -> break [] 0 >= A[i] -> i := i - 1 fi; do i > 0 -> break od od", "2 3"),
    ];
    for (names, text, initial) in lessons {
        changes(out, &mut r, text, &file_of(names, text), &starts(initial), true);
    }
    // Long sheets in another order, and with another record in place of one.
    let (file, initial) = fan(6);
    replaced(out, &mut r, "1093 records", &file, &initial, &[0, 546, 1092]);
    replaced(out, &mut r, "4096 records", &file_of("A4 B4 C4 D4", "skip"), &different(2048), &[4095]);
}

fn replaced(out: &mut Out, r: &mut Random, title: &str, file: &[u8], initial: &[u8], places: &[usize]) {
    let width = Loaded::of(file).fit().width(List::Sheet);
    let (_, sheet) = solved(&Loaded::of(file), Nondeterministic, initial);
    let mut records: Vec<&[u8]> = sheet.chunks(width).collect();
    assert!(title.starts_with(&records.len().to_string()));
    for k in (1..records.len()).rev() {
        records.swap(k, r.below(k + 1));
    }
    out.known(title, file, &judging(initial, &records.concat()), "accepted index clean; offending");
    for &k in places {
        let mut other = records.clone();
        other[k] = records[(k + 7) % records.len()];
        let told = out.put(&format!("{title} without record {k}"), file, &judging(initial, &other.concat()));
        assert!(told.starts_with("41") || told.starts_with("42"), "{told}");
    }
}

pub fn random(out: &mut Out) {
    let mut r = Random(20_260_301_002);
    out.group("random solve");
    for k in 0..420 {
        let file = random_lesson(&mut r, k);
        let initial = random_start(&mut r, file.fit());
        random_solve(out, &mut r, k, &file, &initial);
    }
    out.group("random judge");
    for k in 0..240 {
        let file = random_lesson(&mut r, k);
        let initial = random_start(&mut r, file.fit());
        changes(out, &mut r, &k.to_string(), &file.bytes, &initial, false);
    }
    out.group("random sheet");
    for k in 0..240 {
        random_sheet(out, &mut r, k);
    }
    out.group("damaged");
    for k in 0..120 {
        damaged(out, &mut r, k);
    }
}

/// Exactly enough room, a byte or a record short, a part, or more.
fn random_solve(out: &mut Out, r: &mut Random, k: usize, file: &Loaded, initial: &[u8]) {
    let width = file.fit().width(List::Sheet);
    let (answer, sheet) = solved(file, Nondeterministic, initial);
    let all = sheet.len();
    let room = [all, all.saturating_sub(1), all.saturating_sub(width), r.below(all + 1), all + r.below(3 * width)][r.below(5)].min(LIST);
    let told = out.put(&format!("{k}, {room} bytes"), &file.bytes, &solving(initial, room));
    assert_eq!(told.starts_with("finished"), answer.is_ok() && room >= all, "{told}");
    assert_eq!(told.contains("accepted"), told.starts_with("finished"), "{told}");
}

/// Lists of any well-formed records.
fn random_sheet(out: &mut Out, r: &mut Random, k: usize) {
    let file = random_lesson(r, k);
    let lesson = file.fit();
    let (start_count, count) = (r.below(3), r.below(12));
    let mut initial: Vec<u8> = (0..start_count).flat_map(|_| random_record(r, lesson)).collect();
    let mut sheet: Vec<u8> = Vec::new();
    for _ in 0..count {
        let node = r.below(usize::from(lesson.graph.nodes)) as u16;
        sheet.extend(at_node(node, &random_record(r, lesson)));
    }
    if k.is_multiple_of(3) && !initial.is_empty() {
        damage_bytes(r, &mut initial);
    }
    if k % 3 == 1 {
        damage_bytes(r, &mut sheet);
    }
    out.put(&format!("{k}, judged"), &file.bytes, &judging(&initial, &sheet));
    out.put(&format!("{k}, marked"), &file.bytes, &marking(&sheet));
}

/// A file that is damaged, with the lists of the file as it was.
fn damaged(out: &mut Out, r: &mut Random, k: usize) {
    let fit = random_lesson(r, k);
    let initial = random_start(r, fit.fit());
    let (_, sheet) = solved(&fit, Nondeterministic, &initial);
    let sheet = &sheet[..sheet.len().min(600)];
    let mut file = fit.bytes.clone();
    if k.is_multiple_of(2) {
        let mut script = fit.fit().script.clone();
        damage_script(r, &mut script);
        file = script.bytes();
    } else {
        damage_bytes(r, &mut file);
    }
    match k % 8 / 2 {
        0 => out.put(&format!("{k}, judged"), &file, &judging(&initial, sheet)),
        1 => out.put(&format!("{k}, marked"), &file, &marking(sheet)),
        2 => out.put(&format!("{k}, solved"), &file, &solving(&initial, 500)),
        _ => out.put(&format!("{k}, split"), &file, &Ask::Split(vec![0, 7, 1000, 4294967295])),
    };
}
