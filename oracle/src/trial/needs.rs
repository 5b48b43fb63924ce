//! What the operations need beside a file: memories, step calls, start lists, sheets, rooms, places, and marks and totals; most of them fit, some of them not.

use super::kinds::Made;
use crate::answers::classes::MARKS;
use crate::answers::sheets::{Chunks, LIST};
use crate::figures::Totals;
use crate::language::*;
use crate::making::*;

/// The most step calls of a list.
const MOST_CALLS: usize = 48;

/// A memory for a lesson.
pub fn memory(r: &mut Random, made: &Made, lesson: &Lesson) -> Vec<i32> {
    if made.is_array && lesson.cells > 5 {
        random_array_memory(r, lesson.cells)
    } else {
        random_memory(r, lesson.cells)
    }
}

/// A memory that may have another number of cells: question 12.
pub fn any_memory(r: &mut Random, made: &Made) -> Vec<i32> {
    let mut memory = memory(r, made, made.source.fit());
    if r.chance(16) {
        let cells = [memory.len() + 1, memory.len() - 1, 0, r.below(40), 512, 513][r.below(6)];
        memory.resize(cells, 7);
    }
    memory
}

/// Budgets from 0 to 65,535, most of them small.
pub fn budget(r: &mut Random) -> u16 {
    match r.below(40) {
        0 => 65535 - r.below(3) as u16,
        1 => r.next() as u16,
        2..=9 => r.below(8) as u16,
        10..=24 => r.below(60) as u16,
        _ => r.below(1500) as u16,
    }
}

/// Step calls that mostly go on from a fresh run on a graph. Of a file that is refused, those of its source.
pub fn calls(r: &mut Random, made: &Made, construction: Construction, memory: &[i32]) -> Vec<u16> {
    let file = if made.file.lesson().is_ok() { &made.file } else { &made.source };
    let length = r.below(MOST_CALLS);
    let mut calls = random_calls(r, file, construction, memory, length);
    // Where the file is refused or the memory doesn't fit, or once the run is at node 1, all calls are answered alike: a few are enough.
    let takes = made.file.lesson().is_ok_and(|lesson| lesson.cells == memory.len());
    calls.truncate(if takes { arrival(file, construction, memory, &calls) + 2 } else { 3 });
    calls
}

/// A run at any node, also one that is not there, with any count.
pub fn any_run(r: &mut Random, made: &Made) -> Run {
    let nodes = usize::from(made.source.fit().graph.nodes);
    let node = match r.below(16) {
        0 => r.next() as u16,
        1 => nodes as u16,
        _ => r.below(nodes) as u16,
    };
    let count = match r.below(3) {
        0 => 65535 - r.below(6) as u16,
        1 => r.below(300) as u16,
        _ => r.next() as u16,
    };
    Run { node, count }
}

/// The arrows in turn from some place on, so that those which leave the run's node are found; and some that are not there.
pub fn any_calls(r: &mut Random, made: &Made) -> Vec<u16> {
    let arrows = made.source.fit().graph.arrows.len();
    let first = if arrows > MOST_CALLS { r.below(arrows) } else { 0 };
    let mut calls: Vec<u16> = (first..=arrows).take(MOST_CALLS / 2).map(|k| k as u16).collect();
    if r.chance(6) {
        calls.push(r.next() as u16);
    }
    if made.file.lesson().is_err() {
        calls.truncate(2);
    }
    calls
}

/// A start list that is fit for the source, mostly with a memory's record.
pub fn start_list(r: &mut Random, made: &Made) -> Vec<u8> {
    let lesson = made.source.fit();
    let mut list = if r.chance(2) { random_start(r, lesson) } else { Vec::new() };
    if !r.chance(5) {
        list.extend(record_of(lesson, &memory(r, made, lesson)));
    }
    list
}

/// The same, or one with a wrong byte, or not whole, or of thousands of records: questions 16 and 17.
pub fn any_start_list(r: &mut Random, made: &Made, list: &[u8]) -> Chunks {
    let mut list = list.to_vec();
    match r.below(30) {
        0 | 1 => spoil(r, &mut list),
        2 | 3 => damage_bytes(r, &mut list),
        4 if r.chance(10) => {
            let record = random_record(r, made.source.fit());
            return Chunks::repeated(&record, 4095 + r.below(3)).then(&list);
        }
        _ => {}
    }
    Chunks::of(&list)
}

/// One byte that may not be well formed.
fn spoil(r: &mut Random, list: &mut [u8]) {
    if !list.is_empty() {
        let at = r.below(list.len());
        list[at] = if r.chance(4) { r.next() as u8 } else { r.below(9) as u8 };
    }
}

/// The solver's sheet, or what is near it, or any records.
pub fn any_sheet(r: &mut Random, made: &Made, solved: &[u8]) -> Vec<u8> {
    let lesson = made.source.fit();
    let width = lesson.width(List::Sheet);
    let mut sheet = solved.to_vec();
    match r.below(12) {
        0 | 1 => sheet = shuffled(r, &sheet, width),
        2..=4 if !sheet.is_empty() => {
            let at = r.below(sheet.len() / width) * width;
            sheet.drain(at..at + width);
        }
        5 | 6 => spoil(r, &mut sheet),
        7 => damage_bytes(r, &mut sheet),
        8 => sheet = any_records(r, lesson),
        9 => sheet.extend(any_records(r, lesson)),
        _ => {}
    }
    sheet.truncate(LIST);
    sheet
}

/// In another order, with some records twice.
fn shuffled(r: &mut Random, sheet: &[u8], width: usize) -> Vec<u8> {
    let mut records: Vec<&[u8]> = sheet.chunks(width).collect();
    let twice = r.below(records.len() / 2 + 1);
    records.extend_from_within(..twice);
    for k in (1..records.len()).rev() {
        records.swap(k, r.below(k + 1));
    }
    records.concat()
}

fn any_records(r: &mut Random, lesson: &Lesson) -> Vec<u8> {
    let count = r.below(12);
    let mut sheet = Vec::new();
    for _ in 0..count {
        let node = r.below(usize::from(lesson.graph.nodes)) as u16;
        sheet.extend(at_node(node, &random_record(r, lesson)));
    }
    sheet
}

/// Bytes for the arrows: enough, exactly enough, a byte or an arrow short, or any. Question 13.
pub fn arrow_room(r: &mut Random, made: &Made) -> u16 {
    let need = 7 * made.source.fit().graph.arrows.len();
    let room = [need, need, need + 1, 1785, 1785, 2000, need - 1, need - 7, r.below(need), r.below(2001)][r.below(10)];
    room as u16
}

/// Bytes for the solver's records: enough, exactly enough, a byte or a record short, any, or those of the sheet program. Question 18.
pub fn sheet_room(r: &mut Random, made: &Made, solved: &[u8]) -> usize {
    let width = made.source.fit().width(List::Sheet);
    let need = solved.len();
    [need, need.saturating_sub(1), need.saturating_sub(width), r.below(need + 1), need + r.below(3 * width), 65536][r.below(6)].min(LIST)
}

/// "Any unsigned 32-bit number."
pub fn places(r: &mut Random, made: &Made) -> Vec<u32> {
    let width = made.source.fit().width(List::Sheet) as u64;
    let count = 1 + r.below(4);
    let place = |r: &mut Random| match r.below(3) {
        0 => r.next() >> r.below(44),
        1 => r.below(5000) as u64 * width + r.below(2) as u64,
        _ => u64::from(u32::MAX) - r.below(100) as u64,
    };
    (0..count).map(|_| place(r) as u32).collect()
}

/// The sheet program's input: the file, then the start list as a fifth field; some with a wrong head, content or end.
pub fn input(r: &mut Random, made: &Made, list: &[u8]) -> Vec<u8> {
    let names = made.source.fit().names();
    let mut list = list.to_vec();
    let mut input = made.file.bytes.clone();
    match r.below(24) {
        0 => spoil(r, &mut list),
        1 => list.push(4),
        2 if r.chance(4) => list = list.iter().copied().chain(vec![4; names]).take(names).collect::<Vec<u8>>().repeat(512 + r.below(2)),
        3 => {
            input.extend(field(r.below(8) as u8, &list));
            return input;
        }
        4 => {
            let cut = 1 + r.below(3 + list.len());
            input.extend(field(5, &list));
            input.truncate(input.len() - cut);
            return input;
        }
        5 => {
            input.extend(field(5, &list));
            input.extend(vec![5; 1 + r.below(9)]);
            return input;
        }
        6 => {
            input.extend(field(5, &list));
            damage_bytes(r, &mut input);
            return input;
        }
        _ => {}
    }
    input.extend(field(5, &list));
    input
}

/// A list of marks, mostly a short one: questions 23 and 24.
pub fn marks(r: &mut Random) -> Vec<i32> {
    let count = match r.below(200) {
        0 => r.below(MARKS + 1),
        1 => 4095 + r.below(3),
        2..=9 => r.below(2),
        10..=39 => r.below(400),
        _ => r.below(30),
    };
    let mut marks = random_marks(r, count);
    if count > 0 && r.chance(5) {
        spoil_marks(r, &mut marks);
    }
    marks
}

/// Two classes' totals, mostly those of lists: question 23.
pub fn two_totals(r: &mut Random) -> (Totals, Totals) {
    let class = |r: &mut Random| {
        let count = if r.chance(20) { r.below(2200) } else { r.below(20) };
        let mut totals = Totals::of(&random_marks(r, count));
        if r.chance(3) {
            damage_totals(r, &mut totals);
        }
        totals
    };
    (class(r), class(r))
}
