//! Random files of many kinds.

use crate::language::*;
use crate::making::*;

#[derive(Clone, Copy, PartialEq, Eq, PartialOrd, Ord, Debug)]
pub enum Kind {
    Script,
    SmallNumbers,
    Lesson,
    ArrayLesson,
    Choices,
    LongSheet,
    Limits,
    EntryDamage,
    ByteDamage,
    OtherReference,
    GuardedLast,
    LooseJump,
    Truncated,
    Extended,
    WrongHead,
    WrongSize,
    Noise,
}

/// How many of a thousand files are of each kind. Those at the limits and those of long sheets are few: they take long.
const SHARES: [(Kind, usize); 17] = [
    (Kind::Script, 130),
    (Kind::SmallNumbers, 130),
    (Kind::Lesson, 120),
    (Kind::ArrayLesson, 115),
    (Kind::Choices, 150),
    (Kind::LongSheet, 5),
    (Kind::Limits, 5),
    (Kind::EntryDamage, 85),
    (Kind::ByteDamage, 70),
    (Kind::OtherReference, 40),
    (Kind::GuardedLast, 20),
    (Kind::LooseJump, 30),
    (Kind::Truncated, 25),
    (Kind::Extended, 15),
    (Kind::WrongHead, 30),
    (Kind::WrongSize, 15),
    (Kind::Noise, 15),
];

impl Kind {
    pub fn all() -> impl Iterator<Item = Kind> {
        SHARES.into_iter().map(|(kind, _)| kind)
    }

    pub fn name(self) -> &'static str {
        match self {
            Kind::Script => "fit script, entries at random",
            Kind::SmallNumbers => "fit script of mostly small numbers",
            Kind::Lesson => "lesson of counted loops and ifs",
            Kind::ArrayLesson => "array lesson: sorting, searching, summing",
            Kind::Choices => "lesson of choices whose guards overlap or are undefined",
            Kind::LongSheet => "assignments of any sign: long sheets",
            Kind::Limits => "at the limits, and one past them",
            Kind::EntryDamage => "entries or names damaged",
            Kind::ByteDamage => "bytes damaged",
            Kind::OtherReference => "another reference",
            Kind::GuardedLast => "a guarded command last",
            Kind::LooseJump => "a break or continue come loose",
            Kind::Truncated => "truncated",
            Kind::Extended => "extended",
            Kind::WrongHead => "a wrong tag or length",
            Kind::WrongSize => "a wrong size, too many cells",
            Kind::Noise => "noise",
        }
    }

    fn random(r: &mut Random) -> Kind {
        let mut at = r.below(SHARES.iter().map(|share| share.1).sum());
        for (kind, share) in SHARES {
            if at < share {
                return kind;
            }
            at -= share;
        }
        unreachable!()
    }
}

/// A file to be tried, and the fit one that it was made from: its memories and lists are for that.
pub struct Made {
    pub kind: Kind,
    pub file: Loaded,
    pub source: Loaded,
    /// The source is an array lesson.
    pub is_array: bool,
}

pub fn random_file(r: &mut Random) -> Made {
    let kind = Kind::random(r);
    let base = match kind {
        Kind::Script | Kind::SmallNumbers | Kind::Lesson | Kind::ArrayLesson | Kind::Choices | Kind::LongSheet => kind,
        Kind::Limits => return limits(r),
        _ => [Kind::Script, Kind::SmallNumbers, Kind::Lesson, Kind::ArrayLesson, Kind::Choices][r.below(5)],
    };
    let script = fit_script(r, base);
    let source = script.loaded();
    let bytes = if kind == base { source.bytes.clone() } else { damaged(r, kind, &script) };
    Made { kind, file: Loaded::of(&bytes), source, is_array: base == Kind::ArrayLesson }
}

fn fit_script(r: &mut Random, kind: Kind) -> Script {
    match kind {
        Kind::Script => sized(r, random_script),
        Kind::SmallNumbers => sized(r, small_script),
        Kind::Lesson => loop {
            let depth = 1 + r.below(3);
            let text = format!("{}; {}", random_command(r, depth, 0), random_command(r, depth, 0));
            // A lesson may have too many entries, once in a long while.
            if let Some(script) = read_text(LESSON_NAMES, &text) {
                break script;
            }
        },
        Kind::Choices => random_choice_script(r),
        Kind::LongSheet => many_signs(r),
        _ => random_array_script(r),
    }
}

/// Assignments that give any sign to one name after another: each makes the records of a node up to three times those of the node before.
fn many_signs(r: &mut Random) -> Script {
    let count = 3 + r.below(6);
    let others = if r.chance(2) { 0 } else { r.below(32 - count) };
    let mut script = Script::new(&[vec![0; count + others], vec![1 + r.below(9) as u16]].concat());
    let array = (count + others) as u16;
    let mut commands = Vec::new();
    for name in 0..count as u16 {
        let index = if r.chance(6) { script.variable(name) } else { script.number(r.below(2) as i32) };
        let (element, other) = (script.element(array, index), script.variable(name));
        let value = if r.chance(2) { script.operator(3 + r.below(3) as u8, element, other) } else { script.operator(5, other, element) };
        commands.push(script.assign(name, value));
    }
    commands.into_iter().reduce(|before, command| script.then(before, command));
    script
}

/// Scripts of any size, most of them small; and mostly of few names, so that their sheets are not too long.
fn sized(r: &mut Random, maker: fn(&mut Random, usize) -> Script) -> Script {
    let size = match r.below(100) {
        0..=59 => 1 + r.below(12),
        60..=91 => 12 + r.below(28),
        92..=98 => 40 + r.below(60),
        _ => 100 + r.below(150),
    };
    loop {
        let script = maker(r, size);
        if script.names.len() <= 6 || r.chance(8) {
            return script;
        }
    }
}

/// The largest tables, graphs, memories and lists of names, and those that are one too large.
fn limits(r: &mut Random) -> Made {
    let more = usize::from(r.chance(3));
    let script = match r.below(10) {
        0 => exact(&full_names(), 512, 256, 256),
        1 => loops_about([0, BREAK, CONTINUE][r.below(3)], 127 - r.below(2)),
        2 if r.chance(2) => jumps_in_a_loop(127 - r.below(2), r.below(3) as u8),
        2 => sequence(128 - r.below(2), r.below(3) as u8),
        3 => exact(&[0, 9], 512 + more, r.below(2) * 256, 3),
        4 => exact(&[0, 9], r.below(512), 256 + more, 255),
        5 => exact(&[0, 64], 0, 2, 256 + more * 2),
        6 => many_names(r, 32 + more),
        7 => many_cells(r, more),
        _ => random_script(r, 300),
    };
    let bytes = script.bytes();
    // A script that is too large still needs a memory and lists: those of a small one.
    let source = if read(&bytes, 4).is_ok() { script } else { factorial() };
    Made { kind: Kind::Limits, file: Loaded::of(&bytes), source: source.loaded(), is_array: false }
}

/// A short script over so many names.
fn many_names(r: &mut Random, count: usize) -> Script {
    let mut script = small_script(r, 10);
    script.names.resize_with(count, || if r.chance(2) { 0 } else { 1 + r.below(8) as u16 });
    script
}

/// A short script over 512 cells, or a few more.
fn many_cells(r: &mut Random, more: usize) -> Script {
    let mut script = small_script(r, 10);
    let mut left = 512 + more - script.loaded().fit().cells;
    while left > 0 && script.names.len() < 32 {
        let size = left.min(64 - r.below(2));
        script.names.push(if size == 1 { 0 } else { size as u16 });
        left -= size;
    }
    script
}

fn damaged(r: &mut Random, kind: Kind, script: &Script) -> Vec<u8> {
    let mut script = script.clone();
    let mut bytes = script.bytes();
    let times = 1 + r.below(3);
    match kind {
        Kind::EntryDamage => (0..times).for_each(|_| damage_script(r, &mut script)),
        Kind::OtherReference => (0..times).for_each(|_| refer_elsewhere(r, &mut script)),
        Kind::GuardedLast => guard_last(r, &mut script),
        Kind::LooseJump => (0..times).for_each(|_| loosen(r, &mut script)),
        Kind::WrongSize => wrong_size(r, &mut script),
        _ => {
            match kind {
                Kind::ByteDamage => (0..times).for_each(|_| damage_bytes(r, &mut bytes)),
                Kind::Truncated => bytes.truncate(r.below(bytes.len())),
                Kind::Extended => extend(r, &mut bytes),
                Kind::WrongHead => wrong_head(r, &script, &mut bytes),
                _ => bytes = noise(r),
            }
            return bytes;
        }
    }
    script.bytes()
}

/// A script under one guard more, or two in a choice: well formed, but for its last entry.
fn guard_last(r: &mut Random, script: &mut Script) {
    let b = script.truth();
    let c = script.tables[COMMANDS].len() as u16 - 1;
    let g = script.guard(b, c);
    if r.chance(2) {
        let h = script.true_skip();
        script.choice(h, g);
    }
}

fn wrong_size(r: &mut Random, script: &mut Script) {
    let i = r.below(script.names.len());
    match r.below(3) {
        0 => script.names[i] = [65, 66, 255, 256, 65535][r.below(5)],
        1 => script.names.extend(vec![64; 9]),
        // 64 elements, in place of a variable or of fewer: the sizes are fine, the entries may not be.
        _ => script.names[i] = 64,
    }
}

fn extend(r: &mut Random, bytes: &mut Vec<u8>) {
    match r.below(3) {
        0 => bytes.extend(vec![0; 1 + r.below(9)]),
        1 => bytes.extend(field(5, &[4, 2])),
        _ => {
            let length = 1 + r.below(400);
            bytes.extend((0..length).map(|_| r.next() as u8));
        }
    }
}

/// One head with another tag or length, and perhaps as much content as it says.
fn wrong_head(r: &mut Random, script: &Script, bytes: &mut Vec<u8>) {
    let tag = 1 + r.below(4) as u8;
    let head = script.head(tag);
    if r.chance(3) {
        bytes[head] = [0, tag - 1, tag + 1, 255, r.next() as u8][r.below(5)];
        return;
    }
    let (width, most) = if tag == 1 { (2, 32) } else { (7, MOST_ENTRIES[usize::from(tag) - 2]) };
    let length = usize::from(word(bytes, head + 1));
    let other = [0, 1, length + 1, length.saturating_sub(1), length + width, width * most, width * (most + 1), r.below(65536)][r.below(8)];
    bytes[head + 1..head + 3].copy_from_slice(&(other as u16).to_be_bytes());
    // The programs' room for a file is 8,192 bytes.
    if other > length && bytes.len() + other - length <= 8192 && r.chance(2) {
        let at = head + 3 + length;
        bytes.splice(at..at, vec![0; other - length]);
    }
}

/// Bytes that mostly begin as a file does.
fn noise(r: &mut Random) -> Vec<u8> {
    const BEGINNING: [u8; 14] = [1, 0, 2, 0, 0, 2, 0, 0, 3, 0, 0, 4, 0, 7];
    let length = r.below(40);
    let mut bytes: Vec<u8> = (0..length).map(|_| r.below(8) as u8).collect();
    let begun = r.below(BEGINNING.len() + 1).min(length);
    bytes[..begun].copy_from_slice(&BEGINNING[..begun]);
    bytes
}
