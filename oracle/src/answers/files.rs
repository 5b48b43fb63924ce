//! `program_files`: the file, its questions and its graph.
//!
//! A record of `files.bin`: mode (1 byte, with 16 times the number of the construction that is named), room (2), length of the title (1), length of the file (2),
//! title, file.

use super::{checksum, counted, mix, Case, Told, FILLED};
use crate::language::*;

#[derive(Clone, Copy)]
pub enum Mode {
    /// 1: the graph, a line for each arrow.
    Edges,
    /// 2: the graph drawn into so many bytes of a buffer.
    Sum(u16),
    /// 3: the questions of the sheet program's input.
    Input,
    /// 4: what is read of a well-formed program.
    Readings,
    /// 5: the parts of the sheet program's input, and what the field reader finds.
    Parts,
}

/// The program's buffer for mode 2.
const BUFFER: usize = 2000;

/// The most bytes of a file.
const FILE: usize = 32768;

impl Case for Mode {
    fn told_on(&self, file: &Loaded, construction: Construction) -> Told {
        let (first, rest) = match self {
            Mode::Edges => edges(file.on(construction)),
            Mode::Sum(room) => drawn(file.on(construction), usize::from(*room)),
            Mode::Input => (input(&file.bytes), String::new()),
            Mode::Readings => (readings(file), String::new()),
            Mode::Parts => parts(&file.bytes),
        };
        Told { line: format!("{first}{rest}"), answers: vec![self.counted(&first)], known: first }
    }

    fn may_name(&self) -> bool {
        matches!(self, Mode::Edges | Mode::Sum(_))
    }

    fn record(&self, title: &str, file: &[u8]) -> Vec<u8> {
        assert!(title.len() < 256 && file.len() <= FILE, "{title}");
        let (mode, room) = match self {
            Mode::Edges => (1, 0),
            Mode::Sum(room) => (2, *room),
            Mode::Input => (3, 0),
            Mode::Readings => (4, 0),
            Mode::Parts => (5, 0),
        };
        let mut record = vec![mode];
        record.extend(room.to_be_bytes());
        record.push(title.len() as u8);
        record.extend((file.len() as u16).to_be_bytes());
        record.extend(title.as_bytes());
        record.extend(file);
        record
    }
}

impl Mode {
    fn counted(&self, first: &str) -> String {
        if first.starts_with("refused") {
            return counted(first);
        }
        let fine = match self {
            Mode::Edges => "listed",
            Mode::Sum(_) => "drawn",
            Mode::Input => "fit",
            Mode::Readings => "read",
            Mode::Parts => "parted",
        };
        fine.to_string()
    }
}

fn counts(graph: &Graph) -> String {
    format!("nodes {} arrows {}", graph.nodes, graph.arrows.len())
}

fn edges(lesson: Result<&Lesson, No>) -> (String, String) {
    match lesson {
        Err(no) => (refused(no), String::new()),
        Ok(lesson) => {
            let arrows = lesson.graph.arrows.iter().map(Arrow::written);
            (counts(&lesson.graph), arrows.map(|(from, to, kind, entry)| format!("\n{from} {to} {kind} {entry}")).collect())
        }
    }
}

/// Question 13, and what of the buffer is written.
fn drawn(lesson: Result<&Lesson, No>, room: usize) -> (String, String) {
    let mut buffer = vec![FILLED; BUFFER];
    let text = match lesson {
        Err(no) => refused(no),
        Ok(lesson) => {
            let bytes = lesson.graph.bytes();
            if bytes.len() > room.min(BUFFER) {
                refused(No(13, 0))
            } else {
                buffer[..bytes.len()].copy_from_slice(&bytes);
                counts(&lesson.graph)
            }
        }
    };
    (text, format!(" sum {}", checksum(&buffer)))
}

fn input(input: &[u8]) -> String {
    match read(input, 5) {
        Err(no) => refused(no),
        Ok(_) => "fit".to_string(),
    }
}

fn readings(file: &Loaded) -> String {
    let script = match file.lesson() {
        Err(no) => return refused(no),
        Ok(lesson) => &lesson.script,
    };
    let mut sum = 1;
    let mut cells = 0;
    for &size in &script.names {
        sum = mix(mix(sum, u64::from(size)), cells);
        cells += if size == 0 { 1 } else { u64::from(size) };
    }
    for e in script.tables.iter().flatten() {
        sum = mix(sum, u64::from(e.kind));
        for x in e.operands {
            sum = mix(sum, u64::from(x));
        }
    }
    let [a, b, c] = [0, 1, 2].map(|t| script.tables[t].len());
    format!("names {} cells {cells} entries {a} {b} {c} sum {sum}", script.names.len())
}

/// The parts of the sheet program's input, and the heads in turn: "one-byte tag, two-byte length, content". Document 01 does not say where a reader
/// goes from a place that has no head; here it stays.
fn parts(file: &[u8]) -> (String, String) {
    let found = match read(file, 5) {
        Err(no) => refused(no),
        Ok(_) => {
            let list = fields(file, 5).ok().unwrap()[4];
            let (program, list) = (&file[..list.at - 3], &file[list.at..list.at + list.length]);
            format!("program {} sum {} list {} sum {}", program.len(), checksum(program), list.len(), checksum(list))
        }
    };
    let mut heads = String::new();
    let mut at = 0;
    for _ in 0..6 {
        if at + 3 > file.len() {
            heads += &format!("\nnone at {at}");
        } else {
            let (tag, length) = (file[at], usize::from(word(file, at + 1)));
            let (content, next) = (at + 3, at + 3 + length);
            heads += &format!("\n{at} tag {tag} length {length} content {content} next {next}");
            at = next;
        }
    }
    (found, heads)
}
