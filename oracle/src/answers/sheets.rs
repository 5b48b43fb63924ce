//! `analysis_sheets`: verdicts, index marks, the solver, the splitter, and the third term tried.
//!
//! A case of `sheets.bin`: mode (1 byte, with 16 times the number of the construction that is named), length of the title (1), a number (4), lengths in bytes of a list
//! of further numbers and of the file (2 each), how many chunks the start list has and how many the sheet has (1 each); then title, chunks of the start list, chunks
//! of the sheet, further numbers, file.

use super::runs::outcome;
use super::{checksum, counted, spaced, Case, Told, FILLED};
use crate::language::*;
use std::collections::HashSet;

/// The most that the program has room for: bytes of a list or of the solver's buffer, of a chunk, of further numbers, of a file.
pub const LIST: usize = 140_000;
const CHUNK: usize = 8192;
const FURTHER: usize = 4096;
const FILE: usize = 8192;

/// The most bytes of records that are printed.
const FEW: usize = 128;

/// A list of records, in chunks that are repeated: so a list of thousands of records takes little room. A chunk is how often its bytes are repeated (2), their
/// length (2) and the bytes.
#[derive(Clone)]
pub struct Chunks(pub Vec<(u16, Vec<u8>)>);

impl Chunks {
    pub fn of(bytes: &[u8]) -> Chunks {
        Chunks(bytes.chunks(CHUNK).map(|chunk| (1, chunk.to_vec())).collect())
    }

    pub fn repeated(bytes: &[u8], times: usize) -> Chunks {
        Chunks(vec![(times as u16, bytes.to_vec())])
    }

    pub fn then(mut self, bytes: &[u8]) -> Chunks {
        self.0.extend(Chunks::of(bytes).0);
        self
    }

    fn bytes(&self) -> Vec<u8> {
        self.0.iter().flat_map(|(times, chunk)| chunk.repeat(usize::from(*times))).collect()
    }

    fn packed(&self) -> Vec<u8> {
        let mut packed = Vec::new();
        for (times, chunk) in &self.0 {
            packed.extend(times.to_be_bytes());
            packed.extend((chunk.len() as u16).to_be_bytes());
            packed.extend(chunk);
        }
        packed
    }

    fn fits(&self) -> bool {
        self.0.len() < 256 && self.bytes().len() <= LIST && self.0.iter().all(|chunk| chunk.1.len() <= CHUNK)
    }
}

/// What is asked of a file.
#[derive(Clone)]
pub enum Ask {
    /// 1: the verdict on a sheet over a start list.
    Judge(Chunks, Chunks),
    /// 2: the index mark of a sheet.
    Mark(Chunks),
    /// 3: a start list solved into a buffer of so many bytes, and the verdict on that.
    Solve(Chunks, usize),
    /// 4: places split.
    Split(Vec<u32>),
    /// 5: a start list solved, and step calls from a memory looked up in the sheet.
    Follow(Chunks, Vec<i32>, Vec<u16>),
}

pub fn judging(initial: &[u8], sheet: &[u8]) -> Ask {
    Ask::Judge(Chunks::of(initial), Chunks::of(sheet))
}

pub fn marking(sheet: &[u8]) -> Ask {
    Ask::Mark(Chunks::of(sheet))
}

pub fn solving(initial: &[u8], room: usize) -> Ask {
    Ask::Solve(Chunks::of(initial), room)
}

impl Case for Ask {
    fn told_on(&self, file: &Loaded, construction: Construction) -> Told {
        match self {
            Ask::Judge(initial, sheet) => tell_judge(file, construction, &initial.bytes(), &sheet.bytes()),
            Ask::Mark(sheet) => tell_mark(file, &sheet.bytes()),
            Ask::Solve(initial, room) => tell_solve(file, construction, &initial.bytes(), *room),
            Ask::Split(places) => tell_split(file, places),
            Ask::Follow(initial, memory, calls) => tell_follow(file, construction, &initial.bytes(), memory, calls),
        }
    }

    /// The mark is the same on both graphs, and the splitter needs none.
    fn may_name(&self) -> bool {
        matches!(self, Ask::Judge(..) | Ask::Solve(..) | Ask::Follow(..))
    }

    fn record(&self, title: &str, file: &[u8]) -> Vec<u8> {
        let none = &Chunks(Vec::new());
        let (mode, number, initial, sheet, further) = match self {
            Ask::Judge(initial, sheet) => (1, 0, initial, sheet, Vec::new()),
            Ask::Mark(sheet) => (2, 0, none, sheet, Vec::new()),
            Ask::Solve(initial, room) => (3, *room, initial, none, Vec::new()),
            Ask::Split(places) => (4, 0, none, none, places.iter().flat_map(|place| place.to_be_bytes()).collect()),
            Ask::Follow(initial, memory, calls) => {
                let cells = memory.iter().flat_map(|z| z.to_be_bytes());
                let further = cells.chain(calls.iter().flat_map(|arrow| arrow.to_be_bytes())).collect();
                (5, memory.len(), initial, none, further)
            }
        };
        let fits = number <= LIST && initial.fits() && sheet.fits() && further.len() <= FURTHER && file.len() <= FILE;
        assert!(title.len() < 256 && fits, "{title}");
        let mut record = vec![mode, title.len() as u8];
        record.extend((number as u32).to_be_bytes());
        record.extend((further.len() as u16).to_be_bytes());
        record.extend((file.len() as u16).to_be_bytes());
        record.extend([initial.0.len() as u8, sheet.0.len() as u8]);
        record.extend(title.as_bytes());
        record.extend(initial.packed());
        record.extend(sheet.packed());
        record.extend(further);
        record.extend(file);
        record
    }
}

fn told_refusal(refusal: &Refusal) -> String {
    match refusal {
        Refusal::Number(no) => refused(*no),
        Refusal::WrongByte(List::Start, at) => format!("refused 17 at {at} of the start list"),
        Refusal::WrongByte(List::Sheet, at) => format!("refused 17 at {at} of the sheet"),
    }
}

fn told_verdict(verdict: &Result<Verdict, Refusal>) -> String {
    match verdict {
        Err(refusal) => told_refusal(refusal),
        Ok(Verdict::StartMissing(record)) => format!("41 record {record}"),
        Ok(Verdict::ResultMissing(record, arrow)) => format!("42 record {record} arrow {arrow}"),
        Ok(Verdict::Accepted(mark)) => format!("accepted {}", told_mark(*mark)),
    }
}

fn told_solving(answer: &Result<(), Refusal>, count: usize) -> String {
    let answer = answer.as_ref().map_or_else(told_refusal, |_| "finished".to_string());
    format!("{answer} with {count}")
}

/// A sheet's records, where they are few.
pub fn shown(sheet: &[u8], width: usize) -> String {
    if sheet.len() > FEW {
        return String::new();
    }
    sheet.chunks(width).map(|record| format!(";{}", spaced(record))).collect()
}

/// How wide a sheet's record is. Those of a file that is refused have no width, but none is written then.
fn width(file: &Loaded) -> usize {
    file.lesson().map_or(1, |lesson| lesson.width(List::Sheet))
}

fn tell_judge(file: &Loaded, construction: Construction, initial: &[u8], sheet: &[u8]) -> Told {
    let verdict = judge(file, construction, initial, sheet);
    let record = spaced(offending(file, &verdict, initial, sheet));
    let verdict = told_verdict(&verdict);
    Told::plain(format!("{verdict}; offending{record}"), vec![counted(&verdict)])
}

fn tell_mark(file: &Loaded, sheet: &[u8]) -> Told {
    let mark = match index_mark(file, sheet) {
        Err(refusal) => told_refusal(&refusal),
        Ok(mark) => told_mark(mark),
    };
    Told::plain(mark.clone(), vec![counted(&mark)])
}

fn tell_solve(file: &Loaded, construction: Construction, initial: &[u8], room: usize) -> Told {
    let mut buffer = vec![FILLED; room];
    let (answer, length) = solve(file, construction, initial, &mut buffer);
    let sheet = &buffer[..length];
    let solving = told_solving(&answer, length / width(file));
    let verdict = told_verdict(&judge(file, construction, initial, sheet));
    let start = format!("{solving}{}", shown(sheet, width(file)));
    Told {
        line: format!("{start} sum {}; {verdict}", checksum(&buffer)),
        known: format!("{start}; {verdict}"),
        answers: vec![counted(&solving), counted(&verdict)],
    }
}

fn tell_split(file: &Loaded, places: &[u32]) -> Told {
    let one = |&place: &u32| match split(file, place) {
        Ok((record, column)) => format!("record {record} column {column}; "),
        Err(no) => format!("{} record 0 column 0; ", refused(no)),
    };
    let line: String = places.iter().map(one).collect();
    let answer = file.lesson().map_or_else(|no| counted(&refused(no)), |_| "split".to_string());
    Told::plain(line, vec![answer; places.len()])
}

/// The sheet that is solved of a start list in the whole of the program's buffer.
pub fn solved(file: &Loaded, construction: Construction, initial: &[u8]) -> (Result<(), Refusal>, Vec<u8>) {
    let mut buffer = vec![FILLED; LIST];
    let (answer, length) = solve(file, construction, initial, &mut buffer);
    buffer.truncate(length);
    (answer, buffer)
}

/// The memory has as many cells as the script, where that is fit.
fn tell_follow(file: &Loaded, construction: Construction, initial: &[u8], memory: &[i32], calls: &[u16]) -> Told {
    let (answer, sheet) = solved(file, construction, initial);
    let listed: HashSet<&[u8]> = sheet.chunks(width(file)).collect();
    let has = |run: Run, memory: &[i32]| match file.lesson() {
        Ok(lesson) if listed.contains(&at_node(run.node, &record_of(lesson, memory))[..]) => "has",
        _ => "has not",
    };
    let (mut run, mut memory) = (FRESH, memory.to_vec());
    let mut line = format!("{}; {}; ", told_solving(&answer, sheet.len() / width(file)), has(run, &memory));
    let mut answers = Vec::new();
    for &arrow in calls {
        let outcome = outcome(step(file, construction, &mut run, arrow, &mut memory));
        line += &format!("{outcome} {}; ", has(run, &memory));
        answers.push(format!("{} {}", counted(&outcome), has(run, &memory)));
    }
    let mark = tell_mark(file, &sheet);
    answers.extend(mark.answers);
    Told::plain(line + &mark.line, answers)
}
