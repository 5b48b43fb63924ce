//! Document 01, "Signs" and questions 16 and 17: start lists, sheets, the verdict, the index mark, the splitter.

use super::*;
use std::collections::HashSet;

pub const MOST_RECORDS: usize = 4096;

/// "A memory's record holds its variables' signs and exactly the signs of each array's elements."
pub fn record_of(lesson: &Lesson, memory: &[i32]) -> Vec<u8> {
    let names = lesson.script.names.iter().zip(&lesson.first);
    names.map(|(&size, &first)| memory[first..first + usize::from(size.max(1))].iter().fold(NONE, |set, &z| set | sign(z))).collect()
}

/// A sheet's record: "a two-byte node of the graph before each".
pub fn at_node(node: u16, record: &[u8]) -> Vec<u8> {
    [&node.to_be_bytes(), record].concat()
}

#[derive(Clone, Copy, PartialEq)]
pub enum List {
    Start,
    Sheet,
}

/// A question whose answer is no; 17 has a list beside its place.
pub enum Refusal {
    Number(No),
    WrongByte(List, usize),
}

impl From<No> for Refusal {
    fn from(no: No) -> Refusal {
        Refusal::Number(no)
    }
}

/// A sheet's mark: the lowest record, then its lowest arrow, with an index that may be below zero; none if it is index clean.
pub type Mark = Option<(usize, usize)>;

pub const CLEAN: Mark = None;

pub enum Verdict {
    StartMissing(usize),
    ResultMissing(usize, usize),
    Accepted(Mark),
}

impl Lesson {
    /// How wide a record of a list is.
    pub fn width(&self, list: List) -> usize {
        self.names() + if list == List::Sheet { 2 } else { 0 }
    }

    /// Question 16 of one list.
    pub fn ask_whole(&self, list: List, bytes: &[u8]) -> Result<(), Refusal> {
        let width = self.width(list);
        if !bytes.len().is_multiple_of(width) || bytes.len() / width > MOST_RECORDS {
            return Err(No(16, 0).into());
        }
        Ok(())
    }

    /// Question 17 of one list.
    pub fn ask_well_formed(&self, list: List, bytes: &[u8]) -> Result<(), Refusal> {
        for (i, record) in bytes.chunks(self.width(list)).enumerate() {
            if let Some(at) = self.wrong_byte(list, record) {
                return Err(Refusal::WrongByte(list, i * self.width(list) + at));
            }
        }
        Ok(())
    }

    /// The first wrong byte of a record, "for a wrong node its first byte".
    fn wrong_byte(&self, list: List, record: &[u8]) -> Option<usize> {
        let signs_at = self.width(list) - self.names();
        if list == List::Sheet && word(record, 0) >= self.graph.nodes {
            return Some(0);
        }
        // "Each variable one sign (1, 2 or 4) and each array a set (1 to 7)."
        let is_fine = |size: u16, byte: u8| if size == 0 { [MINUS, ZERO, PLUS].contains(&byte) } else { (1..=7).contains(&byte) };
        let wrong = self.script.names.iter().zip(&record[signs_at..]).position(|(&size, &byte)| !is_fine(size, byte));
        wrong.map(|k| signs_at + k)
    }

    pub fn mark(&self, sheet: &[u8]) -> Mark {
        for (i, record) in sheet.chunks(self.width(List::Sheet)).enumerate() {
            for (k, arrow) in self.leaving(word(record, 0)) {
                if self.may_be_below_zero(arrow, &record[2..]) {
                    return Some((i, k));
                }
            }
        }
        CLEAN
    }

    fn verdict(&self, initial: &[u8], sheet: &[u8]) -> Verdict {
        let listed = self.listed(sheet);
        for (i, record) in initial.chunks(self.names()).enumerate() {
            if !listed.contains(&at_node(0, record)[..]) {
                return Verdict::StartMissing(i);
            }
        }
        for (i, record) in sheet.chunks(self.width(List::Sheet)).enumerate() {
            for (k, arrow) in self.leaving(word(record, 0)) {
                let results = self.results(arrow, &record[2..]);
                if results.iter().any(|result| !listed.contains(&at_node(arrow.to, result)[..])) {
                    return Verdict::ResultMissing(i, k);
                }
            }
        }
        Verdict::Accepted(self.mark(sheet))
    }

    /// A sheet's records, to be looked up.
    pub fn listed<'a>(&self, sheet: &'a [u8]) -> HashSet<&'a [u8]> {
        sheet.chunks(self.width(List::Sheet)).collect()
    }
}

pub fn judge(file: &Loaded, construction: Construction, initial: &[u8], sheet: &[u8]) -> Result<Verdict, Refusal> {
    let lesson = file.on(construction)?;
    lesson.ask_whole(List::Start, initial)?;
    lesson.ask_whole(List::Sheet, sheet)?;
    lesson.ask_well_formed(List::Start, initial)?;
    lesson.ask_well_formed(List::Sheet, sheet)?;
    Ok(lesson.verdict(initial, sheet))
}

/// "With 41 or 42 comes the offending record itself, as a part of whichever of the two lists it lies in; otherwise that part is empty."
pub fn offending<'a>(file: &Loaded, verdict: &Result<Verdict, Refusal>, initial: &'a [u8], sheet: &'a [u8]) -> &'a [u8] {
    let part = |list: &'a [u8], width: usize, i: usize| &list[i * width..(i + 1) * width];
    match (verdict, file.lesson()) {
        (Ok(Verdict::StartMissing(i)), Ok(lesson)) => part(initial, lesson.width(List::Start), *i),
        (Ok(Verdict::ResultMissing(i, _)), Ok(lesson)) => part(sheet, lesson.width(List::Sheet), *i),
        _ => &[],
    }
}

/// The mark by itself takes no construction, for it is the same on both graphs: the earlier guards that a guard's action has on the deterministic one are on
/// lower arrows out of the same node, so that the lowest arrow with such an index stays the lowest.
pub fn index_mark(file: &Loaded, sheet: &[u8]) -> Result<Mark, Refusal> {
    let lesson = file.lesson()?;
    lesson.ask_whole(List::Sheet, sheet)?;
    lesson.ask_well_formed(List::Sheet, sheet)?;
    let mark = lesson.mark(sheet);
    assert_eq!(mark, file.fit_on(Deterministic).mark(sheet), "the mark on both graphs");
    Ok(mark)
}

/// "Split by dividing by the sheet's record width: quotient the record, remainder the column."
pub fn split(file: &Loaded, place: u32) -> Result<(u32, u32), No> {
    let width = file.lesson()?.width(List::Sheet) as u32;
    Ok((place / width, place % width))
}

pub fn told_mark(mark: Mark) -> String {
    match mark {
        CLEAN => "index clean".to_string(),
        Some((record, arrow)) => format!("index record {record} arrow {arrow}"),
    }
}
