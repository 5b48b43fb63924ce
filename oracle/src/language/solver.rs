//! Document 01, "Signs" and question 18: the solver.

use super::*;
use std::collections::HashSet;

/// The solver's own list, which it writes at the front of a buffer.
struct Solver<'a> {
    listed: Vec<Vec<u8>>,
    seen: HashSet<Vec<u8>>,
    buffer: &'a mut [u8],
}

impl Solver<'_> {
    /// "Appending what isn't listed yet."
    fn append(&mut self, record: Vec<u8>) -> Result<(), No> {
        if self.seen.contains(&record) {
            return Ok(());
        }
        // "Room is the buffer's whole records, at most 4,096."
        let width = record.len();
        let room = (self.buffer.len() / width).min(MOST_RECORDS);
        if self.listed.len() == room {
            return Err(No(18, 0));
        }
        let at = self.listed.len() * width;
        self.buffer[at..at + width].copy_from_slice(&record);
        self.seen.insert(record.clone());
        self.listed.push(record);
        Ok(())
    }

    /// "The solver goes through the start records at node 0, then down its own list, arrow by arrow, result by result."
    fn run(&mut self, lesson: &Lesson, initial: &[u8]) -> Result<(), No> {
        for record in initial.chunks(lesson.names()) {
            self.append(at_node(0, record))?;
        }
        let mut i = 0;
        while i < self.listed.len() {
            let record = self.listed[i].clone();
            for (_, arrow) in lesson.leaving(word(&record, 0)) {
                for result in lesson.results(arrow, &record[2..]) {
                    self.append(at_node(arrow.to, &result))?;
                }
            }
            i += 1;
        }
        Ok(())
    }
}

/// The answer, and how many bytes of records were written: at the front of the buffer, whose rest stays.
pub fn solve(file: &Loaded, construction: Construction, initial: &[u8], buffer: &mut [u8]) -> (Result<(), Refusal>, usize) {
    let asked = || -> Result<&Lesson, Refusal> {
        let lesson = file.on(construction)?;
        lesson.ask_whole(List::Start, initial)?;
        lesson.ask_well_formed(List::Start, initial)?;
        Ok(lesson)
    };
    let lesson = match asked() {
        Ok(lesson) => lesson,
        Err(refusal) => return (Err(refusal), 0),
    };
    let mut solver = Solver { listed: Vec::new(), seen: HashSet::new(), buffer };
    let answer = solver.run(lesson, initial);
    (answer.map_err(Refusal::Number), solver.listed.len() * lesson.width(List::Sheet))
}
