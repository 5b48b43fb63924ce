//! `semantics_runs`: budgeted runs and lists of step calls.
//!
//! A record of `runs.bin`: mode (1 byte, with 16 times the number of the construction that is named), length of the title (1), two numbers (2 each), lengths in bytes
//! of the memory, of the list of step calls and of the file (2 each), title, memory, list, file.

use super::{counted, mix, spaced, Told};
use crate::language::*;

/// What is asked of a file and a memory.
#[derive(Clone)]
pub enum Ask {
    /// 1: a run from node 0 with a budget.
    Budget(u16),
    /// 2: step calls in turn, from a run.
    Calls(Run, Vec<u16>),
}

pub struct Case<'a> {
    pub memory: &'a [i32],
    pub ask: &'a Ask,
}

/// Asked on a memory.
pub fn on<'a>(memory: &'a [i32], ask: &'a Ask) -> Case<'a> {
    Case { memory, ask }
}

/// The most that the program has room for: cells, step calls, bytes of a file.
const CELLS: usize = 1024;
pub const CALLS: usize = 512;
const FILE: usize = 8192;

/// Memories of so many cells are printed.
const FEW: usize = 16;

impl super::Case for Case<'_> {
    fn told_on(&self, file: &Loaded, construction: Construction) -> Told {
        let mut memory = self.memory.to_vec();
        let (answers, run) = self.ask.answers(file, construction, &mut memory);
        let outcomes: String = answers.iter().map(|answer| format!("{answer}; ")).collect();
        let known = outcomes + &state(run, &memory);
        Told { line: format!("{known} sum {}", checksum(&memory)), known, answers: answers.iter().map(|answer| counted(answer)).collect() }
    }

    /// Both modes run on a graph.
    fn may_name(&self) -> bool {
        true
    }

    fn record(&self, title: &str, file: &[u8]) -> Vec<u8> {
        let (mode, numbers, calls) = self.ask.packed();
        assert!(title.len() < 256 && file.len() <= FILE && self.memory.len() <= CELLS && calls.len() <= 2 * CALLS, "{title}");
        let mut record = vec![mode, title.len() as u8];
        for x in [numbers[0], numbers[1], 4 * self.memory.len() as u16, calls.len() as u16, file.len() as u16] {
            record.extend(x.to_be_bytes());
        }
        record.extend(title.as_bytes());
        record.extend(self.memory.iter().flat_map(|z| z.to_be_bytes()));
        record.extend(calls);
        record.extend(file);
        record
    }
}

impl Ask {
    /// The answers in turn, and where the run then stands.
    fn answers(&self, file: &Loaded, construction: Construction, memory: &mut [i32]) -> (Vec<String>, Run) {
        match self {
            Ask::Budget(budget) => {
                let (ending, run) = budgeted(file, construction, *budget, memory);
                (vec![ended(ending)], run)
            }
            Ask::Calls(from, calls) => {
                let mut run = *from;
                let answers = calls.iter().map(|&arrow| outcome(step(file, construction, &mut run, arrow, memory))).collect();
                (answers, run)
            }
        }
    }

    /// Mode, two numbers and the list of step calls.
    fn packed(&self) -> (u8, [u16; 2], Vec<u8>) {
        match self {
            Ask::Budget(budget) => (1, [*budget, 0], Vec::new()),
            Ask::Calls(from, calls) => (2, [from.node, from.count], calls.iter().flat_map(|arrow| arrow.to_be_bytes()).collect()),
        }
    }
}

fn checksum(memory: &[i32]) -> u64 {
    memory.iter().fold(1, |sum, &z| mix(mix(sum, u64::from(z < 0)), u64::from(z.unsigned_abs())))
}

/// Where a run stands, with its memory: the cells where they are few.
fn state(run: Run, memory: &[i32]) -> String {
    let cells = if memory.len() <= FEW { spaced(memory) } else { String::new() };
    format!("node {} count {} memory{cells}", run.node, run.count)
}

fn ended(ending: Result<u32, No>) -> String {
    match ending {
        Ok(answer) => format!("answer {answer}"),
        Err(no) => refused(no),
    }
}

pub fn outcome(outcome: Outcome) -> String {
    match outcome {
        Outcome::Taken => "taken".to_string(),
        Outcome::Undefined(reason) => format!("undefined {reason}"),
        Outcome::Refused(no) => refused(no),
    }
}
