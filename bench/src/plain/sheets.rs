//! Sign analysis: results of arrows, checker, solver and splitter.

use super::file::{name_count, Arith, Boolean, Command, Comparison, Operator, Program, Refusal};
use super::graph::{Action, Arrow, Construction, Graph};
use std::collections::HashSet;

const GRIDS: [[[u8; 3]; 3]; 5] = [
    [[1, 1, 7], [1, 2, 4], [7, 4, 4]],
    [[7, 1, 1], [4, 2, 1], [4, 4, 7]],
    [[4, 2, 1], [2, 2, 2], [1, 2, 4]],
    [[6, 0, 3], [2, 0, 2], [3, 0, 6]],
    [[0, 4, 5], [0, 4, 2], [0, 4, 4]],
];

fn signs(set: u8) -> impl Iterator<Item = usize> {
    (0..3).filter(move |&s| set >> s & 1 == 1)
}

fn operate(o: Operator, left: u8, right: u8) -> u8 {
    let grid = &GRIDS[o as usize];
    signs(left).flat_map(|l| signs(right).map(move |r| grid[l][r])).fold(0, |set, x| set | x)
}

/// The answers that a condition can have: may it be true, may it be false.
type Answers = (bool, bool);

fn compare(c: Comparison, left: u8, right: u8) -> Answers {
    let mut answers = (false, false);
    for l in signs(left) {
        for r in signs(right) {
            let same = l == r && l != 1;
            let (yes, no) = match c {
                Comparison::Equal => (l == r, l != r || same),
                Comparison::Greater => (l > r || same, l <= r),
                Comparison::AtLeast => (l >= r, l < r || same),
            };
            answers = (answers.0 || yes, answers.1 || no);
        }
    }
    answers
}

fn both(a: Answers, b: Answers) -> Answers {
    (a.0 && b.0, a.1 && (b.0 || b.1) || b.1 && (a.0 || a.1))
}

impl Program {
    fn set(&self, n: u16, record: &[u8]) -> u8 {
        match self.arith[usize::from(n)] {
            Arith::Number(z) => match z.signum() {
                -1 => 1,
                0 => 2,
                _ => 4,
            },
            Arith::Variable(x) => record[usize::from(x)],
            Arith::Element(x, i) => {
                if self.set(i, record) & 6 != 0 {
                    record[usize::from(x)]
                } else {
                    0
                }
            }
            Arith::Operate(o, p, q) => operate(o, self.set(p, record), self.set(q, record)),
        }
    }

    fn answers(&self, n: u16, record: &[u8]) -> Answers {
        match self.boolean[usize::from(n)] {
            Boolean::True => (true, false),
            Boolean::Compare(c, p, q) => compare(c, self.set(p, record), self.set(q, record)),
            Boolean::Both(p, q) => both(self.answers(p, record), self.answers(q, record)),
            Boolean::AndThen(p, q) => {
                let (a, b) = (self.answers(p, record), self.answers(q, record));
                (a.0 && b.0, a.1 || a.0 && b.1)
            }
            Boolean::Not(p) => {
                let a = self.answers(p, record);
                (a.1, a.0)
            }
        }
    }

    fn exit(&self, n: u16, record: &[u8]) -> Answers {
        match self.commands[usize::from(n)] {
            Command::Choice(p, q) => both(self.exit(p, record), self.exit(q, record)),
            Command::Guarded(b, _) => {
                let a = self.answers(b, record);
                (a.1, a.0)
            }
            _ => unreachable!(),
        }
    }

    /// Calls back with each result of an action from a record, until it says to stop; `record` is as it was afterwards. Says whether it was stopped.
    fn results(&self, action: Action, record: &mut [u8], mut each: impl FnMut(&[u8]) -> bool) -> bool {
        let may_hold = match action {
            Action::Condition(b) => self.answers(b, record).0,
            Action::Exit(g) => self.exit(g, record).0,
            Action::Command(n) => match self.commands[usize::from(n)] {
                Command::Assign(x, a) => {
                    let x = usize::from(x);
                    let (old, values) = (record[x], self.set(a, record));
                    let stopped = signs(values).any(|s| {
                        record[x] = 1 << s;
                        each(record)
                    });
                    record[x] = old;
                    return stopped;
                }
                Command::Store(x, i, a) => {
                    if self.set(i, record) & 6 == 0 {
                        return false;
                    }
                    let x = usize::from(x);
                    let (old, values) = (record[x], self.set(a, record));
                    let stopped = signs(values).any(|s| {
                        record[x] = old | 1 << s;
                        each(record)
                            || signs(old).any(|t| {
                                record[x] = old & !(1 << t) | 1 << s;
                                each(record)
                            })
                    });
                    record[x] = old;
                    return stopped;
                }
                _ => true,
            },
        };
        may_hold && each(record)
    }

    fn arith_below(&self, n: u16, record: &[u8]) -> bool {
        match self.arith[usize::from(n)] {
            Arith::Element(_, i) => self.set(i, record) & 1 != 0 || self.arith_below(i, record),
            Arith::Operate(_, p, q) => self.arith_below(p, record) || self.arith_below(q, record),
            _ => false,
        }
    }

    fn boolean_below(&self, n: u16, record: &[u8]) -> bool {
        match self.boolean[usize::from(n)] {
            Boolean::True => false,
            Boolean::Compare(_, p, q) => self.arith_below(p, record) || self.arith_below(q, record),
            Boolean::Both(p, q) | Boolean::AndThen(p, q) => self.boolean_below(p, record) || self.boolean_below(q, record),
            Boolean::Not(p) => self.boolean_below(p, record),
        }
    }

    fn exit_below(&self, n: u16, record: &[u8]) -> bool {
        match self.commands[usize::from(n)] {
            Command::Choice(p, q) => self.exit_below(p, record) || self.exit_below(q, record),
            Command::Guarded(b, _) => self.boolean_below(b, record),
            _ => unreachable!(),
        }
    }

    /// Whether an index of an action may be below zero; in the deterministic graph those of earlier guards are asked about with the lower arrows.
    fn index_below(&self, action: Action, record: &[u8]) -> bool {
        match action {
            Action::Condition(b) => self.boolean_below(b, record),
            Action::Exit(g) => self.exit_below(g, record),
            Action::Command(n) => match self.commands[usize::from(n)] {
                Command::Assign(_, a) => self.arith_below(a, record),
                Command::Store(_, i, a) => self.set(i, record) & 1 != 0 || self.arith_below(i, record) || self.arith_below(a, record),
                _ => false,
            },
        }
    }

    /// Question 17 of a list whose records have a node of so many bytes.
    fn wrong_byte(&self, list: &[u8], node_bytes: usize, nodes: u16) -> Option<usize> {
        let width = node_bytes + self.names.len();
        for (i, record) in list.chunks_exact(width).enumerate() {
            if node_bytes == 2 && u16::from_be_bytes([record[0], record[1]]) >= nodes {
                return Some(i * width);
            }
            for (k, (&byte, name)) in record[node_bytes..].iter().zip(&self.names).enumerate() {
                if byte == 0 || byte > 7 || name.size == 0 && !byte.is_power_of_two() {
                    return Some(i * width + node_bytes + k);
                }
            }
        }
        None
    }
}

struct Analysis {
    construction: Construction,
    program: Program,
    arrows: Vec<Arrow>,
    nodes: u16,
    leaving: Vec<Vec<u16>>,
}

impl Analysis {
    fn of(file: &[u8], construction: Construction) -> Result<Analysis, Refusal> {
        let program = Program::read(file)?;
        let graph = Graph::of(&program, construction);
        let leaving = graph.leaving();
        Ok(Analysis { construction, program, nodes: graph.nodes, arrows: graph.arrows, leaving })
    }

    fn width(&self) -> usize {
        2 + self.program.names.len()
    }

    /// Each arrow out of the node of a record, by number.
    fn arrows_from(&self, record: &[u8]) -> impl Iterator<Item = (u16, Arrow)> + '_ {
        let node = u16::from_be_bytes([record[0], record[1]]);
        self.leaving[usize::from(node)].iter().map(|&k| (k, self.arrows[usize::from(k)]))
    }

    /// Calls back with each result of an arrow from a record, as a record of a sheet, until it says to stop.
    fn results(&self, arrow: Arrow, record: &[u8], key: &mut [u8], mut each: impl FnMut(&[u8]) -> bool) -> bool {
        let mut signs = [0; 32];
        let names = self.program.names.len();
        signs[..names].copy_from_slice(&record[2..]);
        key[..2].copy_from_slice(&arrow.to.to_be_bytes());
        self.program.results(arrow.action, &mut signs[..names], |result| {
            key[2..].copy_from_slice(result);
            each(key)
        })
    }

    /// Calls back with each result of each arrow out of the node of a record, until it says to stop: the arrow then. On the deterministic graph each guard is worked
    /// out once, and later arrows are gone on to only while all guards before may be false; so an exit that is come to passes.
    fn successors(&self, record: &[u8], key: &mut [u8], mut each: impl FnMut(&[u8]) -> bool) -> Option<u16> {
        let is_deterministic = self.construction == Construction::Deterministic;
        for (k, arrow) in self.arrows_from(record) {
            let (passes, goes_on) = match arrow.action {
                Action::Condition(b) if is_deterministic => self.program.answers(b, &record[2..]),
                Action::Exit(_) if is_deterministic => (true, true),
                _ if self.results(arrow, record, key, &mut each) => return Some(k),
                _ => continue,
            };
            if passes {
                key[..2].copy_from_slice(&arrow.to.to_be_bytes());
                key[2..].copy_from_slice(&record[2..]);
                if each(key) {
                    return Some(k);
                }
            }
            if !goes_on {
                return None;
            }
        }
        None
    }
}

fn is_whole(list: &[u8], width: usize) -> bool {
    list.len().is_multiple_of(width) && list.len() / width <= 4096
}

/// The verdict in document 01's numbers, as the engine's row has them.
#[inline(never)]
pub fn judge(file: &[u8], construction: Construction, start: &[u8], sheet: &[u8]) -> Vec<u32> {
    let analysis = match Analysis::of(file, construction) {
        Ok(analysis) => analysis,
        Err((number, place)) => return vec![number, place as u32],
    };
    let (names, width) = (analysis.program.names.len(), analysis.width());
    if !is_whole(start, names) || !is_whole(sheet, width) {
        return vec![16, 0];
    }
    if let Some(place) = analysis.program.wrong_byte(start, 0, 0) {
        return vec![17, 1, place as u32];
    }
    if let Some(place) = analysis.program.wrong_byte(sheet, 2, analysis.nodes) {
        return vec![17, 2, place as u32];
    }
    let listed: HashSet<&[u8]> = sheet.chunks_exact(width).collect();
    let mut key = vec![0; width];
    for (i, record) in start.chunks_exact(names).enumerate() {
        key[2..].copy_from_slice(record);
        if !listed.contains(&key[..]) {
            return vec![41, i as u32];
        }
    }
    for (i, record) in sheet.chunks_exact(width).enumerate() {
        if let Some(k) = analysis.successors(record, &mut key, |result| !listed.contains(result)) {
            return vec![42, i as u32, u32::from(k)];
        }
    }
    for (i, record) in sheet.chunks_exact(width).enumerate() {
        for (k, arrow) in analysis.arrows_from(record) {
            if analysis.program.index_below(arrow.action, &record[2..]) {
                return vec![0, i as u32, u32::from(k)];
            }
        }
    }
    vec![0]
}

/// The solver's records in a buffer, and its answer in document 01's numbers.
#[inline(never)]
pub fn solve(file: &[u8], construction: Construction, start: &[u8], buffer: &mut [u8]) -> Vec<u32> {
    let analysis = match Analysis::of(file, construction) {
        Ok(analysis) => analysis,
        Err((number, place)) => return vec![number, place as u32, 0],
    };
    let (names, width) = (analysis.program.names.len(), analysis.width());
    if !is_whole(start, names) {
        return vec![16, 0, 0];
    }
    if let Some(place) = analysis.program.wrong_byte(start, 0, 0) {
        return vec![17, 1, place as u32, 0];
    }
    let room = (buffer.len() / width).min(4096);
    let mut listed: HashSet<Vec<u8>> = HashSet::new();
    let mut count = 0;
    let mut key = vec![0; width];
    // Appends a record that is not listed yet; says whether there was no room for it.
    let mut append = |record: &[u8], buffer: &mut [u8], count: &mut usize| {
        if listed.contains(record) {
            return false;
        }
        if *count == room {
            return true;
        }
        listed.insert(record.to_vec());
        buffer[*count * width..(*count + 1) * width].copy_from_slice(record);
        *count += 1;
        false
    };
    for record in start.chunks_exact(names) {
        key[2..].copy_from_slice(record);
        if append(&key, buffer, &mut count) {
            return vec![18, count as u32];
        }
    }
    let mut at = 0;
    let mut record = vec![0; width];
    while at < count {
        record.copy_from_slice(&buffer[at * width..(at + 1) * width]);
        if analysis.successors(&record, &mut key, |result| append(result, buffer, &mut count)).is_some() {
            return vec![18, count as u32];
        }
        at += 1;
    }
    vec![0, count as u32]
}

/// A place's record and column.
#[inline(never)]
pub fn split(file: &[u8], place: u32) -> Result<(u32, u32), Refusal> {
    let width = name_count(file)? as u32 + 2;
    Ok((place / width, place % width))
}
