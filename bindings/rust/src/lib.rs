//! Pizwoter, the lesson engine of a crane simulator's control desk, as a safe Rust crate.
//!
//! A *program* (document 01: a script) is the bytes of a file of Dijkstra's Guarded Commands. The engine validates it, draws its program graph, steps and runs it,
//! judges and solves sheets of signs for it. Beside that it tells the mean and the variance of a class's marks (document 02). Every function here takes any bytes
//! and any numbers whatever and has one answer, which is proved to be the one of the two documents: this crate only turns the C library's rows of numbers
//! (`include/pizwoter.h`) into Rust's enums. A call that is refused gives a [`Refusal`], which is an error with words.
//!
//! A program has two graphs ([`Construction`]). A function whose name ends in `_on` takes the one that it works on; the function without it names none, which is the
//! nondeterministic one.
//!
//! ```
//! use pizwoter::{judge, run, run_on, Construction, Ending, Mark, Outcome, Run, Verdict};
//!
//! # fn main() -> Result<(), Box<dyn std::error::Error>> {
//! // y := 1; do x > 0 -> y := x * y; x := x - 1 od
//! let lesson = include_bytes!("../tests/factorial.script");
//! let mut memory = [3, 0];
//! let ended = run(lesson, 11, &mut memory)?;
//! assert_eq!((ended.ending, memory), (Ending::Arrived, [0, 6]));
//!
//! // On the deterministic graph it is the same run: the loop has one guard.
//! let mut again = [3, 0];
//! assert_eq!(run_on(lesson, Construction::Deterministic, 11, &mut again)?, ended);
//!
//! // A step along arrow 0, which is y := 1; and one that does not leave the node then reached.
//! let stepped = Run::FRESH.step(lesson, 0, &mut memory)?;
//! assert_eq!((stepped.outcome, memory), (Outcome::Taken, [0, 1]));
//! let refusal = stepped.run.step(lesson, 3, &mut memory).unwrap_err();
//! assert_eq!(refusal.to_string(), "the arrow does not exist, or does not leave the node (question 15)");
//!
//! // Start with x plus and y zero: the solver's sheet is accepted, and no index is ever below zero.
//! let mut buffer = [0; 32];
//! let records = pizwoter::solve(lesson, &[4, 2], &mut buffer)?;
//! let sheet = &buffer[..records * 4];
//! assert_eq!(judge(lesson, &[4, 2], sheet)?, Verdict::Accepted(Mark::Clean));
//!
//! // Without its last record, a result of arrow 4 from record 5, at node 2 with x zero and y plus, is missing.
//! let verdict = judge(lesson, &[4, 2], &sheet[..28])?;
//! assert_eq!(verdict, Verdict::ResultMissing { record: 5, arrow: 4, offending: &[0, 2, 2, 4] });
//!
//! // A class with the marks 3, 4 and 4: the mean is 11/3, the variance 2/9.
//! let class = pizwoter::figures(&[3, 4, 4])?;
//! assert_eq!((class.mean.to_string(), class.variance.to_string()), ("11/3".to_string(), "2/9".to_string()));
//! # Ok(())
//! # }
//! ```

#![deny(unsafe_code)]

mod answers;
#[allow(unsafe_code)]
mod desk;
#[allow(dead_code)]
mod numbers;
#[cfg(test)]
mod replies;
mod words;

pub use answers::*;
use numbers::*;
pub use numbers::{
    ARROW_BYTES, HIGHEST_MARK, MINUS, MOST_ARROWS, MOST_CELLS, MOST_INPUT_BYTES, MOST_MARKS, MOST_NAMES, MOST_NODES, MOST_PROGRAM_BYTES, MOST_RECORDS, PLUS,
    ZERO,
};

/// The most bytes that the arrows of a graph take.
pub const MOST_ARROW_BYTES: usize = MOST_ARROWS * ARROW_BYTES;

/// Makes a call with a reply that is as long as its row.
fn told<const ROW: usize>(call: impl FnOnce(&mut [i64]) -> i32) -> Result<[i64; ROW], Refusal> {
    let mut row = [0; ROW];
    match call(&mut row) {
        ANSWERED => Ok(row),
        status => Err(refusal(status, &row)),
    }
}

/// What a call returned that was not answered, with its row.
fn refusal(status: i32, row: &[i64]) -> Refusal {
    let question = Question::numbered(status as u32).unwrap_or_else(|| unreachable!("a call returned {status}"));
    let (place, list) = (row[PLACE] as usize, if row[LIST] == START_LIST { List::Start } else { List::Sheet });
    let place = match status {
        NO_HEAD..=LAST_NOT_COMMAND | LOOSE_JUMP => Place::Byte(place),
        WRONG_RECORD => Place::InList(list, place),
        WRONG_MARK => Place::Mark(place),
        _ => Place::None,
    };
    Refusal { question, place }
}

/// The number of the library's version.
pub fn version() -> u32 {
    desk::version()
}

/// Questions 1 to 11 and 20 of a program file.
pub fn validate(program: &[u8]) -> Result<(), Refusal> {
    told::<VALIDATE_ROW>(|reply| desk::validate(program, reply)).map(|_| ())
}

/// Questions 1 to 11 and 20 of an input of five fields: a program file, and a field of tag 5 with a start list.
pub fn validate_input(input: &[u8]) -> Result<(), Refusal> {
    told::<VALIDATE_ROW>(|reply| desk::validate_input(input, reply)).map(|_| ())
}

/// The program and the start list of such an input.
pub fn input_parts(input: &[u8]) -> Result<Input<'_>, Refusal> {
    let row = told::<PARTS_ROW>(|reply| desk::input_parts(input, reply))?;
    let program = &input[..row[PARTS_PROGRAM_LENGTH] as usize];
    Ok(Input { program, start: part(input, row[PARTS_START], row[PARTS_START_LENGTH]) })
}

/// So many bytes of others, from an offset on.
fn part(bytes: &[u8], offset: i64, length: i64) -> &[u8] {
    &bytes[offset as usize..][..length as usize]
}

/// The arrows at the front of a buffer, [`ARROW_BYTES`] each: from, to, action kind, entry. [`MOST_ARROW_BYTES`] hold any graph; with less room
/// [`Question::RoomForArrows`] may be refused.
pub fn draw(program: &[u8], buffer: &mut [u8]) -> Result<Drawn, Refusal> {
    draw_numbered(program, UNNAMED_GRAPH, buffer)
}

/// The same of the graph that is named.
pub fn draw_on(program: &[u8], construction: Construction, buffer: &mut [u8]) -> Result<Drawn, Refusal> {
    draw_numbered(program, construction.number(), buffer)
}

fn draw_numbered(program: &[u8], graph: u32, buffer: &mut [u8]) -> Result<Drawn, Refusal> {
    let row = told::<DRAW_ROW>(|reply| desk::draw(program, graph, buffer, reply))?;
    Ok(Drawn { nodes: row[DRAW_NODES] as usize, arrows: row[DRAW_ARROWS] as usize })
}

/// The program graph.
pub fn graph(program: &[u8]) -> Result<Graph, Refusal> {
    graph_numbered(program, UNNAMED_GRAPH)
}

/// The graph that is named.
pub fn graph_on(program: &[u8], construction: Construction) -> Result<Graph, Refusal> {
    graph_numbered(program, construction.number())
}

fn graph_numbered(program: &[u8], graph: u32) -> Result<Graph, Refusal> {
    let mut buffer = [0; MOST_ARROW_BYTES];
    let drawn = draw_numbered(program, graph, &mut buffer)?;
    let arrows = buffer.chunks(ARROW_BYTES).take(drawn.arrows).map(arrow).collect();
    Ok(Graph { nodes: drawn.nodes, arrows })
}

fn arrow(bytes: &[u8]) -> Arrow {
    let word = |i: usize| u16::from_be_bytes([bytes[i], bytes[i + 1]]);
    let entry = word(5);
    let action = match bytes[4] {
        ACTION_COMMAND => Action::Command(entry),
        ACTION_BOOLEAN => Action::Condition(entry),
        ACTION_EXIT => Action::Exit(entry),
        ACTION_GUARD => Action::Guard(entry),
        other => unreachable!("an action has no kind {other}"),
    };
    Arrow { from: word(0), to: word(2), action }
}

/// How many cells a memory of a program has: one for a variable, one for each element of an array.
pub fn cells(program: &[u8]) -> Result<usize, Refusal> {
    validate(program)?;
    // The names' field comes first: its tag, its length, and two bytes for each name.
    let length = usize::from(u16::from_be_bytes([program[1], program[2]]));
    let sizes = program[3..3 + length].chunks(2).map(|size| usize::from(u16::from_be_bytes([size[0], size[1]])));
    Ok(sizes.map(|size| size.max(1)).sum())
}

impl Run {
    /// A run at node 0 with no arrow taken.
    pub const FRESH: Run = Run { node: 0, count: 0 };

    /// A step along an arrow, by its number. Where the step is undefined or refused, run and memory are as they were.
    pub fn step(self, program: &[u8], arrow: u16, memory: &mut [i32]) -> Result<Stepped, Refusal> {
        self.step_numbered(program, UNNAMED_GRAPH, arrow, memory)
    }

    /// The same on the graph that is named.
    pub fn step_on(self, program: &[u8], construction: Construction, arrow: u16, memory: &mut [i32]) -> Result<Stepped, Refusal> {
        self.step_numbered(program, construction.number(), arrow, memory)
    }

    fn step_numbered(self, program: &[u8], graph: u32, arrow: u16, memory: &mut [i32]) -> Result<Stepped, Refusal> {
        let row = told::<STEP_ROW>(|reply| desk::step(program, graph, self.node, self.count, arrow, memory, reply))?;
        Ok(Stepped { outcome: outcome(row[ANSWER]), run: Run { node: row[STEP_NODE] as u16, count: row[STEP_COUNT] as u16 } })
    }
}

fn outcome(answer: i64) -> Outcome {
    let reason = match answer {
        TAKEN => return Outcome::Taken,
        CONDITION_FALSE => Reason::ConditionFalse,
        DIVISOR_ZERO => Reason::DivisorZero,
        EXPONENT_NEGATIVE => Reason::ExponentNegative,
        INDEX_BELOW_ZERO => Reason::IndexBelowZero,
        INDEX_PAST_SIZE => Reason::IndexPastSize,
        OUT_OF_RANGE => Reason::OutOfRange,
        other => unreachable!("a step has no answer {other}"),
    };
    Outcome::Undefined(reason)
}

/// A run from node 0 that takes the lowest-numbered defined arrow each time, at most `budget` of them.
pub fn run(program: &[u8], budget: u16, memory: &mut [i32]) -> Result<Ended, Refusal> {
    run_numbered(program, UNNAMED_GRAPH, budget, memory)
}

/// The same on the graph that is named: on the deterministic one it takes the only defined arrow each time.
pub fn run_on(program: &[u8], construction: Construction, budget: u16, memory: &mut [i32]) -> Result<Ended, Refusal> {
    run_numbered(program, construction.number(), budget, memory)
}

fn run_numbered(program: &[u8], graph: u32, budget: u16, memory: &mut [i32]) -> Result<Ended, Refusal> {
    let row = told::<RUN_ROW>(|reply| desk::run(program, graph, budget, memory, reply))?;
    let ending = match row[ANSWER] {
        ARRIVED => Ending::Arrived,
        BUDGET_USED_UP => Ending::Spent,
        NO_ARROW_DEFINED => Ending::Stuck,
        other => unreachable!("a run has no answer {other}"),
    };
    Ok(Ended { ending, run: Run { node: row[RUN_NODE] as u16, count: row[RUN_COUNT] as u16 } })
}

/// A mark by its number, with the record and the arrow of an unclean one.
fn mark(number: i64, record: i64, arrow: i64) -> Mark {
    match number {
        CLEAN => Mark::Clean,
        UNCLEAN => Mark::At { record: record as usize, arrow: arrow as usize },
        other => unreachable!("an index mark has no number {other}"),
    }
}

/// The verdict on a sheet over a start list.
pub fn judge<'a>(program: &[u8], start: &'a [u8], sheet: &'a [u8]) -> Result<Verdict<'a>, Refusal> {
    judge_numbered(program, UNNAMED_GRAPH, start, sheet)
}

/// The same on the graph that is named.
pub fn judge_on<'a>(program: &[u8], construction: Construction, start: &'a [u8], sheet: &'a [u8]) -> Result<Verdict<'a>, Refusal> {
    judge_numbered(program, construction.number(), start, sheet)
}

fn judge_numbered<'a>(program: &[u8], graph: u32, start: &'a [u8], sheet: &'a [u8]) -> Result<Verdict<'a>, Refusal> {
    let row = told::<JUDGE_ROW>(|reply| desk::judge(program, graph, start, sheet, reply))?;
    let (record, arrow) = (row[JUDGE_RECORD] as usize, row[JUDGE_ARROW] as usize);
    let offending = |list| part(list, row[JUDGE_OFFSET], row[JUDGE_LENGTH]);
    Ok(match row[ANSWER] {
        ACCEPTED => Verdict::Accepted(mark(row[JUDGE_MARK], row[JUDGE_MARK_RECORD], row[JUDGE_MARK_ARROW])),
        START_MISSING => Verdict::StartMissing { record, offending: offending(start) },
        RESULT_MISSING => Verdict::ResultMissing { record, arrow, offending: offending(sheet) },
        other => unreachable!("a verdict has no answer {other}"),
    })
}

/// The index mark of a sheet by itself, accepted or not. It is the same for both graphs.
pub fn index_mark(program: &[u8], sheet: &[u8]) -> Result<Mark, Refusal> {
    let row = told::<MARK_ROW>(|reply| desk::index_mark(program, sheet, reply))?;
    Ok(mark(row[ANSWER], row[MARK_RECORD], row[MARK_ARROW]))
}

/// The solver's sheet for a start list, at the front of a buffer; answers how many records it has. A record has two bytes of node and one for each name.
pub fn solve(program: &[u8], start: &[u8], buffer: &mut [u8]) -> Result<usize, Unsolved> {
    solve_numbered(program, UNNAMED_GRAPH, start, buffer)
}

/// The same on the graph that is named.
pub fn solve_on(program: &[u8], construction: Construction, start: &[u8], buffer: &mut [u8]) -> Result<usize, Unsolved> {
    solve_numbered(program, construction.number(), start, buffer)
}

fn solve_numbered(program: &[u8], graph: u32, start: &[u8], buffer: &mut [u8]) -> Result<usize, Unsolved> {
    let mut row = [0; SOLVE_ROW];
    let status = desk::solve(program, graph, start, buffer, &mut row);
    let records = row[SOLVE_RECORDS] as usize;
    match status {
        ANSWERED => Ok(records),
        NO_ROOM_FOR_RECORD => Err(Unsolved::NoRoom { records }),
        _ => Err(Unsolved::Refused(refusal(status, &row))),
    }
}

/// The record and the column of a byte place in a sheet.
pub fn split(program: &[u8], place: u32) -> Result<Split, Refusal> {
    let row = told::<SPLIT_ROW>(|reply| desk::split(program, place, reply))?;
    Ok(Split { record: row[SPLIT_RECORD] as u32, column: row[SPLIT_COLUMN] as u32 })
}

/// The figures of a class's marks: 1 to [`MOST_MARKS`] of them, else [`Question::Class`] is refused, each from -10,000 to 10,000, else [`Question::Mark`] with the
/// number of the first that is not.
pub fn figures(marks: &[i32]) -> Result<Figures, Refusal> {
    told(|reply| desk::figures(marks, reply)).map(class)
}

/// The figures of two classes joined, by their totals. Where each class's are those of a list of marks in the range, they are the [`figures`] of the two lists as one.
///
/// [`Question::Class`] is refused where both together have no mark or more than [`MOST_MARKS`], or where either has a sum beyond 10,000 per mark either way, a sum of
/// squares below zero or beyond 100,000,000 per mark, or a variance below zero.
pub fn join(first: Totals, second: Totals) -> Result<Figures, Refusal> {
    told(|reply| desk::join(first, second, reply)).map(class)
}

fn class(row: [i64; FIGURES_ROW]) -> Figures {
    let fraction = |numerator: usize, denominator: usize| Fraction { numerator: row[numerator], denominator: row[denominator] };
    Figures {
        totals: Totals { count: row[FIGURES_COUNT] as u32, sum: row[FIGURES_SUM], squares: row[FIGURES_SQUARES] },
        mean: fraction(FIGURES_MEAN, FIGURES_MEAN_OVER),
        variance: fraction(FIGURES_VARIANCE, FIGURES_VARIANCE_OVER),
    }
}
