//! Every call with replies of every length from 0 to 12: a reply that is too short is answered -1 and nothing is written anywhere, and otherwise exactly the row is.

use crate::numbers::*;
use crate::{desk, Totals};
use oracle::making::file_of;

/// y := 1; do x > 0 -> y := x * y; x := x - 1 od
const LESSON: &[u8] = include_bytes!("../tests/factorial.script");
const INPUT: &[u8] = include_bytes!("../../../crates/sheet/stdin");
/// A break by itself, with a start list of one record of two names.
const LOOSE: &[u8] = include_bytes!("../../../crates/sheet_inputs/data/refused-20-break.in");
/// The solver's sheet for the start list 4 2.
const SHEET_OF_LESSON: [u8; 32] = [0, 0, 4, 2, 0, 2, 4, 4, 0, 3, 4, 4, 0, 4, 4, 4, 0, 2, 1, 4, 0, 2, 2, 4, 0, 1, 1, 4, 0, 1, 2, 4];

/// The graph of the calls that are not about graphs.
const GRAPH: u32 = UNNAMED_GRAPH;

/// What a call may write beside its reply.
#[derive(Clone, Debug, PartialEq)]
struct Lent {
    buffer: Vec<u8>,
    memory: Vec<i32>,
}

fn lent() -> Lent {
    Lent { buffer: vec![170; 2000], memory: vec![3, 0] }
}

/// Makes a call with replies of every length, which hold either of two numbers before it, and compares.
fn check(name: &str, call: impl Fn(&mut Lent, &mut [i64]) -> i32, status: i32, row: &[i64]) {
    for length in 0..=12 {
        for before in [7, -9] {
            let (mut with, mut reply) = (lent(), vec![before; length]);
            let returned = call(&mut with, &mut reply);
            if length < row.len() {
                assert_eq!((returned, with, reply), (SHORT_REPLY, lent(), vec![before; length]), "{name}, a reply of {length}");
            } else {
                let after = [row, &vec![before; length - row.len()]].concat();
                assert_eq!((returned, reply), (status, after), "{name}, a reply of {length}");
            }
        }
    }
}

/// A call that is refused at a place of the file: its row ends in zeros, or in the numbers that are given.
fn refused(room: usize, place: i64, list: i64, behind: &[i64]) -> Vec<i64> {
    let mut row = vec![0; room];
    row[..3].copy_from_slice(&[REFUSED, place, list]);
    row[room - behind.len()..].copy_from_slice(behind);
    row
}

#[test]
fn files() {
    let cut = &LESSON[..LESSON.len() - 1];
    check("validate", |_, r| desk::validate(LESSON, r), ANSWERED, &[0, 0, 0]);
    check("validate", |_, r| desk::validate(&LESSON[..1], r), NO_HEAD, &refused(VALIDATE_ROW, 0, 0, &[]));
    check("validate_input", |_, r| desk::validate_input(INPUT, r), ANSWERED, &[0, 0, 0]);
    check("validate_input", |_, r| desk::validate_input(LESSON, r), NO_HEAD, &refused(VALIDATE_ROW, LESSON.len() as i64, 0, &[]));
    let program = LESSON.len() as i64;
    check("input_parts", |_, r| desk::input_parts(INPUT, r), ANSWERED, &[0, 0, 0, program, program + 3, 2]);
    check("input_parts", |_, r| desk::input_parts(&INPUT[..INPUT.len() - 1], r), CONTENT_CUT, &refused(PARTS_ROW, program, 0, &[]));
    check("draw", |l, r| desk::draw(LESSON, GRAPH, &mut l.buffer, r), ANSWERED, &[0, 0, 0, 5, 5]);
    check("draw", |l, r| desk::draw(LESSON, GRAPH, &mut l.buffer[..34], r), NO_ROOM_FOR_ARROWS, &refused(DRAW_ROW, 0, 0, &[]));
    check("split", |_, r| desk::split(LESSON, 14, r), ANSWERED, &[0, 0, 0, 3, 2]);
    let commands = LESSON.len() as i64 - 3 - 7 * 7;
    check("split", |_, r| desk::split(cut, 14, r), CONTENT_CUT, &refused(SPLIT_ROW, commands, 0, &[]));
}

/// Question 20, which comes before those of memory, room, node and records.
#[test]
fn a_loose_jump() {
    let program = &LOOSE[..LOOSE.len() - 5];
    let row = |room: usize, behind: &[i64]| refused(room, program.len() as i64 - 7, 0, behind);
    check("validate", |_, r| desk::validate(program, r), LOOSE_JUMP, &row(VALIDATE_ROW, &[]));
    check("validate_input", |_, r| desk::validate_input(LOOSE, r), LOOSE_JUMP, &row(VALIDATE_ROW, &[]));
    check("input_parts", |_, r| desk::input_parts(LOOSE, r), LOOSE_JUMP, &row(PARTS_ROW, &[]));
    check("draw", |l, r| desk::draw(program, GRAPH, &mut l.buffer[..6], r), LOOSE_JUMP, &row(DRAW_ROW, &[]));
    check("step", |l, r| desk::step(program, GRAPH, 9, 8, 7, &mut l.memory[..1], r), LOOSE_JUMP, &row(STEP_ROW, &[9, 8]));
    check("run", |l, r| desk::run(program, GRAPH, 11, &mut l.memory[..1], r), LOOSE_JUMP, &row(RUN_ROW, &[]));
    check("judge", |_, r| desk::judge(program, GRAPH, &[4], &[9], r), LOOSE_JUMP, &row(JUDGE_ROW, &[]));
    check("index_mark", |_, r| desk::index_mark(program, &[0, 0, 4, 9], r), LOOSE_JUMP, &row(MARK_ROW, &[]));
    check("solve", |l, r| desk::solve(program, GRAPH, &[4, 0], &mut l.buffer[..3], r), LOOSE_JUMP, &row(SOLVE_ROW, &[]));
    check("split", |_, r| desk::split(program, 14, r), LOOSE_JUMP, &row(SPLIT_ROW, &[]));
}

#[test]
fn steps() {
    check("step", |l, r| desk::step(LESSON, GRAPH, 0, 0, 0, &mut l.memory, r), ANSWERED, &[TAKEN, 0, 0, 2, 1]);
    check("step", |l, r| desk::step(LESSON, GRAPH, 2, 8, 4, &mut l.memory, r), ANSWERED, &[CONDITION_FALSE, 0, 0, 2, 8]);
    check("step", |l, r| desk::step(LESSON, GRAPH, 2, 8, 3, &mut l.memory, r), NO_SUCH_ARROW, &refused(STEP_ROW, 0, 0, &[2, 8]));
    check("step", |l, r| desk::step(LESSON, GRAPH, 5, 65535, 65535, &mut l.memory, r), NO_SUCH_NODE, &refused(STEP_ROW, 0, 0, &[5, 65535]));
    check("run", |l, r| desk::run(LESSON, GRAPH, 11, &mut l.memory, r), ANSWERED, &[ARRIVED, 0, 0, 1, 11]);
    check("run", |l, r| desk::run(LESSON, GRAPH, 4, &mut l.memory, r), ANSWERED, &[BUDGET_USED_UP, 0, 0, 2, 4]);
    check("run", |l, r| desk::run(LESSON, GRAPH, 4, &mut l.memory[..1], r), WRONG_MEMORY, &refused(RUN_ROW, 0, 0, &[]));
}

#[test]
fn sheets() {
    let sheet = &SHEET_OF_LESSON;
    check("judge", |_, r| desk::judge(LESSON, GRAPH, &[4, 2], sheet, r), ANSWERED, &[ACCEPTED, 0, 0, 0, 0, 0, 0, CLEAN, 0, 0]);
    check("judge", |_, r| desk::judge(LESSON, GRAPH, &[4, 2, 4, 1], sheet, r), ANSWERED, &[START_MISSING, 0, 0, 1, 0, 2, 2, 0, 0, 0]);
    check("judge", |_, r| desk::judge(LESSON, GRAPH, &[4, 2], &sheet[..28], r), ANSWERED, &[RESULT_MISSING, 0, 0, 5, 4, 20, 4, 0, 0, 0]);
    check("judge", |_, r| desk::judge(LESSON, GRAPH, &[4, 2, 3, 1], sheet, r), WRONG_RECORD, &refused(JUDGE_ROW, 2, START_LIST, &[]));
    check("judge", |_, r| desk::judge(LESSON, GRAPH, &[4, 2], &[0, 0, 4, 2, 0, 5, 4, 2], r), WRONG_RECORD, &refused(JUDGE_ROW, 4, SHEET, &[]));
    check("judge", |_, r| desk::judge(LESSON, GRAPH, &[4], sheet, r), NOT_WHOLE_RECORDS, &refused(JUDGE_ROW, 0, 0, &[]));
    check("index_mark", |_, r| desk::index_mark(LESSON, sheet, r), ANSWERED, &[CLEAN, 0, 0, 0, 0]);
    check("index_mark", |_, r| desk::index_mark(LESSON, &[0, 0, 4, 9], r), WRONG_RECORD, &refused(MARK_ROW, 3, SHEET, &[]));
    check("solve", |l, r| desk::solve(LESSON, GRAPH, &[4, 2], &mut l.buffer, r), ANSWERED, &[0, 0, 0, 8]);
    check("solve", |l, r| desk::solve(LESSON, GRAPH, &[4, 2], &mut l.buffer[..31], r), NO_ROOM_FOR_RECORD, &refused(SOLVE_ROW, 0, 0, &[7]));
    check("solve", |l, r| desk::solve(LESSON, GRAPH, &[4, 0], &mut l.buffer, r), WRONG_RECORD, &refused(SOLVE_ROW, 1, START_LIST, &[]));
}

/// An unclean mark, by itself and of an accepted sheet.
#[test]
fn unclean_sheets() {
    let input = include_bytes!("../../../crates/sheet_inputs/data/index-record-4.in");
    let parts = crate::input_parts(input).unwrap();
    let mut sheet = vec![0; MOST_RECORDS * (2 + MOST_NAMES)];
    let records = crate::solve(parts.program, parts.start, &mut sheet).unwrap();
    let names = usize::from(u16::from_be_bytes([input[1], input[2]])) / 2;
    sheet.truncate(records * (2 + names));
    check("judge", |_, r| desk::judge(parts.program, GRAPH, parts.start, &sheet, r), ANSWERED, &[ACCEPTED, 0, 0, 0, 0, 0, 0, UNCLEAN, 4, 4]);
    check("index_mark", |_, r| desk::index_mark(parts.program, &sheet, r), ANSWERED, &[UNCLEAN, 0, 0, 4, 4]);
}

/// The five calls that take a graph, by every number of one and by others, which are not refused and mean the unnamed one. Of the lesson's two guards the first is
/// undefined where y is zero.
#[test]
fn graphs_by_number() {
    let lesson = &file_of("x y", "if x / y > 0 -> x := 0 [] x >= 0 -> x := 1 fi");
    for graph in [UNNAMED_GRAPH, NONDETERMINISTIC_GRAPH, 3, 257, 65_536, 65_538, 1 << 31, u32::MAX] {
        check("draw", |l, r| desk::draw(lesson, graph, &mut l.buffer, r), ANSWERED, &[0, 0, 0, 4, 4]);
        check("step", |l, r| desk::step(lesson, graph, 0, 0, 2, &mut l.memory, r), ANSWERED, &[TAKEN, 0, 0, 3, 1]);
        check("run", |l, r| desk::run(lesson, graph, 9, &mut l.memory, r), ANSWERED, &[ARRIVED, 0, 0, 1, 2]);
        check("judge", |_, r| desk::judge(lesson, graph, &[4, 2], &[0, 0, 4, 2], r), ANSWERED, &[RESULT_MISSING, 0, 0, 0, 2, 0, 4, 0, 0, 0]);
        check("solve", |l, r| desk::solve(lesson, graph, &[4, 2], &mut l.buffer, r), ANSWERED, &[0, 0, 0, 3]);
        assert_eq!(kinds(lesson, graph), [ACTION_BOOLEAN, ACTION_COMMAND, ACTION_BOOLEAN, ACTION_COMMAND]);
    }
    let graph = DETERMINISTIC_GRAPH;
    check("draw", |l, r| desk::draw(lesson, graph, &mut l.buffer, r), ANSWERED, &[0, 0, 0, 4, 4]);
    check("step", |l, r| desk::step(lesson, graph, 0, 0, 2, &mut l.memory, r), ANSWERED, &[DIVISOR_ZERO, 0, 0, 0, 0]);
    check("run", |l, r| desk::run(lesson, graph, 9, &mut l.memory, r), ANSWERED, &[NO_ARROW_DEFINED, 0, 0, 0, 0]);
    check("judge", |_, r| desk::judge(lesson, graph, &[4, 2], &[0, 0, 4, 2], r), ANSWERED, &[ACCEPTED, 0, 0, 0, 0, 0, 0, CLEAN, 0, 0]);
    check("solve", |l, r| desk::solve(lesson, graph, &[4, 2], &mut l.buffer, r), ANSWERED, &[0, 0, 0, 1]);
    assert_eq!(kinds(lesson, graph), [ACTION_GUARD, ACTION_COMMAND, ACTION_GUARD, ACTION_COMMAND]);
}

/// The action kinds of a graph of four arrows.
fn kinds(lesson: &[u8], graph: u32) -> [u8; 4] {
    let mut arrows = [0; 4 * ARROW_BYTES];
    desk::draw(lesson, graph, &mut arrows, &mut [0; DRAW_ROW]);
    [4, 11, 18, 25].map(|at| arrows[at])
}

#[test]
fn classes() {
    let totals = |count, sum, squares| Totals { count, sum, squares };
    let none = &[0, 0, 0, 0, 1, 0, 1];
    check("figures", |_, r| desk::figures(&[3, 4, 4], r), ANSWERED, &[0, 0, 0, 3, 11, 41, 11, 3, 2, 9]);
    check("figures", |_, r| desk::figures(&[-7], r), ANSWERED, &[0, 0, 0, 1, -7, 49, -7, 1, 0, 1]);
    check("figures", |_, r| desk::figures(&[10000, 10001, -10001], r), WRONG_MARK, &refused(FIGURES_ROW, 1, 0, none));
    check("figures", |_, r| desk::figures(&[], r), WRONG_CLASS, &refused(FIGURES_ROW, 0, 0, none));
    check("join", |_, r| desk::join(totals(3, 11, 41), totals(3, 11, 41), r), ANSWERED, &[0, 0, 0, 6, 22, 82, 11, 3, 2, 9]);
    check("join", |_, r| desk::join(totals(3, 11, 41), totals(2, 3, 4), r), WRONG_CLASS, &refused(FIGURES_ROW, 0, 0, none));
}
