//! The numbers of `include/pizwoter.h`, under the header's names without `PIZWOTER_`. A test holds the two to each other.

/// Defines each number, and for the test a table of all.
macro_rules! numbers {
    ($($(#[$said:meta])* $name:ident: $kind:ty = $value:expr;)*) => {
        $($(#[$said])* pub const $name: $kind = $value;)*

        #[cfg(test)]
        pub const ALL: &[(&str, i64)] = &[$((stringify!($name), $name as i64)),*];
    };
}

numbers! {
    VERSION: u32 = 3;

    // Return values beside the questions' numbers.
    ANSWERED: i32 = 0;
    SHORT_REPLY: i32 = -1;

    // The places of every row, and the answer of a call that is refused.
    ANSWER: usize = 0;
    PLACE: usize = 1;
    LIST: usize = 2;
    REFUSED: i64 = -1;
    REPLY: usize = 10;

    /// The largest program file that is fit.
    MOST_PROGRAM_BYTES: usize = 7244;
    /// The largest input of five fields that is fit.
    MOST_INPUT_BYTES: usize = 23631;
    /// The most names of a program.
    MOST_NAMES: usize = 32;
    /// The most cells of a memory.
    MOST_CELLS: usize = 512;
    /// The most nodes of a graph.
    MOST_NODES: usize = 129;
    /// The most arrows of a graph.
    MOST_ARROWS: usize = 255;
    /// The bytes of an arrow as `draw` writes it.
    ARROW_BYTES: usize = 7;
    /// The most records of a start list or of a sheet.
    MOST_RECORDS: usize = 4096;
    /// The most marks of a class, and of two classes joined.
    MOST_MARKS: usize = 4096;
    /// The highest mark; the lowest is as far below zero.
    HIGHEST_MARK: i32 = 10000;

    // Questions.
    NO_HEAD: i32 = 1;
    WRONG_TAG: i32 = 2;
    WRONG_LENGTH: i32 = 3;
    CONTENT_CUT: i32 = 4;
    TOO_LONG: i32 = 5;
    WRONG_SIZE: i32 = 6;
    UNKNOWN_KIND: i32 = 7;
    WRONG_OPERAND: i32 = 8;
    WRONG_REFERENCE: i32 = 9;
    NOT_USED_ONCE: i32 = 10;
    LAST_NOT_COMMAND: i32 = 11;
    WRONG_MEMORY: i32 = 12;
    NO_ROOM_FOR_ARROWS: i32 = 13;
    NO_SUCH_NODE: i32 = 14;
    NO_SUCH_ARROW: i32 = 15;
    NOT_WHOLE_RECORDS: i32 = 16;
    WRONG_RECORD: i32 = 17;
    NO_ROOM_FOR_RECORD: i32 = 18;
    LOOSE_JUMP: i32 = 20;
    WRONG_CLASS: i32 = 23;
    WRONG_MARK: i32 = 24;

    // Lists.
    NO_LIST: i64 = 0;
    START_LIST: i64 = 1;
    SHEET: i64 = 2;

    /// Of a set of signs, minus.
    MINUS: u8 = 1;
    /// Of a set of signs, zero.
    ZERO: u8 = 2;
    /// Of a set of signs, plus.
    PLUS: u8 = 4;

    // The graphs of a program.
    UNNAMED_GRAPH: u32 = 0;
    NONDETERMINISTIC_GRAPH: u32 = 1;
    DETERMINISTIC_GRAPH: u32 = 2;

    // Each call's row: its length, its places, and its answers.
    VALIDATE_ROW: usize = 3;

    PARTS_ROW: usize = 6;
    PARTS_PROGRAM_LENGTH: usize = 3;
    PARTS_START: usize = 4;
    PARTS_START_LENGTH: usize = 5;

    DRAW_ROW: usize = 5;
    DRAW_NODES: usize = 3;
    DRAW_ARROWS: usize = 4;
    ACTION_COMMAND: u8 = 1;
    ACTION_BOOLEAN: u8 = 2;
    ACTION_EXIT: u8 = 3;
    ACTION_GUARD: u8 = 4;

    STEP_ROW: usize = 5;
    STEP_NODE: usize = 3;
    STEP_COUNT: usize = 4;
    TAKEN: i64 = 0;
    CONDITION_FALSE: i64 = 31;
    DIVISOR_ZERO: i64 = 32;
    EXPONENT_NEGATIVE: i64 = 33;
    INDEX_BELOW_ZERO: i64 = 34;
    INDEX_PAST_SIZE: i64 = 35;
    OUT_OF_RANGE: i64 = 36;

    RUN_ROW: usize = 5;
    RUN_NODE: usize = 3;
    RUN_COUNT: usize = 4;
    ARRIVED: i64 = 0;
    BUDGET_USED_UP: i64 = 1;
    NO_ARROW_DEFINED: i64 = 2;

    JUDGE_ROW: usize = 10;
    JUDGE_RECORD: usize = 3;
    JUDGE_ARROW: usize = 4;
    JUDGE_OFFSET: usize = 5;
    JUDGE_LENGTH: usize = 6;
    JUDGE_MARK: usize = 7;
    JUDGE_MARK_RECORD: usize = 8;
    JUDGE_MARK_ARROW: usize = 9;
    ACCEPTED: i64 = 0;
    START_MISSING: i64 = 41;
    RESULT_MISSING: i64 = 42;
    CLEAN: i64 = 1;
    UNCLEAN: i64 = 2;

    MARK_ROW: usize = 5;
    MARK_RECORD: usize = 3;
    MARK_ARROW: usize = 4;

    SOLVE_ROW: usize = 4;
    SOLVE_RECORDS: usize = 3;

    SPLIT_ROW: usize = 5;
    SPLIT_RECORD: usize = 3;
    SPLIT_COLUMN: usize = 4;

    FIGURES_ROW: usize = 10;
    FIGURES_COUNT: usize = 3;
    FIGURES_SUM: usize = 4;
    FIGURES_SQUARES: usize = 5;
    FIGURES_MEAN: usize = 6;
    FIGURES_MEAN_OVER: usize = 7;
    FIGURES_VARIANCE: usize = 8;
    FIGURES_VARIANCE_OVER: usize = 9;
}

#[cfg(test)]
mod tests {
    use super::*;
    use std::collections::BTreeMap;

    const HEADER: &str = include_str!("../../../include/pizwoter.h");

    /// Every `#define` of the header that has a number.
    fn defined() -> BTreeMap<&'static str, i64> {
        let lines = HEADER.lines().filter_map(|line| line.strip_prefix("#define PIZWOTER_"));
        let words = lines.map(|line| line.split_whitespace().collect::<Vec<_>>()).filter(|words| words.len() > 1);
        words.map(|words| (words[0], words[1].trim_matches(['(', ')']).parse().unwrap())).collect()
    }

    #[test]
    fn every_number_is_the_header_s() {
        let ours: BTreeMap<&str, i64> = ALL.iter().copied().collect();
        assert_eq!(ours.len(), ALL.len());
        assert_eq!(ours, defined());
        // All but the guard against a second inclusion.
        assert_eq!(ours.len(), HEADER.matches("#define ").count() - 1);
    }

    #[test]
    fn the_library_has_the_header_s_version() {
        assert_eq!(crate::version(), VERSION);
    }

    #[test]
    fn the_longest_row_is_the_reply() {
        let rows = ALL.iter().filter(|(name, _)| name.ends_with("_ROW"));
        assert_eq!(rows.map(|&(_, length)| length).max(), Some(REPLY as i64));
    }
}
