//! What the calls answer.

use crate::numbers::*;

/// The two lists of records that a judgement reads.
#[derive(Clone, Copy, Debug, PartialEq, Eq, Hash)]
pub enum List {
    Start,
    Sheet,
}

/// A question of document 01 or 02, by its number.
#[derive(Clone, Copy, Debug, PartialEq, Eq, Hash)]
#[non_exhaustive]
#[repr(i32)]
pub enum Question {
    /// 1: are three bytes left for a field's head?
    Head = NO_HEAD,
    /// 2: is the tag the one due?
    Tag = WRONG_TAG,
    /// 3: is the length whole entries, as many as allowed?
    Length = WRONG_LENGTH,
    /// 4: is all the content there?
    Content = CONTENT_CUT,
    /// 5: does the file end after its last field?
    End = TOO_LONG,
    /// 6: is a name's size 0 to 64, and the cell total so far at most 512?
    Size = WRONG_SIZE,
    /// 7: is the kind of an entry known?
    Kind = UNKNOWN_KIND,
    /// 8: are unused operands zero, and is a named name there and of the right sort?
    Operand = WRONG_OPERAND,
    /// 9: do all references point as they should?
    Reference = WRONG_REFERENCE,
    /// 10: is each entry but the last command used once?
    UsedOnce = NOT_USED_ONCE,
    /// 11: is the last entry a command?
    LastIsCommand = LAST_NOT_COMMAND,
    /// 12: has the memory as many cells as the program?
    Memory = WRONG_MEMORY,
    /// 13: does the buffer hold all arrows?
    RoomForArrows = NO_ROOM_FOR_ARROWS,
    /// 14: is the node in the graph?
    Node = NO_SUCH_NODE,
    /// 15: does the arrow exist and leave the node?
    Arrow = NO_SUCH_ARROW,
    /// 16: are start list and sheet each whole records, at most 4,096?
    WholeRecords = NOT_WHOLE_RECORDS,
    /// 17: is every record well formed, start list first?
    Record = WRONG_RECORD,
    /// 18: is there room for the solver's next record? See [`Unsolved::NoRoom`].
    RoomForRecord = NO_ROOM_FOR_RECORD,
    /// 20: is every break and continue inside a do? Asked after 11.
    JumpInDo = LOOSE_JUMP,
    /// 23: has the class marks, at most 4,096, and are the totals of two classes to be joined within their limits?
    Class = WRONG_CLASS,
    /// 24: is every mark from -10,000 to 10,000?
    Mark = WRONG_MARK,
}

impl Question {
    /// In the order of their numbers.
    pub const ALL: [Question; 21] = [
        Question::Head,
        Question::Tag,
        Question::Length,
        Question::Content,
        Question::End,
        Question::Size,
        Question::Kind,
        Question::Operand,
        Question::Reference,
        Question::UsedOnce,
        Question::LastIsCommand,
        Question::Memory,
        Question::RoomForArrows,
        Question::Node,
        Question::Arrow,
        Question::WholeRecords,
        Question::Record,
        Question::RoomForRecord,
        Question::JumpInDo,
        Question::Class,
        Question::Mark,
    ];

    /// The question with a number, if there is one.
    pub fn numbered(number: u32) -> Option<Question> {
        Question::ALL.into_iter().find(|question| question.number() == number)
    }

    /// Its number in document 01 or 02.
    pub fn number(self) -> u32 {
        self as u32
    }
}

/// Where a question is answered no.
#[derive(Clone, Copy, Debug, PartialEq, Eq, Hash)]
pub enum Place {
    /// Questions 12 to 16, 18 and 23 have no place.
    None,
    /// Questions 1 to 11 and 20: a byte of the program file, or of the input.
    Byte(usize),
    /// Question 17: a byte of a list, counted from the list's first.
    InList(List, usize),
    /// Question 24: the number of a mark in its list, from 0.
    Mark(usize),
}

/// A call is refused: a question is answered no, at a place. No buffer and no memory has changed.
#[derive(Clone, Copy, Debug, PartialEq, Eq, Hash)]
pub struct Refusal {
    pub question: Question,
    pub place: Place,
}

/// Why a step is undefined.
#[derive(Clone, Copy, Debug, PartialEq, Eq, Hash)]
#[repr(u8)]
pub enum Reason {
    ConditionFalse = CONDITION_FALSE as u8,
    DivisorZero = DIVISOR_ZERO as u8,
    ExponentNegative = EXPONENT_NEGATIVE as u8,
    IndexBelowZero = INDEX_BELOW_ZERO as u8,
    IndexPastSize = INDEX_PAST_SIZE as u8,
    OutOfRange = OUT_OF_RANGE as u8,
}

impl Reason {
    /// Document 01's number: 31 to 36.
    pub fn number(self) -> u32 {
        self as u32
    }
}

/// Which graph of a program a call works on. Both have the same nodes and arrows; only what a guard's arrow does is not the same.
#[derive(Clone, Copy, Debug, PartialEq, Eq, Hash)]
#[repr(u32)]
pub enum Construction {
    /// Document 01's: a guard's arrow passes where its guard is true, so that several arrows out of a node may be defined at once.
    Nondeterministic = NONDETERMINISTIC_GRAPH,
    /// Document 02's, order 8: it passes where its guard is true and all earlier guards of the same if or do are false. The earlier ones are worked out in text order
    /// and its own last, each of them whatever the others are; the first that is undefined gives the reason. At most one arrow out of a node is defined, in any memory.
    Deterministic = DETERMINISTIC_GRAPH,
}

impl Construction {
    /// Its number in the C library.
    pub fn number(self) -> u32 {
        self as u32
    }
}

/// The graph's counts.
#[derive(Clone, Copy, Debug, PartialEq, Eq)]
pub struct Drawn {
    pub nodes: usize,
    pub arrows: usize,
}

/// What an arrow does.
#[derive(Clone, Copy, Debug, PartialEq, Eq, Hash)]
pub enum Action {
    /// The command of that entry: skip, an assignment, a store, or a break or continue, which act as skip.
    Command(u16),
    /// The condition of that boolean entry.
    Condition(u16),
    /// The exit of the do whose operand is that command entry.
    Exit(u16),
    /// The guard of that guarded command entry (kind 6), after the [earlier ones](Graph::earlier_guards): every guard's arrow of the deterministic graph.
    Guard(u16),
}

/// An arrow of a program graph.
#[derive(Clone, Copy, Debug, PartialEq, Eq, Hash)]
pub struct Arrow {
    pub from: u16,
    pub to: u16,
    pub action: Action,
}

/// A program graph: node 0 is the start, node 1 the end.
#[derive(Clone, Debug, PartialEq, Eq)]
pub struct Graph {
    pub nodes: usize,
    pub arrows: Vec<Arrow>,
}

impl Graph {
    /// The guarded entries of the guards that come before an arrow's in the same if or do, in text order; none where the arrow is not an [`Action::Guard`].
    pub fn earlier_guards(&self, arrow: usize) -> Vec<u16> {
        let Some(Arrow { from, action: Action::Guard(_), .. }) = self.arrows.get(arrow) else {
            return Vec::new();
        };
        // No two ifs or dos begin at one node.
        let lower = self.arrows[..arrow].iter().filter(|lower| lower.from == *from);
        lower.filter_map(|lower| if let Action::Guard(entry) = lower.action { Some(entry) } else { None }).collect()
    }
}

/// A run: the node that it is at, and how many arrows it has taken, which stays at 65,535. The memory is beside it. A run belongs to neither graph.
#[derive(Clone, Copy, Debug, Default, PartialEq, Eq, Hash)]
pub struct Run {
    pub node: u16,
    pub count: u16,
}

/// What a step answers. Only a step that is taken changes the memory or the run.
#[derive(Clone, Copy, Debug, PartialEq, Eq, Hash)]
pub enum Outcome {
    Taken,
    Undefined(Reason),
}

/// A step's answer, and the run afterwards: as it was where the step is undefined.
#[derive(Clone, Copy, Debug, PartialEq, Eq)]
pub struct Stepped {
    pub outcome: Outcome,
    pub run: Run,
}

/// How a budgeted run ends.
#[derive(Clone, Copy, Debug, PartialEq, Eq, Hash)]
pub enum Ending {
    /// At node 1.
    Arrived,
    /// With its budget used up.
    Spent,
    /// Where no arrow is defined.
    Stuck,
}

/// A budgeted run's ending, and the run there.
#[derive(Clone, Copy, Debug, PartialEq, Eq)]
pub struct Ended {
    pub ending: Ending,
    pub run: Run,
}

/// A sheet's index mark: clean, or the lowest record and then its lowest arrow with an index that may be below zero.
#[derive(Clone, Copy, Debug, PartialEq, Eq, Hash)]
pub enum Mark {
    Clean,
    At { record: usize, arrow: usize },
}

/// The verdict on a sheet. The offending record is a part of the list that it lies in.
///
/// What [`Verdict::Accepted`] means is proved. It is about the graph that the sheet was judged on, and steps and runs on that one. Take any memory whose signs are in
/// the start list. Whatever steps are called on it from [`Run::FRESH`], refused and undefined ones among them, the sheet has a record with the node that is then
/// reached and exactly the memory's signs there; the same of where [`run_on`](crate::run_on) ends, with any budget. And where the mark is clean, no step that is called
/// is undefined for [`Reason::IndexBelowZero`], and no arrow out of the node then reached is, taken or not; nor is any arrow out of the node where
/// [`run_on`](crate::run_on) ends.
#[derive(Clone, Copy, Debug, PartialEq, Eq)]
pub enum Verdict<'a> {
    /// 41: that record of the start list is missing at node 0; the first such.
    StartMissing {
        record: usize,
        offending: &'a [u8],
    },
    /// 42: a result of that arrow from that record of the sheet is missing at the arrow's target; the lowest record, then its lowest arrow.
    ResultMissing {
        record: usize,
        arrow: usize,
        offending: &'a [u8],
    },
    Accepted(Mark),
}

impl<'a> Verdict<'a> {
    /// The offending record, as a part of the start list or of the sheet; none where the sheet is accepted.
    pub fn offending(&self) -> Option<(List, &'a [u8])> {
        match *self {
            Verdict::StartMissing { offending, .. } => Some((List::Start, offending)),
            Verdict::ResultMissing { offending, .. } => Some((List::Sheet, offending)),
            Verdict::Accepted(_) => None,
        }
    }

    pub fn is_accepted(&self) -> bool {
        matches!(self, Verdict::Accepted(_))
    }
}

/// Why the solver did not finish.
#[derive(Clone, Copy, Debug, PartialEq, Eq)]
pub enum Unsolved {
    Refused(Refusal),
    /// 18: there was no room for the next record. The buffer holds so many leading ones.
    NoRoom {
        records: usize,
    },
}

/// The two parts of the sheet program's input.
#[derive(Clone, Copy, Debug, PartialEq, Eq)]
pub struct Input<'a> {
    pub program: &'a [u8],
    pub start: &'a [u8],
}

/// A byte place of a sheet: its record, and the column in that.
#[derive(Clone, Copy, Debug, PartialEq, Eq, Hash)]
pub struct Split {
    pub record: u32,
    pub column: u32,
}

/// A class's totals: the number of its marks, their sum, and the sum of their squares.
#[derive(Clone, Copy, Debug, Default, PartialEq, Eq, Hash)]
pub struct Totals {
    pub count: u32,
    pub sum: i64,
    pub squares: i64,
}

/// A fraction in lowest terms: the denominator is positive, and zero is 0 over 1.
#[derive(Clone, Copy, Debug, PartialEq, Eq, Hash)]
pub struct Fraction {
    pub numerator: i64,
    pub denominator: i64,
}

/// The figures of a class, without rounding. The mean is the sum over the number of marks; the variance is the number times the sum of squares, less the square
/// of the sum, over the number squared.
#[derive(Clone, Copy, Debug, PartialEq, Eq, Hash)]
pub struct Figures {
    pub totals: Totals,
    pub mean: Fraction,
    pub variance: Fraction,
}
