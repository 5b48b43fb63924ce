//! Answers in words, and which of them are errors.

use crate::{Action, Construction, Ending, Fraction, List, Mark, Outcome, Place, Question, Reason, Refusal, Unsolved, Verdict};
use std::error::Error;
use std::fmt::{Display, Formatter, Result};

impl Display for List {
    fn fmt(&self, f: &mut Formatter) -> Result {
        f.write_str(match self {
            List::Start => "start list",
            List::Sheet => "sheet",
        })
    }
}

/// What is so where the question is answered no.
impl Display for Question {
    fn fmt(&self, f: &mut Formatter) -> Result {
        f.write_str(match self {
            Question::Head => "fewer than three bytes are left for a field's head",
            Question::Tag => "a field's tag is not the one due",
            Question::Length => "a field's length is not whole entries, as many as allowed",
            Question::Content => "not all of a field's content is there",
            Question::End => "there are bytes after the last field",
            Question::Size => "a name's size is above 64, or there are more than 512 cells",
            Question::Kind => "the kind of an entry is not known",
            Question::Operand => "an unused operand is not zero, or a name is not there or of the wrong sort",
            Question::Reference => "a reference does not point to a lower or earlier entry of its sort",
            Question::UsedOnce => "an entry is never used, or more than once",
            Question::LastIsCommand => "the last command entry is a guarded command",
            Question::Memory => "the memory has not as many cells as the program",
            Question::RoomForArrows => "the buffer does not hold all arrows",
            Question::Node => "the node is not in the graph",
            Question::Arrow => "the arrow does not exist, or does not leave the node",
            Question::WholeRecords => "the start list or the sheet is not whole records, at most 4,096",
            Question::Record => "a byte of a record is wrong",
            Question::RoomForRecord => "there is no room for the solver's next record",
            Question::JumpInDo => "a break or continue is outside every do",
            Question::Class => "there is no mark or there are more than 4,096, or totals are beyond their limits",
            Question::Mark => "a mark is not from -10,000 to 10,000",
        })
    }
}

impl Display for Refusal {
    fn fmt(&self, f: &mut Formatter) -> Result {
        write!(f, "{} (question {}", self.question, self.question.number())?;
        match self.place {
            Place::None => write!(f, ")"),
            Place::Byte(place) => write!(f, ", byte {place})"),
            Place::InList(list, place) => write!(f, ", byte {place} of the {list})"),
            Place::Mark(place) => write!(f, ", mark {place})"),
        }
    }
}

impl Error for Refusal {}

impl Display for Unsolved {
    fn fmt(&self, f: &mut Formatter) -> Result {
        match self {
            Unsolved::Refused(refusal) => refusal.fmt(f),
            Unsolved::NoRoom { records } => write!(f, "there is no room for the solver's next record after {records} (question 18)"),
        }
    }
}

impl Error for Unsolved {}

impl From<Refusal> for Unsolved {
    fn from(refusal: Refusal) -> Unsolved {
        Unsolved::Refused(refusal)
    }
}

impl Display for Construction {
    fn fmt(&self, f: &mut Formatter) -> Result {
        f.write_str(match self {
            Construction::Nondeterministic => "nondeterministic",
            Construction::Deterministic => "deterministic",
        })
    }
}

impl Display for Action {
    fn fmt(&self, f: &mut Formatter) -> Result {
        match self {
            Action::Command(entry) => write!(f, "command {entry}"),
            Action::Condition(entry) => write!(f, "condition {entry}"),
            Action::Exit(entry) => write!(f, "exit of {entry}"),
            Action::Guard(entry) => write!(f, "guard of {entry} after the earlier ones"),
        }
    }
}

impl Display for Reason {
    fn fmt(&self, f: &mut Formatter) -> Result {
        f.write_str(match self {
            Reason::ConditionFalse => "the condition is false",
            Reason::DivisorZero => "a divisor is zero",
            Reason::ExponentNegative => "an exponent is negative",
            Reason::IndexBelowZero => "an index is below zero",
            Reason::IndexPastSize => "an index is at or past the size",
            Reason::OutOfRange => "a result is outside the range",
        })
    }
}

impl Error for Reason {}

impl Display for Outcome {
    fn fmt(&self, f: &mut Formatter) -> Result {
        match self {
            Outcome::Taken => f.write_str("taken"),
            Outcome::Undefined(reason) => write!(f, "undefined: {reason}"),
        }
    }
}

impl Display for Ending {
    fn fmt(&self, f: &mut Formatter) -> Result {
        f.write_str(match self {
            Ending::Arrived => "arrived",
            Ending::Spent => "the budget is used up",
            Ending::Stuck => "no arrow is defined",
        })
    }
}

impl Display for Mark {
    fn fmt(&self, f: &mut Formatter) -> Result {
        match self {
            Mark::Clean => f.write_str("index clean"),
            Mark::At { record, arrow } => write!(f, "an index may be below zero at record {record}, arrow {arrow}"),
        }
    }
}

impl Display for Verdict<'_> {
    fn fmt(&self, f: &mut Formatter) -> Result {
        match self {
            Verdict::StartMissing { record, .. } => write!(f, "start record {record} is missing at node 0"),
            Verdict::ResultMissing { record, arrow, .. } => write!(f, "a result of arrow {arrow} from record {record} is missing at the arrow's target"),
            Verdict::Accepted(Mark::Clean) => f.write_str("accepted, index clean"),
            Verdict::Accepted(mark) => write!(f, "accepted, but {mark}"),
        }
    }
}

impl Display for Fraction {
    fn fmt(&self, f: &mut Formatter) -> Result {
        write!(f, "{}/{}", self.numerator, self.denominator)
    }
}

#[cfg(test)]
mod tests {
    use super::*;

    #[test]
    fn answers_have_words() {
        let refused = |question, place| Refusal { question, place };
        let words: [(&dyn Display, &str); 18] = [
            (&refused(Question::Tag, Place::Byte(8)), "a field's tag is not the one due (question 2, byte 8)"),
            (&refused(Question::JumpInDo, Place::Byte(14)), "a break or continue is outside every do (question 20, byte 14)"),
            (&refused(Question::Memory, Place::None), "the memory has not as many cells as the program (question 12)"),
            (&refused(Question::Record, Place::InList(List::Sheet, 5)), "a byte of a record is wrong (question 17, byte 5 of the sheet)"),
            (&refused(Question::Mark, Place::Mark(1)), "a mark is not from -10,000 to 10,000 (question 24, mark 1)"),
            (&Unsolved::NoRoom { records: 3 }, "there is no room for the solver's next record after 3 (question 18)"),
            (&Construction::Deterministic, "deterministic"),
            (&Action::Command(0), "command 0"),
            (&Action::Exit(4), "exit of 4"),
            (&Action::Guard(4), "guard of 4 after the earlier ones"),
            (&Outcome::Taken, "taken"),
            (&Outcome::Undefined(Reason::DivisorZero), "undefined: a divisor is zero"),
            (&Ending::Spent, "the budget is used up"),
            (&Mark::At { record: 4, arrow: 2 }, "an index may be below zero at record 4, arrow 2"),
            (&Verdict::Accepted(Mark::Clean), "accepted, index clean"),
            (&Verdict::Accepted(Mark::At { record: 4, arrow: 2 }), "accepted, but an index may be below zero at record 4, arrow 2"),
            (&Verdict::StartMissing { record: 1, offending: &[4, 2] }, "start record 1 is missing at node 0"),
            (&Verdict::ResultMissing { record: 5, arrow: 4, offending: &[0, 2, 2, 4] }, "a result of arrow 4 from record 5 is missing at the arrow's target"),
        ];
        for (answer, expected) in words {
            assert_eq!(answer.to_string(), expected);
        }
    }

    /// A refusal goes through `?` into any error.
    #[test]
    fn a_refusal_is_an_error() {
        fn marks(list: &[i32]) -> std::result::Result<Fraction, Box<dyn Error>> {
            Ok(crate::figures(list)?.mean)
        }
        assert_eq!(marks(&[3, 4, 4]).unwrap().to_string(), "11/3");
        let class = "there is no mark or there are more than 4,096, or totals are beyond their limits (question 23)";
        assert_eq!(marks(&[]).unwrap_err().to_string(), class);
    }

    /// Every question has words of its own, and its number.
    #[test]
    fn questions_have_words_and_numbers() {
        let words: std::collections::HashSet<String> = Question::ALL.iter().map(Question::to_string).collect();
        assert_eq!(words.len(), Question::ALL.len());
        assert_eq!(Question::ALL.map(Question::number).to_vec(), [(1..=18).collect::<Vec<_>>(), vec![20, 23, 24]].concat());
        assert_eq!([0, 19, 21, 22, 25, u32::MAX].map(Question::numbered), [None; 6]);
    }
}
