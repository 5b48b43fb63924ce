//! Document 01, "Signs": sign sets, the five grids, truth answers.

use std::cmp::Ordering;

/// "A sign set adds 1 for minus, 2 for zero, 4 for plus."
pub type Set = u8;

pub const MINUS: Set = 1;
pub const ZERO: Set = 2;
pub const PLUS: Set = 4;
pub const NONE: Set = 0;

/// The signs of a set, minus first.
pub fn signs(set: Set) -> impl Iterator<Item = Set> {
    [MINUS, ZERO, PLUS].into_iter().filter(move |sign| set & sign != 0)
}

pub fn sign(z: i32) -> Set {
    match z.cmp(&0) {
        Ordering::Less => MINUS,
        Ordering::Equal => ZERO,
        Ordering::Greater => PLUS,
    }
}

/// A sign's row and column in the grids, which is also its place in the order of numbers.
fn rank(sign: Set) -> usize {
    sign.trailing_zeros() as usize
}

/// The arithmetic kinds 3 to 7. "Rows minus, zero, plus are the left side; columns likewise."
const GRIDS: [[[Set; 3]; 3]; 5] = [
    [[1, 1, 7], [1, 2, 4], [7, 4, 4]],
    [[7, 1, 1], [4, 2, 1], [4, 4, 7]],
    [[4, 2, 1], [2, 2, 2], [1, 2, 4]],
    [[6, 0, 3], [2, 0, 2], [3, 0, 6]],
    [[0, 4, 5], [0, 4, 2], [0, 4, 4]],
];

/// "On sets the union over all pairs."
pub fn operate_sets(kind: u8, left: Set, right: Set) -> Set {
    let grid = GRIDS[usize::from(kind) - 3];
    let mut set = NONE;
    for l in signs(left) {
        for r in signs(right) {
            set |= grid[rank(l)][rank(r)];
        }
    }
    set
}

/// The truth answers that a condition can have.
#[derive(Clone, Copy, PartialEq, Debug)]
pub struct Answers {
    pub yes: bool,
    pub no: bool,
}

pub const NEITHER: Answers = Answers { yes: false, no: false };

impl Answers {
    pub fn with(self, answer: bool) -> Answers {
        Answers { yes: self.yes || answer, no: self.no || !answer }
    }

    fn each(self) -> impl Iterator<Item = bool> {
        [true, false].into_iter().filter(move |&answer| if answer { self.yes } else { self.no })
    }

    /// "¬ exchanges the answers."
    pub fn not(self) -> Answers {
        Answers { yes: self.no, no: self.yes }
    }

    /// "∧ combines all pairs."
    pub fn and(self, right: Answers) -> Answers {
        let mut answers = NEITHER;
        for l in self.each() {
            for r in right.each() {
                answers = answers.with(l && r);
            }
        }
        answers
    }

    /// "&& gives false if the left may be false, and the right's answers if the left may be true."
    pub fn and_then(self, right: Answers) -> Answers {
        let mut answers = NEITHER;
        if self.no {
            answers = answers.with(false);
        }
        if self.yes {
            for r in right.each() {
                answers = answers.with(r);
            }
        }
        answers
    }
}

/// How two numbers of given signs can stand to one another.
fn orders(left: Set, right: Set) -> &'static [Ordering] {
    match rank(left).cmp(&rank(right)) {
        Ordering::Equal if left != ZERO => &[Ordering::Less, Ordering::Equal, Ordering::Greater],
        Ordering::Less => &[Ordering::Less],
        Ordering::Equal => &[Ordering::Equal],
        Ordering::Greater => &[Ordering::Greater],
    }
}

/// "A comparison gives the truth answers that its pairs of signs can have": the boolean kinds 1 to 3.
pub fn compare_sets(kind: u8, left: Set, right: Set) -> Answers {
    let mut answers = NEITHER;
    for l in signs(left) {
        for r in signs(right) {
            for &order in orders(l, r) {
                answers = answers.with(match kind {
                    1 => order == Ordering::Equal,
                    2 => order == Ordering::Greater,
                    _ => order != Ordering::Less,
                });
            }
        }
    }
    answers
}
