//! Document 01, "The step": values, truth, and what an action does.

use super::*;

/// Why an action is undefined.
pub type Reason = u32;

pub const CONDITION_FALSE: Reason = 31;
pub const DIVISOR_ZERO: Reason = 32;
pub const EXPONENT_NEGATIVE: Reason = 33;
pub const INDEX_BELOW_ZERO: Reason = 34;
pub const INDEX_PAST_SIZE: Reason = 35;
pub const OUT_OF_RANGE: Reason = 36;

/// "36 exact result outside the range."
fn in_range(exact: i64) -> Result<i32, Reason> {
    i32::try_from(exact).map_err(|_| OUT_OF_RANGE)
}

/// "Any number to the power 0 is 1, 0 included."
fn power(base: i64, exponent: i64) -> Result<i32, Reason> {
    if exponent < 0 {
        return Err(EXPONENT_NEGATIVE);
    }
    match base {
        0 | 1 => in_range(if exponent == 0 { 1 } else { base }),
        -1 => in_range(if exponent % 2 == 0 { 1 } else { -1 }),
        _ => {
            let mut product: i64 = 1;
            for _ in 0..exponent {
                product *= base;
                // Each factor at least doubles it: from here it never comes back.
                if product.abs() > 1 << 31 {
                    return Err(OUT_OF_RANGE);
                }
            }
            in_range(product)
        }
    }
}

/// The arithmetic kinds 3 to 7.
pub fn operate(kind: u8, left: i32, right: i32) -> Result<i32, Reason> {
    let (left, right) = (i64::from(left), i64::from(right));
    match kind {
        3 => in_range(left + right),
        4 => in_range(left - right),
        5 => in_range(left * right),
        6 if right == 0 => Err(DIVISOR_ZERO),
        // "Division drops the fraction, so -7 / 2 is -3": as Rust's does.
        6 => in_range(left / right),
        7 => power(left, right),
        _ => unreachable!(),
    }
}

/// The number of an arithmetic entry of kind 0: "P and Q together, 32-bit two's complement".
pub fn number_of(p: u16, q: u16) -> i32 {
    (u32::from(p) << 16 | u32::from(q)) as i32
}

/// A script that passed questions 1 to 11 and 20, with one of its two graphs and with the first cell of each name.
pub struct Lesson {
    pub script: Script,
    pub graph: Graph,
    pub first: Vec<usize>,
    pub cells: usize,
    /// The numbers of the arrows that leave each node.
    leaving: Vec<Vec<usize>>,
}

impl Lesson {
    pub fn of(script: Script, construction: Construction) -> Lesson {
        let graph = Graph::of(&script, construction);
        let mut first = Vec::new();
        let mut cells = 0;
        for &size in &script.names {
            first.push(cells);
            // "One cell for a variable and one per element, in name order."
            cells += usize::from(size.max(1));
        }
        let mut leaving = vec![Vec::new(); usize::from(graph.nodes)];
        for (k, arrow) in graph.arrows.iter().enumerate() {
            leaving[usize::from(arrow.from)].push(k);
        }
        Lesson { script, graph, first, cells, leaving }
    }

    pub fn names(&self) -> usize {
        self.script.names.len()
    }

    /// The arrows that leave a node of the graph, with their numbers.
    pub fn leaving(&self, node: u16) -> impl Iterator<Item = (usize, &Arrow)> + '_ {
        self.leaving[usize::from(node)].iter().map(|&k| (k, &self.graph.arrows[k]))
    }

    pub fn arithmetic(&self, n: u16) -> Entry {
        self.script.tables[ARITHMETIC][usize::from(n)]
    }

    pub fn boolean(&self, n: u16) -> Entry {
        self.script.tables[BOOLEAN][usize::from(n)]
    }

    pub fn command(&self, n: u16) -> Entry {
        self.script.tables[COMMANDS][usize::from(n)]
    }

    fn variable(&self, name: u16) -> usize {
        self.first[usize::from(name)]
    }

    fn element(&self, array: u16, index: i32) -> Result<usize, Reason> {
        if index < 0 {
            return Err(INDEX_BELOW_ZERO);
        }
        if index >= i32::from(self.script.names[usize::from(array)]) {
            return Err(INDEX_PAST_SIZE);
        }
        Ok(self.first[usize::from(array)] + index as usize)
    }

    /// "Left is worked out before right, operands before their operator."
    fn value(&self, n: u16, memory: &[i32]) -> Result<i32, Reason> {
        let e = self.arithmetic(n);
        let [p, q, _] = e.operands;
        match e.kind {
            0 => Ok(number_of(p, q)),
            1 => Ok(memory[self.variable(p)]),
            2 => {
                let index = self.value(q, memory)?;
                Ok(memory[self.element(p, index)?])
            }
            _ => {
                let left = self.value(p, memory)?;
                let right = self.value(q, memory)?;
                operate(e.kind, left, right)
            }
        }
    }

    fn truth(&self, n: u16, memory: &[i32]) -> Result<bool, Reason> {
        let e = self.boolean(n);
        let [p, q, _] = e.operands;
        match e.kind {
            0 => Ok(true),
            1..=3 => {
                let left = self.value(p, memory)?;
                let right = self.value(q, memory)?;
                Ok(match e.kind {
                    1 => left == right,
                    2 => left > right,
                    _ => left >= right,
                })
            }
            // "∧ needs both sides; && needs the right side only where the left is true."
            4 => {
                let left = self.truth(p, memory)?;
                let right = self.truth(q, memory)?;
                Ok(left && right)
            }
            5 => {
                if self.truth(p, memory)? {
                    self.truth(q, memory)
                } else {
                    Ok(false)
                }
            }
            _ => Ok(!self.truth(p, memory)?),
        }
    }

    /// "The exit action is ¬b of every guard of the loop, joined by ∧ left to right."
    fn all_fail(&self, guarded: u16, memory: &[i32]) -> Result<bool, Reason> {
        let e = self.command(guarded);
        let [p, q, _] = e.operands;
        if e.kind == 6 {
            return Ok(!self.truth(p, memory)?);
        }
        let left = self.all_fail(p, memory)?;
        let right = self.all_fail(q, memory)?;
        Ok(left && right)
    }

    /// "That guard and the falsehood of all earlier guards, all evaluated in text order, its own last, undefined if any of these is": the later ones are worked
    /// out even where an earlier one is true.
    fn first_to_hold(&self, earlier: &[u16], own: u16, memory: &[i32]) -> Result<bool, Reason> {
        let mut none_before = true;
        for &b in earlier {
            let holds = self.truth(b, memory)?;
            none_before = none_before && !holds;
        }
        let own = self.truth(own, memory)?;
        Ok(none_before && own)
    }

    /// What an arrow's action stores, if anything: a cell and its value.
    pub fn effect(&self, arrow: &Arrow, memory: &[i32]) -> Result<Option<(usize, i32)>, Reason> {
        let holds = match &arrow.action {
            Action::Command(n) => return self.command_effect(*n, memory),
            Action::Condition(b) => self.truth(*b, memory)?,
            Action::Exit(guarded) => self.all_fail(*guarded, memory)?,
            Action::Guard { earlier, own, .. } => self.first_to_hold(earlier, *own, memory)?,
        };
        if holds {
            Ok(None)
        } else {
            Err(CONDITION_FALSE)
        }
    }

    fn command_effect(&self, n: u16, memory: &[i32]) -> Result<Option<(usize, i32)>, Reason> {
        let e = self.command(n);
        let [p, q, r] = e.operands;
        match e.kind {
            // A break or a continue "acts as skip".
            0 | BREAK | CONTINUE => Ok(None),
            1 => Ok(Some((self.variable(p), self.value(q, memory)?))),
            // "A store works out its index, tests 34 and 35, then its value."
            2 => {
                let index = self.value(q, memory)?;
                let cell = self.element(p, index)?;
                Ok(Some((cell, self.value(r, memory)?)))
            }
            _ => unreachable!(),
        }
    }
}

/// A file's bytes with what questions 1 to 11 and 20 say of them. Every entry point asks these first: here they are asked once, and both graphs are drawn.
pub struct Loaded {
    pub bytes: Vec<u8>,
    lessons: Result<[Lesson; 2], No>,
}

impl Loaded {
    pub fn of(bytes: &[u8]) -> Loaded {
        let lessons = read(bytes, 4).map(|script| CONSTRUCTIONS.map(|construction| Lesson::of(script.clone(), construction)));
        Loaded { bytes: bytes.to_vec(), lessons }
    }

    /// The lesson with the graph of a construction.
    pub fn on(&self, construction: Construction) -> Result<&Lesson, No> {
        self.lessons.as_ref().map(|lessons| &lessons[construction as usize]).map_err(|no| *no)
    }

    /// The lesson, for what is the same on both graphs: the script, nodes and numbers of arrows, cells, widths.
    pub fn lesson(&self) -> Result<&Lesson, No> {
        self.on(Nondeterministic)
    }

    /// The lesson of a file that is known to be fit, for what is the same on both graphs.
    pub fn fit(&self) -> &Lesson {
        self.lesson().ok().expect("a fit file")
    }

    pub fn fit_on(&self, construction: Construction) -> &Lesson {
        self.on(construction).ok().expect("a fit file")
    }
}
