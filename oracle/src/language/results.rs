//! Document 01, "Signs": what an arrow gives from a record, and the index expressions of its action. A record here is without its node: one byte per name.

use super::*;

/// "A store, if its index may be zero or plus."
fn may_be_index(set: Set) -> bool {
    set & (ZERO | PLUS) != 0
}

/// A record with another byte at one name.
pub fn with(record: &[u8], name: u16, set: Set) -> Vec<u8> {
    let mut changed = record.to_vec();
    changed[usize::from(name)] = set;
    changed
}

impl Lesson {
    /// "A number has its own sign, a variable its recorded one. An element has its array's set if the index set has zero or plus, else the empty set."
    fn set(&self, n: u16, record: &[u8]) -> Set {
        let e = self.arithmetic(n);
        let [p, q, _] = e.operands;
        match e.kind {
            0 => sign(number_of(p, q)),
            1 => record[usize::from(p)],
            2 if may_be_index(self.set(q, record)) => record[usize::from(p)],
            2 => NONE,
            kind => operate_sets(kind, self.set(p, record), self.set(q, record)),
        }
    }

    fn answers(&self, n: u16, record: &[u8]) -> Answers {
        let e = self.boolean(n);
        let [p, q, _] = e.operands;
        match e.kind {
            0 => NEITHER.with(true),
            1..=3 => compare_sets(e.kind, self.set(p, record), self.set(q, record)),
            4 => self.answers(p, record).and(self.answers(q, record)),
            5 => self.answers(p, record).and_then(self.answers(q, record)),
            _ => self.answers(p, record).not(),
        }
    }

    /// The guards of a loop, left to right.
    fn guards(&self, guarded: u16) -> Vec<u16> {
        let e = self.command(guarded);
        let [p, q, _] = e.operands;
        if e.kind == 6 {
            return vec![p];
        }
        [self.guards(p), self.guards(q)].concat()
    }

    /// "The exit action is ¬b of every guard of the loop, joined by ∧ left to right."
    fn exit_answers(&self, guarded: u16, record: &[u8]) -> Answers {
        let failing = self.guards(guarded).into_iter().map(|b| self.answers(b, record).not());
        failing.reduce(Answers::and).unwrap()
    }

    /// Order 8's action of a guard: ¬b of every earlier guard and the guard itself, joined by ∧ left to right.
    fn guard_answers(&self, earlier: &[u16], own: u16, record: &[u8]) -> Answers {
        let own = self.answers(own, record);
        let failing = earlier.iter().map(|&b| self.answers(b, record).not());
        failing.chain([own]).reduce(Answers::and).unwrap()
    }

    /// An arrow's results from a record, in their order.
    pub fn results(&self, arrow: &Arrow, record: &[u8]) -> Vec<Vec<u8>> {
        let answers = match &arrow.action {
            Action::Command(n) => return self.command_results(*n, record),
            Action::Condition(b) => self.answers(*b, record),
            Action::Exit(guarded) => self.exit_answers(*guarded, record),
            Action::Guard { earlier, own, .. } => self.guard_answers(earlier, *own, record),
        };
        if answers.yes {
            vec![record.to_vec()]
        } else {
            Vec::new()
        }
    }

    fn command_results(&self, n: u16, record: &[u8]) -> Vec<Vec<u8>> {
        let e = self.command(n);
        let [p, q, r] = e.operands;
        match e.kind {
            0 | BREAK | CONTINUE => vec![record.to_vec()],
            1 => signs(self.set(q, record)).map(|s| with(record, p, s)).collect(),
            2 if !may_be_index(self.set(q, record)) => Vec::new(),
            2 => {
                let old = record[usize::from(p)];
                let mut results = Vec::new();
                for s in signs(self.set(r, record)) {
                    results.push(with(record, p, old | s));
                    for t in signs(old) {
                        results.push(with(record, p, (old & !t) | s));
                    }
                }
                results
            }
            _ => unreachable!(),
        }
    }

    /// The index expressions inside an arithmetic entry.
    fn arithmetic_indices(&self, n: u16) -> Vec<u16> {
        let e = self.arithmetic(n);
        let [p, q, _] = e.operands;
        match e.kind {
            0 | 1 => Vec::new(),
            2 => [vec![q], self.arithmetic_indices(q)].concat(),
            _ => [self.arithmetic_indices(p), self.arithmetic_indices(q)].concat(),
        }
    }

    fn boolean_indices(&self, n: u16) -> Vec<u16> {
        let e = self.boolean(n);
        let [p, q, _] = e.operands;
        match e.kind {
            0 => Vec::new(),
            1..=3 => [self.arithmetic_indices(p), self.arithmetic_indices(q)].concat(),
            4 | 5 => [self.boolean_indices(p), self.boolean_indices(q)].concat(),
            _ => self.boolean_indices(p),
        }
    }

    /// "An index expression, anywhere in the action": of a guard on the deterministic graph, in the earlier ones too.
    pub fn indices(&self, arrow: &Arrow) -> Vec<u16> {
        let conditions = match &arrow.action {
            Action::Command(n) => return self.command_indices(*n),
            Action::Condition(b) => vec![*b],
            Action::Exit(guarded) => self.guards(*guarded),
            Action::Guard { earlier, own, .. } => [&earlier[..], &[*own]].concat(),
        };
        conditions.into_iter().flat_map(|b| self.boolean_indices(b)).collect()
    }

    fn command_indices(&self, n: u16) -> Vec<u16> {
        let e = self.command(n);
        let [_, q, r] = e.operands;
        match e.kind {
            1 => self.arithmetic_indices(q),
            2 => [vec![q], self.arithmetic_indices(q), self.arithmetic_indices(r)].concat(),
            _ => Vec::new(),
        }
    }

    /// Whether an arrow's action holds an index expression whose set has minus.
    pub fn may_be_below_zero(&self, arrow: &Arrow, record: &[u8]) -> bool {
        self.indices(arrow).into_iter().any(|n| self.set(n, record) & MINUS != 0)
    }
}
