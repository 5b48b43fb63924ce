//! Document 01, "The graph", with order 7's break and continue and order 8's deterministic construction.

use super::*;

/// Which of the two graphs of a script is drawn. They have the same nodes and arrows; only the actions of guards differ.
#[derive(Clone, Copy, PartialEq, Eq, PartialOrd, Ord, Debug)]
pub enum Construction {
    /// Document 01's: a guard's action is the guard alone.
    Nondeterministic,
    /// Order 8's: a guard's action is "that guard and the falsehood of all earlier guards in the same if or do".
    Deterministic,
}

pub use Construction::*;

pub const CONSTRUCTIONS: [Construction; 2] = [Nondeterministic, Deterministic];

#[derive(Clone, PartialEq, Debug)]
pub enum Action {
    /// 1: the command entry itself, of a break or a continue too.
    Command(u16),
    /// 2: a boolean entry.
    Condition(u16),
    /// 3: the exit of the do whose operand is the command entry.
    Exit(u16),
    /// 4: a guard of the deterministic graph, with its guarded entry, the earlier guards in text order and its own.
    Guard { guarded: u16, earlier: Vec<u16>, own: u16 },
}

impl Action {
    pub fn kind(&self) -> u8 {
        match self {
            Action::Command(_) => 1,
            Action::Condition(_) => 2,
            Action::Exit(_) => 3,
            Action::Guard { .. } => 4,
        }
    }

    pub fn entry(&self) -> u16 {
        match *self {
            Action::Command(n) | Action::Condition(n) | Action::Exit(n) => n,
            Action::Guard { guarded, .. } => guarded,
        }
    }
}

#[derive(Clone, PartialEq, Debug)]
pub struct Arrow {
    pub from: u16,
    pub to: u16,
    pub action: Action,
}

impl Arrow {
    /// From, to, action kind and entry, as an arrow is written.
    pub fn written(&self) -> (u16, u16, u8, u16) {
        (self.from, self.to, self.action.kind(), self.action.entry())
    }
}

pub struct Graph {
    pub nodes: u16,
    pub arrows: Vec<Arrow>,
}

/// The first and the last node of a do.
#[derive(Clone, Copy)]
struct Ends {
    first: u16,
    last: u16,
}

/// A graph that is being drawn.
struct Drawing<'a> {
    script: &'a Script,
    construction: Construction,
    graph: Graph,
}

impl Graph {
    /// "Node 0 is the start, node 1 the end."
    pub fn of(script: &Script, construction: Construction) -> Graph {
        let mut drawing = Drawing { script, construction, graph: Graph { nodes: 2, arrows: Vec::new() } };
        drawing.command(script.tables[COMMANDS].len() as u16 - 1, 0, 1, None);
        drawing.graph
    }

    /// "An arrow is written as seven bytes: from, to (two each), action kind, entry (two)."
    pub fn bytes(&self) -> Vec<u8> {
        let mut bytes = Vec::new();
        for (from, to, kind, entry) in self.arrows.iter().map(Arrow::written) {
            bytes.extend(from.to_be_bytes());
            bytes.extend(to.to_be_bytes());
            bytes.push(kind);
            bytes.extend(entry.to_be_bytes());
        }
        bytes
    }
}

impl Drawing<'_> {
    /// "Fresh nodes count from 2 as they are made."
    fn fresh(&mut self) -> u16 {
        self.graph.nodes += 1;
        self.graph.nodes - 1
    }

    fn arrow(&mut self, from: u16, to: u16, action: Action) {
        self.graph.arrows.push(Arrow { from, to, action });
    }

    /// The arrows of a command entry, from a node to a node; `innermost` is the nearest do around it, if there is one.
    fn command(&mut self, n: u16, from: u16, to: u16, innermost: Option<Ends>) {
        let e = self.script.tables[COMMANDS][usize::from(n)];
        let [p, q, _] = e.operands;
        match e.kind {
            0..=2 => self.arrow(from, to, Action::Command(n)),
            3 => {
                let middle = self.fresh();
                self.command(p, from, middle, innermost);
                self.command(q, middle, to, innermost);
            }
            // "In the same if or do": none is earlier than the first guard of this one.
            4 => self.guarded(p, from, to, innermost, &mut Vec::new()),
            DO => {
                self.guarded(p, from, from, Some(Ends { first: from, last: to }), &mut Vec::new());
                self.arrow(from, to, Action::Exit(p));
            }
            // "Break to the loop's last node and continue to its first." Question 20 has made sure that there is a loop.
            BREAK => self.arrow(from, innermost.unwrap().last, Action::Command(n)),
            CONTINUE => self.arrow(from, innermost.unwrap().first, Action::Command(n)),
            _ => unreachable!(),
        }
    }

    /// The arrows of a guarded command entry. `earlier` has the guards of the same if or do that stand before it, and after it those of this one too.
    fn guarded(&mut self, n: u16, from: u16, to: u16, innermost: Option<Ends>, earlier: &mut Vec<u16>) {
        let e = self.script.tables[COMMANDS][usize::from(n)];
        let [p, q, _] = e.operands;
        match e.kind {
            6 => {
                let middle = self.fresh();
                let action = match self.construction {
                    Nondeterministic => Action::Condition(p),
                    Deterministic => Action::Guard { guarded: n, earlier: earlier.clone(), own: p },
                };
                self.arrow(from, middle, action);
                earlier.push(p);
                self.command(q, middle, to, innermost);
            }
            7 => {
                self.guarded(p, from, to, innermost, earlier);
                self.guarded(q, from, to, innermost, earlier);
            }
            _ => unreachable!(),
        }
    }
}
