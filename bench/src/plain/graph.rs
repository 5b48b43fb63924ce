//! The program graph, in either construction.

use super::file::{Command, Program, Refusal};

#[derive(Clone, Copy, PartialEq, Debug)]
pub enum Construction {
    Nondeterministic,
    Deterministic,
}

#[derive(Clone, Copy)]
pub enum Action {
    Command(u16),
    /// A guard. In the deterministic graph the earlier ones are those of the lower arrows out of the same node: no two ifs or dos begin at one node.
    Condition(u16),
    Exit(u16),
}

#[derive(Clone, Copy)]
pub struct Arrow {
    pub from: u16,
    pub to: u16,
    pub action: Action,
}

pub struct Graph {
    construction: Construction,
    pub nodes: u16,
    pub arrows: Vec<Arrow>,
    /// Of the deterministic graph the guarded entries, guard by guard.
    guarded: Vec<u16>,
}

/// The first and the last node of a do.
#[derive(Clone, Copy)]
struct Loop {
    first: u16,
    last: u16,
}

impl Graph {
    pub fn of(program: &Program, construction: Construction) -> Graph {
        let mut graph = Graph { construction, nodes: 2, arrows: Vec::with_capacity(program.commands.len()), guarded: Vec::new() };
        // No jump is outside every do, so that the loop there is never asked for.
        graph.command(program, program.commands.len() as u16 - 1, 0, 1, Loop { first: 0, last: 1 });
        graph
    }

    fn fresh(&mut self) -> u16 {
        self.nodes += 1;
        self.nodes - 1
    }

    fn arrow(&mut self, from: u16, to: u16, action: Action) {
        self.arrows.push(Arrow { from, to, action });
    }

    /// A command's arrows, in the innermost do around it.
    fn command(&mut self, program: &Program, n: u16, from: u16, to: u16, around: Loop) {
        match program.commands[usize::from(n)] {
            Command::Sequence(p, q) => {
                let middle = self.fresh();
                self.command(program, p, from, middle, around);
                self.command(program, q, middle, to, around);
            }
            Command::If(g) => self.guarded(program, g, from, to, around),
            Command::Do(g) => {
                self.guarded(program, g, from, from, Loop { first: from, last: to });
                self.arrow(from, to, Action::Exit(g));
            }
            Command::Break => self.arrow(from, around.last, Action::Command(n)),
            Command::Continue => self.arrow(from, around.first, Action::Command(n)),
            _ => self.arrow(from, to, Action::Command(n)),
        }
    }

    fn guarded(&mut self, program: &Program, n: u16, from: u16, to: u16, around: Loop) {
        match program.commands[usize::from(n)] {
            Command::Choice(p, q) => {
                self.guarded(program, p, from, to, around);
                self.guarded(program, q, from, to, around);
            }
            Command::Guarded(b, c) => {
                let middle = self.fresh();
                self.arrow(from, middle, Action::Condition(b));
                if self.construction == Construction::Deterministic {
                    self.guarded.push(n);
                }
                self.command(program, c, middle, to, around);
            }
            _ => unreachable!(),
        }
    }

    /// The numbers of the arrows out of each node.
    pub fn leaving(&self) -> Vec<Vec<u16>> {
        let mut leaving = vec![Vec::new(); usize::from(self.nodes)];
        for (k, arrow) in self.arrows.iter().enumerate() {
            leaving[usize::from(arrow.from)].push(k as u16);
        }
        leaving
    }
}

/// The arrows at the front of a buffer; nodes and arrows.
#[inline(never)]
pub fn draw(file: &[u8], construction: Construction, buffer: &mut [u8]) -> Result<(u16, u16), Refusal> {
    let graph = Graph::of(&Program::read(file)?, construction);
    if buffer.len() < 7 * graph.arrows.len() {
        return Err((13, 0));
    }
    let mut guarded = graph.guarded.iter();
    for (arrow, bytes) in graph.arrows.iter().zip(buffer.chunks_exact_mut(7)) {
        let (kind, entry) = match arrow.action {
            Action::Command(n) => (1, n),
            Action::Condition(n) => guarded.next().map_or((2, n), |&n| (4, n)),
            Action::Exit(n) => (3, n),
        };
        bytes[..2].copy_from_slice(&arrow.from.to_be_bytes());
        bytes[2..4].copy_from_slice(&arrow.to.to_be_bytes());
        bytes[4] = kind;
        bytes[5..].copy_from_slice(&entry.to_be_bytes());
    }
    Ok((graph.nodes, graph.arrows.len() as u16))
}
