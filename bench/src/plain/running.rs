//! Values, the step and the budgeted run.

use super::file::{Arith, Boolean, Command, Comparison, Operator, Program, Refusal};
use super::graph::{Action, Arrow, Construction, Graph};

/// 31 to 36.
type Reason = u32;

fn in_range(exact: i64) -> Result<i32, Reason> {
    i32::try_from(exact).map_err(|_| 36)
}

fn power(base: i32, exponent: i32) -> Result<i32, Reason> {
    if exponent < 0 {
        return Err(33);
    }
    base.checked_pow(exponent as u32).ok_or(36)
}

fn operate(o: Operator, a: i32, b: i32) -> Result<i32, Reason> {
    let (x, y) = (i64::from(a), i64::from(b));
    match o {
        Operator::Add => in_range(x + y),
        Operator::Sub => in_range(x - y),
        Operator::Mul => in_range(x * y),
        Operator::Div if b == 0 => Err(32),
        Operator::Div => in_range(x / y),
        Operator::Pow => power(a, b),
    }
}

impl Program {
    fn cell(&self, array: u16, index: i32) -> Result<usize, Reason> {
        let name = &self.names[usize::from(array)];
        if index < 0 {
            return Err(34);
        }
        if index >= i32::from(name.size) {
            return Err(35);
        }
        Ok(name.first + index as usize)
    }

    fn value(&self, n: u16, memory: &[i32]) -> Result<i32, Reason> {
        match self.arith[usize::from(n)] {
            Arith::Number(z) => Ok(z),
            Arith::Variable(x) => Ok(memory[self.names[usize::from(x)].first]),
            Arith::Element(x, i) => Ok(memory[self.cell(x, self.value(i, memory)?)?]),
            Arith::Operate(o, p, q) => operate(o, self.value(p, memory)?, self.value(q, memory)?),
        }
    }

    fn truth(&self, n: u16, memory: &[i32]) -> Result<bool, Reason> {
        match self.boolean[usize::from(n)] {
            Boolean::True => Ok(true),
            Boolean::Compare(c, p, q) => {
                let (a, b) = (self.value(p, memory)?, self.value(q, memory)?);
                Ok(match c {
                    Comparison::Equal => a == b,
                    Comparison::Greater => a > b,
                    Comparison::AtLeast => a >= b,
                })
            }
            Boolean::Both(p, q) => {
                let (a, b) = (self.truth(p, memory)?, self.truth(q, memory)?);
                Ok(a && b)
            }
            Boolean::AndThen(p, q) => Ok(self.truth(p, memory)? && self.truth(q, memory)?),
            Boolean::Not(p) => Ok(!self.truth(p, memory)?),
        }
    }

    fn all_fail(&self, n: u16, memory: &[i32]) -> Result<bool, Reason> {
        match self.commands[usize::from(n)] {
            Command::Choice(p, q) => {
                let (a, b) = (self.all_fail(p, memory)?, self.all_fail(q, memory)?);
                Ok(a && b)
            }
            Command::Guarded(b, _) => Ok(!self.truth(b, memory)?),
            _ => unreachable!(),
        }
    }

    /// Performs an action, if it is defined.
    fn perform(&self, action: Action, memory: &mut [i32]) -> Result<(), Reason> {
        let holds = match action {
            Action::Command(n) => {
                match self.commands[usize::from(n)] {
                    Command::Assign(x, a) => memory[self.names[usize::from(x)].first] = self.value(a, memory)?,
                    Command::Store(x, i, a) => {
                        let cell = self.cell(x, self.value(i, memory)?)?;
                        memory[cell] = self.value(a, memory)?;
                    }
                    _ => {}
                }
                return Ok(());
            }
            Action::Condition(b) => self.truth(b, memory)?,
            Action::Exit(g) => self.all_fail(g, memory)?,
        };
        if holds {
            Ok(())
        } else {
            Err(31)
        }
    }

    /// A guard of the deterministic graph after the lower arrows: all are worked out in turn.
    fn first_to_hold<'a>(&self, lower: impl Iterator<Item = &'a Arrow>, own: u16, memory: &[i32]) -> Result<(), Reason> {
        let mut none_before = true;
        for arrow in lower {
            if let Action::Condition(b) = arrow.action {
                none_before &= !self.truth(b, memory)?;
            }
        }
        if self.truth(own, memory)? && none_before {
            Ok(())
        } else {
            Err(31)
        }
    }

    /// Where the only defined arrow of those out of a node of the deterministic graph goes, with its action performed. Each guard is worked out once: one that is
    /// undefined leaves no arrow defined, and an exit that is come to is defined.
    fn take_only(&self, arrows: impl Iterator<Item = Arrow>, memory: &mut [i32]) -> Option<u16> {
        for arrow in arrows {
            let taken = match arrow.action {
                Action::Condition(b) => self.truth(b, memory).ok()?,
                Action::Exit(_) => true,
                Action::Command(_) => self.perform(arrow.action, memory).is_ok(),
            };
            if taken {
                return Some(arrow.to);
            }
        }
        None
    }
}

fn load(file: &[u8], construction: Construction, memory: &[i32]) -> Result<(Program, Graph), Refusal> {
    let program = Program::read(file)?;
    if memory.len() != program.cells {
        return Err((12, 0));
    }
    let graph = Graph::of(&program, construction);
    Ok((program, graph))
}

/// A step of a run: the run afterwards, or the reason.
#[inline(never)]
pub fn step(file: &[u8], construction: Construction, node: u16, count: u16, arrow: u16, memory: &mut [i32]) -> Result<Result<(u16, u16), Reason>, Refusal> {
    let (program, graph) = load(file, construction, memory)?;
    if node >= graph.nodes {
        return Err((14, 0));
    }
    let number = usize::from(arrow);
    let arrow = graph.arrows.get(number).filter(|arrow| arrow.from == node).ok_or((15, 0))?;
    let performed = match (construction, arrow.action) {
        (Construction::Deterministic, Action::Condition(b)) => {
            program.first_to_hold(graph.arrows[..number].iter().filter(|lower| lower.from == node), b, memory)
        }
        _ => program.perform(arrow.action, memory),
    };
    Ok(performed.map(|()| (arrow.to, count.saturating_add(1))))
}

/// A budgeted run: its answer, node and count.
#[inline(never)]
pub fn run(file: &[u8], construction: Construction, budget: u16, memory: &mut [i32]) -> Result<(u32, u16, u16), Refusal> {
    let (program, graph) = load(file, construction, memory)?;
    let leaving = graph.leaving();
    let (mut node, mut count) = (0, 0);
    loop {
        if node == 1 {
            return Ok((0, node, count));
        }
        if count == budget {
            return Ok((1, node, count));
        }
        let arrows = leaving[usize::from(node)].iter().map(|&k| graph.arrows[usize::from(k)]);
        let mut taken = None;
        if construction == Construction::Deterministic {
            taken = program.take_only(arrows, memory);
        } else {
            for arrow in arrows {
                if program.perform(arrow.action, memory).is_ok() {
                    taken = Some(arrow.to);
                    break;
                }
            }
        }
        match taken {
            Some(to) => node = to,
            None => return Ok((2, node, count)),
        }
        count += 1;
    }
}
