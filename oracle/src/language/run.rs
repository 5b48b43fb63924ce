//! Document 01, "The step" and questions 12, 14 and 15: a run's step, and the budgeted run.

use super::*;

#[derive(Clone, Copy)]
pub struct Run {
    pub node: u16,
    pub count: u16,
}

/// "A fresh run is at node 0 with no arrow taken."
pub const FRESH: Run = Run { node: 0, count: 0 };

#[derive(Clone, Copy)]
pub enum Outcome {
    Taken,
    Undefined(Reason),
    Refused(No),
}

/// Questions 1 to 11, 20 and 12.
fn with_memory<'a>(file: &'a Loaded, construction: Construction, memory: &[i32]) -> Result<&'a Lesson, No> {
    let lesson = file.on(construction)?;
    if memory.len() != lesson.cells {
        return Err(No(12, 0));
    }
    Ok(lesson)
}

impl Lesson {
    /// Takes an arrow that leaves the run's node, if its action is defined.
    fn take(&self, run: &mut Run, arrow: &Arrow, memory: &mut [i32]) -> Result<(), Reason> {
        if let Some((cell, value)) = self.effect(arrow, memory)? {
            memory[cell] = value;
        }
        run.node = arrow.to;
        // "Stepped by hand past 65,535 arrows, the count stays at 65,535."
        run.count = run.count.saturating_add(1);
        Ok(())
    }

    /// Questions 14 and 15.
    fn arrow(&self, run: Run, number: u16) -> Result<&Arrow, No> {
        if run.node >= self.graph.nodes {
            return Err(No(14, 0));
        }
        match self.graph.arrows.get(usize::from(number)) {
            Some(arrow) if arrow.from == run.node => Ok(arrow),
            _ => Err(No(15, 0)),
        }
    }
}

pub fn step(file: &Loaded, construction: Construction, run: &mut Run, arrow: u16, memory: &mut [i32]) -> Outcome {
    let asked = with_memory(file, construction, memory).and_then(|lesson| Ok((lesson, lesson.arrow(*run, arrow)?)));
    let (lesson, arrow) = match asked {
        Ok(asked) => asked,
        Err(no) => return Outcome::Refused(no),
    };
    match lesson.take(run, arrow, memory) {
        Ok(()) => Outcome::Taken,
        Err(reason) => Outcome::Undefined(reason),
    }
}

/// A run from node 0: the answer 0, 1 or 2, and where it ended. "Other counts and nodes come back as zero" where it is refused.
pub fn budgeted(file: &Loaded, construction: Construction, budget: u16, memory: &mut [i32]) -> (Result<u32, No>, Run) {
    let lesson = match with_memory(file, construction, memory) {
        Ok(lesson) => lesson,
        Err(no) => return (Err(no), FRESH),
    };
    let mut run = FRESH;
    loop {
        // "It answers 0 at node 1, else 1 if the budget is used up, else 2 if no arrow is defined, in that order of asking."
        if run.node == 1 {
            return (Ok(0), run);
        }
        if run.count == budget {
            return (Ok(1), run);
        }
        // An undefined action leaves run and memory as they were, so that the arrows can be tried in turn.
        let mut tried = lesson.leaving(run.node).map(|(_, arrow)| lesson.take(&mut run, arrow, memory));
        if !tried.any(|took| took.is_ok()) {
            return (Ok(2), run);
        }
    }
}
