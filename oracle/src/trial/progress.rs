//! How far a run is, on standard error: a bar on a terminal, a line every so often elsewhere.

use super::count::grouped;
use std::io::{stderr, IsTerminal, Write};
use std::time::{Duration, Instant};

pub struct Progress {
    total: u64,
    started: Instant,
    shown: Instant,
    every: Duration,
    is_terminal: bool,
}

const WIDTH: u64 = 30;

impl Progress {
    pub fn new(total: u64) -> Progress {
        let is_terminal = stderr().is_terminal();
        let every = if is_terminal { Duration::from_millis(200) } else { Duration::from_secs(20) };
        Progress { total, started: Instant::now(), shown: Instant::now(), every, is_terminal }
    }

    pub fn show(&mut self, done: u64) {
        if self.shown.elapsed() >= self.every {
            self.shown = Instant::now();
            self.say(done);
        }
    }

    pub fn end(&self, done: u64) {
        self.say(done);
        if self.is_terminal {
            eprintln!();
        }
    }

    fn say(&self, done: u64) {
        let seconds = self.started.elapsed().as_secs_f64();
        let speed = done as f64 / seconds.max(0.001);
        let left = (self.total - done) as f64 / speed.max(0.001);
        let text = format!("{} of {} files, {} a second, {} left", grouped(done), grouped(self.total), speed as u64, clock(left as u64));
        if self.is_terminal {
            let full = (WIDTH * done / self.total.max(1)) as usize;
            eprint!("\r[{}{}] {text}   ", "#".repeat(full), ".".repeat(WIDTH as usize - full));
            let _ = stderr().flush();
        } else {
            eprintln!("{text}, {} so far", clock(seconds as u64));
        }
    }

    /// The line of the bar is cleared, so that something else can be printed.
    pub fn clear(&self) {
        if self.is_terminal {
            eprint!("\r{}\r", " ".repeat(110));
        }
    }
}

fn clock(seconds: u64) -> String {
    format!("{}:{:02}", seconds / 60, seconds % 60)
}
