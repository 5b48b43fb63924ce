//! The cases of `semantics_runs`.

mod budgets;
mod by_name;
mod guards;
mod jumps;
mod overlap;
mod random;
mod reasons;
mod refusals;
mod steps;
mod worked;

use super::Out;
use crate::answers::runs::*;
use crate::answers::{self, spaced};
use crate::language::*;
use crate::making::*;
use by_name::known;
use std::io;
use std::path::Path;
use steps::*;

pub fn store(folder: &Path) -> io::Result<()> {
    let mut out = Out::new();
    worked::worked(&mut out);
    worked::values(&mut out);
    worked::pairs(&mut out);
    worked::conditions(&mut out);
    worked::cells(&mut out);
    reasons::reasons(&mut out);
    reasons::orders(&mut out);
    reasons::exits(&mut out);
    reasons::choices(&mut out);
    jumps::jumps(&mut out);
    refusals::refusals(&mut out);
    refusals::memories(&mut out);
    refusals::nodes(&mut out);
    refusals::arrows(&mut out);
    refusals::firsts(&mut out);
    refusals::counted(&mut out);
    budgets::budgets(&mut out);
    random::limits(&mut out);
    random::random(&mut out);
    overlap::overlaps(&mut out);
    guards::guards(&mut out);
    by_name::by_name(&mut out);
    out.write(folder, "runs.bin")
}
