//! The cases of `analysis_sheets`.

mod by_name;
mod guards;
mod jumps;
mod marks;
mod operators;
mod overlap;
mod random;
mod refusals;
mod solving;
mod texts;
mod third_term;
mod worked;

use super::Out;
use crate::answers::sheets::*;
use crate::answers::{self, spaced};
use crate::language::*;
use crate::making::*;
use std::io;
use std::path::Path;
use texts::*;

pub fn store(folder: &Path) -> io::Result<()> {
    let mut out = Out::new();
    worked::worked(&mut out);
    operators::operators(&mut out);
    operators::comparisons(&mut out);
    operators::truths(&mut out);
    operators::elements(&mut out);
    operators::stores(&mut out);
    operators::exits(&mut out);
    marks::indices(&mut out);
    marks::missing(&mut out);
    jumps::jumps(&mut out);
    refusals::wholes(&mut out);
    refusals::wrong_bytes(&mut out);
    solving::rooms(&mut out);
    solving::start_lists(&mut out);
    solving::splits(&mut out);
    solving::limits(&mut out);
    refusals::refusals(&mut out);
    random::changed(&mut out);
    random::random(&mut out);
    third_term::third_term(&mut out);
    overlap::overlaps(&mut out);
    guards::guards(&mut out);
    by_name::by_name(&mut out);
    third_term::by_name(&mut out);
    out.write(folder, "sheets.bin")
}
