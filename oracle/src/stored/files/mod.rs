//! The cases of `program_files`.

mod by_name;
mod entries;
mod graphs;
mod inputs;
mod jumps;
mod limits;
mod random;
mod refusals;

use super::Out;
use crate::answers::files::Mode;
use crate::answers::{self, Case};
use crate::language::Operand::*;
use crate::language::*;
use crate::making::*;
use std::io;
use std::path::Path;

/// The tables in words.
const TABLES: [&str; 3] = ["arithmetic", "boolean", "command"];

pub fn store(folder: &Path) -> io::Result<()> {
    let mut out = Out::new();
    graphs::graphs(&mut out);
    limits::limits(&mut out);
    refusals::heads(&mut out);
    refusals::entries(&mut out);
    entries::rest(&mut out);
    jumps::jumps(&mut out);
    graphs::rooms(&mut out);
    inputs::inputs(&mut out);
    random::neighbours(&mut out);
    random::random(&mut out);
    inputs::parts(&mut out);
    by_name::deterministic(&mut out);
    by_name::by_name(&mut out);
    out.write(folder, "files.bin")
}
