//! The engine's operations as a plain optimised Rust program: what a careful programmer would write in an afternoon, without proofs. A program is decoded once a call into
//! vectors of enums, the arrows of a node are a vector, records are looked up in a `HashSet`. It answers as document 01 and orders 7, 8 and 13 of document 02 say; the benchmark compares each answer with the
//! engine's before it times the two. An operation is never inlined: its time would then depend on what else the benchmark does.

mod figures;
mod file;
mod graph;
mod running;
mod sheets;
#[cfg(test)]
mod tests;

pub use figures::{figures, join, Figures, Totals};
pub use file::validate;
pub use graph::{draw, Construction};
pub use running::{run, step};
pub use sheets::{judge, solve, split};
