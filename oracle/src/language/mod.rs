//! The language, its graph, its meaning and its sign sheets, written from document 01 and orders 7 and 8 of document 02 alone. Nothing here shares a definition or code with the engine.

mod both;
mod graph;
mod lesson;
mod listing;
mod results;
mod run;
mod script;
mod sheet;
mod signs;
mod solver;

pub use both::*;
pub use graph::*;
pub use lesson::*;
pub use listing::*;
pub use results::*;
pub use run::*;
pub use script::*;
pub use sheet::*;
pub use signs::*;
pub use solver::*;

#[cfg(test)]
mod tests;
