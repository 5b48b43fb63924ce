//! An oracle for the engine: document 01, and orders 7, 8 and 13 of document 02, as a program of its own, makers of test cases, and the answers to them. It shares no definition and no code with the engine.

pub mod answers;
pub mod figures;
pub mod language;
pub mod making;
pub mod stored;
pub mod tally;
pub mod trial;
