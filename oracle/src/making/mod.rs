//! Makers of scripts, files, memories, step calls, records and classes: by hand, from text, and from a seed.

mod arrays;
mod choices;
mod classes;
mod damage;
mod known;
mod lessons;
mod random;
mod records;
mod refused;
mod scripts;
mod text;
mod writing;

pub use arrays::*;
pub use choices::*;
pub use classes::*;
pub use damage::*;
pub use known::*;
pub use lessons::*;
pub use random::*;
pub use records::*;
pub use refused::*;
pub use scripts::*;
pub use text::*;
pub use writing::*;
