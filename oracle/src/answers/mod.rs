//! What each program of the engine prints of a case, and the case's record in the program's container. Written once, for the stored cases and for the random ones.

pub mod classes;
pub mod files;
pub mod runs;
pub mod sheets;

use crate::language::*;

/// What is asked of a file.
pub trait Case {
    /// The answer that the documents give, on the graph of a construction. Where there is no graph in it, both have the same.
    fn told_on(&self, file: &Loaded, construction: Construction) -> Told;

    /// Whether the case may name a construction: whether its operation takes one.
    fn may_name(&self) -> bool;

    /// The case's record in its program's container, whose first byte is the mode.
    fn record(&self, title: &str, file: &[u8]) -> Vec<u8>;

    /// The answer where no construction is named.
    fn told(&self, file: &Loaded) -> Told {
        self.told_on(file, UNNAMED)
    }
}

/// What an operation draws where no construction is named: document 01's graph, as long as order 9 is not there.
pub const UNNAMED: Construction = Nondeterministic;

/// The construction that a case names, if it does.
pub type Named = Option<Construction>;

/// The number that is added to a case's mode, sixteen times: 0 where no construction is named, 1 for document 01's graph, 2 for the deterministic one.
pub fn number(named: Named) -> u8 {
    match named {
        None => 0,
        Some(Nondeterministic) => 1,
        Some(Deterministic) => 2,
    }
}

/// A case that names a construction, or none.
pub struct OnGraph<'a, C> {
    named: Named,
    case: &'a C,
}

pub fn on_graph<C: Case>(named: Named, case: &C) -> OnGraph<'_, C> {
    OnGraph { named, case }
}

/// A case that asks for a graph by name.
pub fn by_name<C: Case>(construction: Construction, case: &C) -> OnGraph<'_, C> {
    on_graph(Some(construction), case)
}

impl<C: Case> Case for OnGraph<'_, C> {
    fn told_on(&self, file: &Loaded, construction: Construction) -> Told {
        self.case.told_on(file, self.named.unwrap_or(construction))
    }

    fn may_name(&self) -> bool {
        self.case.may_name() && self.named.is_none()
    }

    fn record(&self, title: &str, file: &[u8]) -> Vec<u8> {
        assert!(self.named.is_none() || self.case.may_name(), "{title}");
        let mut record = self.case.record(title, file);
        record[0] += 16 * number(self.named);
        record
    }
}

/// What is printed of a case after its title: `line` as a whole, `known` the part that can be worked out by hand, without checksums, `answers` to be counted.
pub struct Told {
    pub line: String,
    pub known: String,
    pub answers: Vec<String>,
}

impl Told {
    /// Without a checksum.
    fn plain(line: String, answers: Vec<String>) -> Told {
        Told { known: line.clone(), line, answers }
    }
}

/// An answer as it is counted: a refusal by its number, whatever its place; a verdict and a mark without record and arrow.
fn counted(answer: &str) -> String {
    let end = [" at ", " record ", " with "].iter().filter_map(|word| answer.find(word)).min();
    answer[..end.unwrap_or(answer.len())].to_string()
}

/// Numbers with a space before each.
pub fn spaced<T: std::fmt::Display>(numbers: &[T]) -> String {
    numbers.iter().map(|x| format!(" {x}")).collect()
}

/// What is in a buffer beforehand.
const FILLED: u8 = 170;

/// A checksum's next state. The modulus is a prime above all that is mixed in.
fn mix(sum: u64, x: u64) -> u64 {
    (sum % 4294967311 * 1000003 + x % 4294967296) % 4294967311
}

fn checksum(bytes: &[u8]) -> u64 {
    bytes.iter().fold(1, |sum, &x| mix(sum, u64::from(x)))
}
