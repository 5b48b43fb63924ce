//! The stored files that `rt ci` compares: the cases of each program, group by group, with their answers. The same bytes at every run.

mod classes;
mod ends;
mod files;
mod inputs;
mod runs;
mod sheets;

use crate::answers::{Case, Told};
use crate::language::Loaded;
use crate::tally::Tally;
use std::fs;
use std::io;
use std::path::Path;

/// Writes every stored file, into the crates of a repository.
pub fn store(repository: &Path) -> io::Result<()> {
    let crates = repository.join("crates");
    ends::store(&crates.join("signs_ends"))?;
    files::store(&crates.join("program_files"))?;
    runs::store(&crates.join("semantics_runs"))?;
    sheets::store(&crates.join("analysis_sheets"))?;
    classes::store(&crates.join("figures_classes"))?;
    inputs::store(&crates.join("sheet"), &crates.join("sheet_inputs"))
}

/// A program's container and the output expected of it, and how often each group has each answer.
struct Out {
    container: Vec<u8>,
    text: String,
    group: String,
    tally: Tally,
}

impl Out {
    fn new() -> Out {
        Out { container: Vec::new(), text: String::new(), group: String::new(), tally: Tally::new() }
    }

    /// The cases that follow belong to another group.
    fn group(&mut self, name: &str) {
        self.group = name.to_string();
        self.tally.group(name);
    }

    /// Adds a case, and hands back what is expected of it but for checksums.
    fn put(&mut self, title: &str, file: &[u8], case: &impl Case) -> String {
        self.add(title, case.told(&Loaded::of(file)), |title| case.record(title, file))
    }

    /// The same, of a case whose record is made once its whole title is known.
    fn add(&mut self, title: &str, told: Told, record: impl Fn(&str) -> Vec<u8>) -> String {
        let title = format!("{} {title}", self.group);
        self.tally.count(&told.answers);
        self.container.extend(record(&title));
        self.text += &format!("{title}: {}\n", told.line);
        told.known
    }

    /// A case whose answer has been worked out in another way: a test of the oracle itself.
    fn known(&mut self, title: &str, file: &[u8], case: &impl Case, expected: &str) {
        let told = self.put(title, file, case);
        assert_eq!(told, expected, "{} {title}", self.group);
    }

    fn write(&self, folder: &Path, container: &str) -> io::Result<()> {
        fs::create_dir_all(folder.join("data"))?;
        fs::write(folder.join("data").join(container), &self.container)?;
        fs::write(folder.join("stdout"), &self.text)?;
        println!("{}: {} bytes, {} bytes printed", folder.display(), self.container.len(), self.text.len());
        self.tally.say();
        Ok(())
    }
}
