//! Running the engine's programs.

use super::cases::Program;
use std::fs::{self, File};
use std::io::{self, Write};
use std::path::{Path, PathBuf};
use std::process::{Command, ExitStatus, Stdio};

/// The folder of the compiled programs.
pub struct Engine {
    folder: PathBuf,
}

/// What a program printed, and how it ended.
pub struct Printed {
    pub text: String,
    pub status: ExitStatus,
}

impl Engine {
    pub fn new(folder: &Path) -> io::Result<Engine> {
        // A program is started in another folder: its path must not depend on that.
        Ok(Engine { folder: fs::canonicalize(folder)? })
    }

    pub fn path(&self, program: Program) -> PathBuf {
        self.folder.join(program.name())
    }

    /// Hands a container to a program that reads it in its current directory, here a scratch folder.
    pub fn answer(&self, program: Program, container: &[u8], scratch: &Path) -> io::Result<Printed> {
        fs::write(scratch.join(program.container()), container)?;
        // The programs print with many small writes, which a file takes faster than a pipe.
        let output = scratch.join("output");
        let status = Command::new(self.path(program)).current_dir(scratch).stdin(Stdio::null()).stdout(File::create(&output)?).status()?;
        Ok(Printed { text: lossy(fs::read(&output)?), status })
    }

    /// Hands an input to the sheet program, on its standard input.
    pub fn list(&self, input: &[u8], scratch: &Path) -> io::Result<Printed> {
        let output = scratch.join("listing");
        let mut child = Command::new(self.path(Program::Sheet)).stdin(Stdio::piped()).stdout(File::create(&output)?).spawn()?;
        // A program that ends before it has read all leaves a broken pipe: what it printed and how it ended says enough.
        let _ = child.stdin.take().unwrap().write_all(input);
        let status = child.wait()?;
        Ok(Printed { text: lossy(fs::read(&output)?), status })
    }
}

fn lossy(bytes: Vec<u8>) -> String {
    String::from_utf8(bytes).unwrap_or_else(|error| String::from_utf8_lossy(error.as_bytes()).into_owned())
}
