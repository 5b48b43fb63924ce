//! An oracle for the engine: expected answers, computed by a program that is written from document 01 and orders 7, 8 and 13 of document 02 alone.
//!
//!     oracle store                       writes every stored file that `rt ci` compares
//!     oracle run SEED COUNT [FIRST]      runs COUNT random files through every operation of the compiled engine
//!
//! The repository is the folder that the environment variable REPOSITORY names, or the current one. The engine's programs are those of its target/bin, or of
//! the folder that ENGINE names.

use oracle::{stored, trial};
use std::env;
use std::path::{Path, PathBuf};
use std::process::ExitCode;

const USAGE: &str = "usage: oracle store | oracle run SEED COUNT [FIRST]";

fn main() -> ExitCode {
    let arguments: Vec<String> = env::args().skip(1).collect();
    let words: Vec<&str> = arguments.iter().map(String::as_str).collect();
    let repository = PathBuf::from(env::var_os("REPOSITORY").unwrap_or_else(|| ".".into()));
    let numbers: Vec<Option<u64>> = words.iter().skip(1).map(|word| word.parse().ok()).collect();
    match (words.first(), &numbers[..]) {
        (Some(&"store"), []) => store(&repository),
        (Some(&"run"), &[Some(seed), Some(count)]) => run(&repository, seed, count, 0),
        (Some(&"run"), &[Some(seed), Some(count), Some(first)]) => run(&repository, seed, count, first),
        _ => fail(USAGE),
    }
}

fn store(repository: &Path) -> ExitCode {
    match stored::store(repository) {
        Ok(()) => ExitCode::SUCCESS,
        Err(error) => fail(&format!("cannot write under {}: {error}", repository.display())),
    }
}

fn run(repository: &Path, seed: u64, count: u64, first: u64) -> ExitCode {
    let engine = env::var_os("ENGINE").map_or_else(|| repository.join("target/bin"), PathBuf::from);
    if let Some(path) = trial::missing(&engine) {
        return fail(&format!("{} is missing: run tools/programs first", path.display()));
    }
    let plan = trial::Plan { seed, first, count, engine, differences: repository.join("target/oracle/differences") };
    match trial::run(&plan) {
        Ok(0) => ExitCode::SUCCESS,
        Ok(_) => ExitCode::FAILURE,
        Err(error) => fail(&format!("cannot run the engine: {error}")),
    }
}

fn fail(message: &str) -> ExitCode {
    eprintln!("oracle: {message}");
    ExitCode::from(2)
}
