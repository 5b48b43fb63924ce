//! The random run itself, tested: on the engine as it is it finds nothing, and on an engine that is spoilt it finds that.
//!
//! These tests need the compiled engine, in target/bin or in the folder that ENGINE names. Where there is none they fail and say so: `tools/programs` builds it.

use std::os::unix::fs::PermissionsExt;
use std::path::{Path, PathBuf};
use std::process::{Command, Output};
use std::{env, fs};

const PROGRAMS: [&str; 5] = ["program_files", "semantics_runs", "analysis_sheets", "figures_classes", "sheet"];

fn engine() -> PathBuf {
    let repository = Path::new(env!("CARGO_MANIFEST_DIR")).parent().unwrap();
    let folder = env::var_os("ENGINE").map_or_else(|| repository.join("target/bin"), PathBuf::from);
    let is_there = PROGRAMS.iter().all(|name| folder.join(name).is_file());
    assert!(is_there, "no engine in {}: run tools/programs first", folder.display());
    fs::canonicalize(folder).unwrap()
}

/// A folder of its own for a test, which stands for the repository.
fn scratch(name: &str) -> PathBuf {
    let folder = env::temp_dir().join(format!("oracle-test-{}-{name}", std::process::id()));
    let _ = fs::remove_dir_all(&folder);
    fs::create_dir_all(&folder).unwrap();
    folder
}

fn run(engine: &Path, repository: &Path, arguments: &[&str]) -> Output {
    let mut command = Command::new(env!("CARGO_BIN_EXE_oracle"));
    command.arg("run").args(arguments).env("ENGINE", engine).env("REPOSITORY", repository).output().unwrap()
}

/// An engine in which one program is a script; in it, PROGRAM is the program as it was. Hands back what a run of 300 files prints, and its exit status.
fn spoilt(name: &str, program: &str, script: &str, arguments: &[&str]) -> (String, i32) {
    let engine = engine();
    let folder = scratch(name);
    for other in PROGRAMS {
        std::os::unix::fs::symlink(engine.join(other), folder.join(other)).unwrap();
    }
    let path = folder.join(program);
    fs::remove_file(&path).unwrap();
    fs::write(&path, format!("#!/bin/sh\n{}\n", script.replace("PROGRAM", engine.join(program).to_str().unwrap()))).unwrap();
    fs::set_permissions(&path, fs::Permissions::from_mode(0o755)).unwrap();
    let output = run(&folder, &folder, arguments);
    let text = String::from_utf8(output.stdout).unwrap();
    let differences = folder.join("target/oracle/differences");
    if text.contains("difference: ") {
        let saved = fs::read_dir(&differences).unwrap().next().unwrap().unwrap().path();
        assert!(saved.join("expected").is_file() && saved.join("got").is_file() && saved.join("file").is_file());
    } else {
        assert!(!differences.exists());
    }
    fs::remove_dir_all(&folder).unwrap();
    (text, output.status.code().unwrap())
}

const SOME: [&str; 2] = ["5", "300"];

#[test]
fn the_engine_as_it_is() {
    let (text, status) = spoilt("fine", "sheet", "exec PROGRAM", &SOME);
    assert_eq!(status, 0, "{text}");
    assert!(text.ends_with("300 files, 7,200 operations, 0 differences\n"), "{text}");
}

#[test]
fn another_answer_of_a_step() {
    let (text, status) = spoilt("steps", "semantics_runs", "PROGRAM | sed 's/taken/undefined 31/'", &SOME);
    assert_eq!(status, 1, "{text}");
    assert!(text.contains("step calls from a fresh run\n") && text.contains("20 differences\n"), "{text}");
}

#[test]
fn a_verdict_that_accepts() {
    let (text, status) = spoilt("verdict", "analysis_sheets", "PROGRAM | sed 's/: 42 record.*offending.*/: accepted index clean; offending/'", &SOME);
    assert_eq!(status, 1, "{text}");
    assert!(text.contains(": sheet judged\n"), "{text}");
}

#[test]
fn another_denominator() {
    let (text, status) = spoilt("figures", "figures_classes", "PROGRAM | sed 's/ 1$/ 2/'", &SOME);
    assert_eq!(status, 1, "{text}");
    assert!(text.contains(": figures of a list\n") && text.contains(": figures of a join\n"), "{text}");
}

#[test]
fn one_checksum() {
    let (text, status) = spoilt("sum", "program_files", "PROGRAM | sed '/^123a: /s/sum ./sum x/'", &SOME);
    assert_eq!(status, 1, "{text}");
    assert!(text.contains("file 123,") && text.ends_with(" 1 differences\n"), "{text}");
    // The file alone, and the one before it.
    let (text, status) = spoilt("sum1", "program_files", "PROGRAM | sed '/^123a: /s/sum ./sum x/'", &["5", "1", "123"]);
    assert!(status == 1 && text.contains("file 123,") && text.ends_with("1 files, 24 operations, 1 differences\n"), "{text}");
    let (text, status) = spoilt("sum0", "program_files", "PROGRAM | sed '/^123a: /s/sum ./sum x/'", &["5", "1", "122"]);
    assert_eq!(status, 0, "{text}");
}

#[test]
fn a_program_that_is_cut_off() {
    let (text, status) = spoilt("cut", "program_files", "PROGRAM | head -c 20000", &SOME);
    assert_eq!(status, 1, "{text}");
}

#[test]
fn a_program_that_is_killed() {
    let (text, status) = spoilt("killed", "analysis_sheets", "PROGRAM | head -n 40; kill -9 $$", &SOME);
    assert_eq!(status, 1, "{text}");
    assert!(text.contains("the program ended with signal: 9"), "{text}");
}

#[test]
fn a_program_that_prints_all_and_fails() {
    let (text, status) = spoilt("fails", "semantics_runs", "PROGRAM; exit 3", &SOME);
    assert_eq!(status, 1, "{text}");
    assert!(text.contains("the program ended with exit status: 3"), "{text}");
}

#[test]
fn a_sheet_program_that_is_wrong_killed_or_silent() {
    for (name, script, word) in [
        ("listing", "PROGRAM | sed 's/index clean/index record 0 arrow 0/'", ": sheet program\n"),
        ("listing-killed", "PROGRAM; kill -9 $$", "sheet program (the program ended with signal: 9"),
        ("listing-none", "exit 0", ": sheet program\n"),
    ] {
        let (text, status) = spoilt(name, "sheet", script, &SOME);
        assert_eq!(status, 1, "{text}");
        assert!(text.contains(word), "{text}");
    }
}

#[test]
fn what_is_missing_is_said() {
    let folder = scratch("missing");
    let output = run(&folder, &folder, &SOME);
    assert_eq!(output.status.code(), Some(2));
    let said = String::from_utf8(output.stderr).unwrap();
    assert!(said.contains("program_files is missing: run tools/programs first"), "{said}");
    fs::remove_dir_all(&folder).unwrap();
}
