//! The stored files are what `oracle store` writes.

use std::path::{Path, PathBuf};
use std::process::Command;
use std::{env, fs};

/// All files under a folder, by their paths from there.
fn files(folder: &Path, from: &Path) -> Vec<PathBuf> {
    let mut found = Vec::new();
    for entry in fs::read_dir(folder).unwrap() {
        let path = entry.unwrap().path();
        if path.is_dir() {
            found.extend(files(&path, from));
        } else {
            found.push(path.strip_prefix(from).unwrap().to_path_buf());
        }
    }
    found
}

#[test]
fn they_are_written_again() {
    let repository = Path::new(env!("CARGO_MANIFEST_DIR")).parent().unwrap();
    let folder = env::temp_dir().join(format!("oracle-test-{}-stored", std::process::id()));
    let _ = fs::remove_dir_all(&folder);
    for name in ["signs_ends", "program_files", "semantics_runs", "analysis_sheets", "figures_classes", "sheet", "sheet_inputs"] {
        fs::create_dir_all(folder.join("crates").join(name)).unwrap();
    }
    let status = Command::new(env!("CARGO_BIN_EXE_oracle")).arg("store").env("REPOSITORY", &folder).output().unwrap().status;
    assert!(status.success());
    let written = files(&folder, &folder);
    assert!(written.len() > 70);
    for path in written {
        assert!(fs::read(folder.join(&path)).unwrap() == fs::read(repository.join(&path)).unwrap(), "{}", path.display());
    }
    fs::remove_dir_all(&folder).unwrap();
}
