//! Links the engine's static library, which `tools/library` proves and builds at the root of the repository; `PIZWOTER_LIB` names another folder that has it.

use std::env;
use std::path::PathBuf;

fn main() {
    let root = PathBuf::from(env::var("CARGO_MANIFEST_DIR").unwrap()).join("../..");
    let folder = env::var("PIZWOTER_LIB").map_or(root.join("target/staticlib"), PathBuf::from);
    let library = folder.join("libdesk.a");
    assert!(library.exists(), "{} is missing: run `tools/library` at the root of the repository", library.display());
    println!("cargo:rustc-link-search=native={}", folder.display());
    println!("cargo:rustc-link-lib=static=desk");
    println!("cargo:rerun-if-changed={}", library.display());
    println!("cargo:rerun-if-env-changed=PIZWOTER_LIB");
}
