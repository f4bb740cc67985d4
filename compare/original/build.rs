//! Writes the modules of the crate, each by the path of the original's own file.
use std::path::{Path, PathBuf};
use std::{env, fs};

/// The folder of the original's sources: the variable CURATOR_SRC, from the top of the repository on.
fn sources() -> PathBuf {
    let folder = env::var("CURATOR_SRC").unwrap_or_else(|_| "../shared/docs/src".into());
    let top = Path::new(&env::var("CARGO_MANIFEST_DIR").unwrap()).join("../..");
    fs::canonicalize(top.join(&folder).join("src")).unwrap_or_else(|_| panic!("CURATOR_SRC: no folder {folder}/src"))
}

/// A module that is one file of the original.
fn module(sources: &Path, words: &str, file: &str) -> String {
    let path = sources.join(file);
    println!("cargo:rerun-if-changed={}", path.display());
    format!("#[path = {path:?}]\n{words};\n")
}

fn main() {
    println!("cargo:rerun-if-env-changed=CURATOR_SRC");
    let from = sources();
    let text = module(&from, "pub mod curator", "curator/mod.rs")
        + &module(&from, "mod error", "error.rs")
        + &module(&from, "pub mod memory", "memory.rs")
        + &module(&from, "mod simd", "simd.rs")
        + "pub mod distance {\n"
        + &module(&from, "mod file", "distance.rs")
        + "pub use crate::float_ord::FloatOrd;\npub use file::*;\n}\n";
    let out = Path::new(&env::var("OUT_DIR").unwrap()).join("modules.rs");
    fs::write(out, text).expect("modules.rs");
}
