//! Writes the module lines that compile the Rust files of sdrk-core from the folder SDRK_SOURCES.

use std::path::PathBuf;
use std::{env, fs};

const PREFIX: &str = "src--crates--core--sdrk-core--src--";

/// The module line of one Rust file, by its absolute path.
fn module(sources: &str, file: &str, name: &str) -> String {
    let path = PathBuf::from(sources).join(format!("{PREFIX}{file}.rs.txt"));
    assert!(path.is_absolute(), "SDRK_SOURCES must be an absolute path");
    println!("cargo::rerun-if-changed={}", path.display());
    format!("#[path = {path:?}]\npub mod {name};\n")
}

fn main() {
    println!("cargo::rerun-if-env-changed=SDRK_SOURCES");
    let sources =
        env::var("SDRK_SOURCES").expect("SDRK_SOURCES names the folder of the Rust files");
    let out = PathBuf::from(env::var("OUT_DIR").expect("OUT_DIR is set by cargo"));
    let top: String = ["num", "types", "window"]
        .iter()
        .map(|name| module(&sources, name, name))
        .collect();
    let kernels = module(&sources, "kernels--channelize", "channelize");
    fs::write(out.join("top.rs"), top).expect("the module lines can be written");
    fs::write(out.join("kernels.rs"), kernels).expect("the module lines can be written");
}
