//! Writes the module line that compiles design.rs from the folder SDRK_SOURCES.

use std::path::PathBuf;
use std::{env, fs};

const FILE: &str = "src--crates--blocks--sdrk-blocks--src--design.rs.txt";

fn main() {
    println!("cargo::rerun-if-env-changed=SDRK_SOURCES");
    let sources =
        env::var("SDRK_SOURCES").expect("SDRK_SOURCES names the folder of the Rust files");
    let path = PathBuf::from(sources).join(FILE);
    assert!(path.is_absolute(), "SDRK_SOURCES must be an absolute path");
    println!("cargo::rerun-if-changed={}", path.display());
    let out = PathBuf::from(env::var("OUT_DIR").expect("OUT_DIR is set by cargo"));
    fs::write(
        out.join("top.rs"),
        format!("#[path = {path:?}]\npub mod design;\n"),
    )
    .expect("the module line can be written");
}
