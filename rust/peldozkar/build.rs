//! Tells the linker where libpeldozkar.a is: in the folder that PEL_LIB_DIR names; else where pkg-config
//! says, if it knows `peldozkar`; else in the repository's own target/lib.

use std::env;
use std::ffi::OsString;
use std::path::{Path, PathBuf};
use std::process::{Command, Stdio};

const LIBRARY: &str = "libpeldozkar.a";

/// The folder that PEL_LIB_DIR names, if it is set.
fn named() -> Option<Result<PathBuf, String>> {
    let folder = PathBuf::from(env::var_os("PEL_LIB_DIR").filter(|name| !name.is_empty())?);
    Some(if folder.is_relative() {
        Err(format!(
            "PEL_LIB_DIR must be an absolute path, and is {}",
            folder.display()
        ))
    } else if !folder.join(LIBRARY).is_file() {
        Err(format!(
            "PEL_LIB_DIR is {}, and no {LIBRARY} is there",
            folder.display()
        ))
    } else {
        Ok(folder)
    })
}

/// The folders of a line of `-L` flags, in which a backslash stands before a space.
fn folders(flags: &str) -> Vec<PathBuf> {
    let (mut words, mut word, mut flags) = (Vec::new(), String::new(), flags.trim().chars());
    while let Some(c) = flags.next() {
        match c {
            '\\' => word.extend(flags.next()),
            c if c.is_whitespace() => words.push(std::mem::take(&mut word)),
            c => word.push(c),
        }
    }
    words.push(word);
    words
        .iter()
        .filter_map(|word| word.strip_prefix("-L"))
        .map(PathBuf::from)
        .collect()
}

/// The folder of the installed library, if pkg-config is installed and knows it.
fn installed() -> Option<PathBuf> {
    let program = env::var_os("PKG_CONFIG").unwrap_or_else(|| OsString::from("pkg-config"));
    let answer = Command::new(program)
        .args(["--libs-only-L", "peldozkar"])
        // Else a folder that the linker looks in anyway is left out.
        .env("PKG_CONFIG_ALLOW_SYSTEM_LIBS", "1")
        .stderr(Stdio::null())
        .output()
        .ok()
        .filter(|answer| answer.status.success())?;
    folders(&String::from_utf8(answer.stdout).ok()?)
        .into_iter()
        .find(|folder| folder.join(LIBRARY).is_file())
}

/// The repository's own target/lib, if this crate lies in the repository and the library is made.
fn made() -> Option<PathBuf> {
    let here = env::var_os("CARGO_MANIFEST_DIR")?;
    let folder = Path::new(&here).ancestors().nth(2)?.join("target/lib");
    println!("cargo::rerun-if-changed={}", folder.join(LIBRARY).display());
    folder.join(LIBRARY).is_file().then_some(folder)
}

fn found() -> Result<PathBuf, String> {
    named().unwrap_or_else(|| {
        installed().or_else(made).ok_or_else(|| {
            format!(
                "{LIBRARY} is not found: PEL_LIB_DIR isn't set, pkg-config doesn't know peldozkar, and \
                 the repository's target/lib hasn't got it. Make it with `make lib` in the repository, \
                 or name its folder in PEL_LIB_DIR"
            )
        })
    })
}

fn main() {
    println!("cargo::rerun-if-changed=build.rs");
    for name in [
        "PEL_LIB_DIR",
        "PKG_CONFIG",
        "PKG_CONFIG_PATH",
        "PKG_CONFIG_LIBDIR",
        "PKG_CONFIG_SYSROOT_DIR",
    ] {
        println!("cargo::rerun-if-env-changed={name}");
    }
    match found() {
        Ok(folder) => {
            println!("cargo::rustc-link-search=native={}", folder.display());
            println!("cargo::rerun-if-changed={}", folder.join(LIBRARY).display());
        }
        Err(why) => println!("cargo::error={why}"),
    }
}
