//! Finds libwmod: in the folder that `WMOD_LIB_DIR` names, else by `pkg-config`, else in the linker's own folders.
//! Links `libwmod.a` if the folder has it, so that the program runs without the folder. Fails if no place has the
//! library.

use std::env;
use std::fs;
use std::io;
use std::path::{Path, PathBuf};
use std::process::{self, Command};

/// The folders that `pkg-config` names; none if that command is missing or does not know wmod.
fn by_pkg_config() -> Vec<PathBuf> {
    let words = ["--libs-only-L", "--keep-system-libs", "wmod"];
    match Command::new("pkg-config").args(words).output() {
        Ok(ran) => String::from_utf8_lossy(&ran.stdout)
            .split_whitespace()
            .filter_map(|it| it.strip_prefix("-L"))
            .map(PathBuf::from)
            .collect(),
        Err(_) => Vec::new(),
    }
}

fn has_library(folder: &Path) -> bool {
    ["libwmod.a", "libwmod.so"]
        .iter()
        .any(|it| folder.join(it).exists())
}

/// Whether a program links with the library as cargo would link it: the flags of cargo may name folders too.
fn is_found_by_linker() -> io::Result<bool> {
    let room = PathBuf::from(env::var_os("OUT_DIR").unwrap_or_default());
    let source = room.join("empty.rs");
    fs::write(&source, "fn main() {}")?;
    let flags = env::var("CARGO_ENCODED_RUSTFLAGS").unwrap_or_default();
    let mut rustc = Command::new(env::var_os("RUSTC").unwrap_or_else(|| "rustc".into()));
    rustc.args(flags.split('\x1f').filter(|it| !it.is_empty()));
    rustc.args(env::var("TARGET").map(|it| format!("--target={it}")));
    rustc.args(env::var("RUSTC_LINKER").map(|it| format!("-Clinker={it}")));
    rustc
        .arg("-lwmod")
        .arg(source)
        .arg("-o")
        .arg(room.join("empty"));
    Ok(rustc.output()?.status.success())
}

/// The folders to search; none if the linker finds the library without them. Fails with a sentence if no place has it.
fn folders() -> Result<Vec<PathBuf>, String> {
    if let Some(folder) = env::var_os("WMOD_LIB_DIR").map(PathBuf::from) {
        return if has_library(&folder) {
            Ok(vec![folder])
        } else {
            Err(format!(
                "WMOD_LIB_DIR is {folder:?}, which has neither libwmod.a nor libwmod.so"
            ))
        };
    }
    let folders = by_pkg_config();
    if folders.iter().any(|it| has_library(it)) || is_found_by_linker().unwrap_or(false) {
        return Ok(folders);
    }
    Err(
        "libwmod is not found: set WMOD_LIB_DIR to the folder of libwmod.a, \
         or PKG_CONFIG_PATH to that of wmod.pc"
            .into(),
    )
}

fn main() {
    for name in ["WMOD_LIB_DIR", "PKG_CONFIG_PATH", "DOCS_RS"] {
        println!("cargo:rerun-if-env-changed={name}");
    }
    // docs.rs builds the documentation alone, and has no library
    if env::var_os("DOCS_RS").is_some() {
        return;
    }
    let folders = folders().unwrap_or_else(|fault| {
        eprintln!("{fault}");
        process::exit(1)
    });
    for folder in &folders {
        println!("cargo:rustc-link-search=native={}", folder.display());
    }
    let is_static = folders.iter().any(|it| it.join("libwmod.a").exists());
    println!(
        "cargo:rustc-link-lib={}wmod",
        if is_static { "static=" } else { "" }
    );
}
