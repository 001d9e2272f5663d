//! Links the proved calls: libkartsodi.a of the folder that KARTSODI_LIB_DIR names, else of target/staticlib, where c/build writes it.
use std::env;
use std::path::{Path, PathBuf};
use std::process::exit;

const LIBRARY: &str = "libkartsodi.a";

fn main() {
    let built = || Path::new(env!("CARGO_MANIFEST_DIR")).with_file_name("target").join("staticlib");
    let named = env::var_os("KARTSODI_LIB_DIR").filter(|dir| !dir.is_empty()).map(PathBuf::from);
    let dir = named.clone().unwrap_or_else(built);
    println!("cargo:rerun-if-env-changed=KARTSODI_LIB_DIR");
    println!("cargo:rerun-if-changed={}", dir.join(LIBRARY).display());
    if !dir.join(LIBRARY).is_file() {
        missing(&dir, named.is_some());
    }
    println!("cargo:rustc-link-search=native={}", dir.display());
    println!("cargo:rustc-link-lib=static=kartsodi");
}

/// Says what to do where the library is not there.
fn missing(dir: &Path, named: bool) -> ! {
    let from = if named { "KARTSODI_LIB_DIR names this folder" } else { "c/build writes it there" };
    eprintln!("error: there is no {LIBRARY} in {} ({from}).", dir.display());
    eprintln!("Make it with c/build (it needs the Rattle kit's rt, and ar), or set KARTSODI_LIB_DIR to the folder that has it, as an absolute path.");
    exit(1);
}
