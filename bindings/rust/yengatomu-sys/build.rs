//! Links libyengatomu.a, from YENGATOMU_LIB_DIR or else from `lib` beside this file, as a release has it, or from bindings/lib.
use std::path::PathBuf;
use std::{env, process};

fn main() {
    println!("cargo:rerun-if-env-changed=YENGATOMU_LIB_DIR");
    let here = PathBuf::from(env::var_os("CARGO_MANIFEST_DIR").expect("cargo sets it"));
    let beside = if here.join("lib").is_dir() { "lib" } else { "../../lib" };
    let folder = here.join(env::var_os("YENGATOMU_LIB_DIR").unwrap_or_else(|| beside.into()));
    let archive = folder.join("libyengatomu.a");
    println!("cargo:rerun-if-changed={}", archive.display());
    if !archive.is_file() {
        eprintln!("{} isn't there.", archive.display());
        eprintln!("Make it by `tools/staticlib`, at the top of the repository; or set YENGATOMU_LIB_DIR to the folder where it is.");
        process::exit(1);
    }
    let folder = folder.canonicalize().unwrap_or(folder);
    println!("cargo:rustc-link-search=native={}", folder.display());
    println!("cargo:rustc-link-lib=static=yengatomu");
}
