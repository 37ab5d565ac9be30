//! Links the verified library, and tells the tests where its archive lies.

use std::env;
use std::path::{Path, PathBuf};
use std::process::exit;

fn main() {
    let crate_dir = env::var_os("CARGO_MANIFEST_DIR").expect("cargo sets CARGO_MANIFEST_DIR");
    let lib_dir = match env::var_os("PITSKELO_LIB_DIR") {
        Some(dir) => PathBuf::from(dir),
        None => Path::new(&crate_dir).join("../../target/staticlib"),
    };
    println!("cargo:rerun-if-env-changed=PITSKELO_LIB_DIR");
    let archive = lib_dir.join("libpitskelo.a");
    println!("cargo:rerun-if-changed={}", archive.display());
    let Ok(archive) = archive.canonicalize() else {
        eprintln!("error: the library {} is missing.", archive.display());
        eprintln!("Make it with `tools/library` in the repository's root,");
        eprintln!("or name the folder that holds it in PITSKELO_LIB_DIR (an absolute path).");
        exit(1);
    };
    let lib_dir = archive.parent().expect("a file lies in a folder");
    println!("cargo:rustc-link-search=native={}", lib_dir.display());
    println!("cargo:rustc-link-lib=static=pitskelo");
    println!("cargo:rustc-env=PITSKELO_ARCHIVE={}", archive.display());
}
