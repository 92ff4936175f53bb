//! Finds libaspda.a: in the directory that ASPDA_LIB_DIR names, else where `.ci/build` puts it.

use std::path::PathBuf;
use std::{env, process};

fn main() {
    println!("cargo:rerun-if-env-changed=ASPDA_LIB_DIR");
    let directory = library_directory();
    let library = directory.join("libaspda.a");
    println!("cargo:rerun-if-changed={}", library.display());
    if !library.is_file() {
        eprintln!("There is no {}.", library.display());
        eprintln!("Build it with `.ci/build` at the root of the repository, or name the directory that has");
        eprintln!("libaspda.a in the environment variable ASPDA_LIB_DIR, as an absolute path.");
        process::exit(1);
    }
    println!("cargo:rustc-link-search=native={}", directory.display());
}

fn library_directory() -> PathBuf {
    match env::var_os("ASPDA_LIB_DIR") {
        Some(directory) => PathBuf::from(directory),
        // Cargo sets this variable for every build script.
        None => PathBuf::from(env::var_os("CARGO_MANIFEST_DIR").unwrap_or_default()).join("../../target/staticlib"),
    }
}
