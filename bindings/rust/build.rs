//! Links the archive: from the directory that SWISTOPAL_LIB_DIR names, else from the repository's target/lib.

use std::env;
use std::path::PathBuf;
use std::process::exit;

const VARIABLE: &str = "SWISTOPAL_LIB_DIR";
const ARCHIVE: &str = "libswistopal.a";

fn main() {
    println!("cargo:rerun-if-env-changed={VARIABLE}");
    let manifest = PathBuf::from(env::var_os("CARGO_MANIFEST_DIR").expect("cargo sets it"));
    let (directory, origin) = match env::var_os(VARIABLE) {
        Some(directory) => (PathBuf::from(directory), "it is from SWISTOPAL_LIB_DIR"),
        None => (
            manifest.join("../../target/lib"),
            "SWISTOPAL_LIB_DIR is not set",
        ),
    };
    let archive = directory.join(ARCHIVE);
    if !archive.is_file() {
        eprintln!("no {ARCHIVE} in {} ({origin})", directory.display());
        eprintln!("`make` at the repository's root makes target/lib/{ARCHIVE};");
        eprintln!(
            "to link another one, set SWISTOPAL_LIB_DIR to its directory, as an absolute path"
        );
        exit(1);
    }
    let directory = directory
        .canonicalize()
        .expect("the archive's directory is there");
    println!("cargo:rerun-if-changed={}", archive.display());
    println!("cargo:rustc-link-search=native={}", directory.display());
    println!("cargo:rustc-link-lib=static=swistopal");
}
