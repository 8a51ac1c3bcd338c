//! Links the static library that `scripts/build.sh` writes.

use std::env;
use std::path::PathBuf;

fn main() {
    println!("cargo::rerun-if-env-changed=SOFRETU_LIB_DIR");
    println!("cargo::rerun-if-env-changed=SOFRETU_NO_LINK");
    if env::var_os("SOFRETU_NO_LINK").is_some() {
        return;
    }
    let (directory, mend) = match env::var_os("SOFRETU_LIB_DIR") {
        Some(directory) => (
            PathBuf::from(directory),
            "SOFRETU_LIB_DIR must name the directory that has it",
        ),
        None => (
            PathBuf::from(concat!(
                env!("CARGO_MANIFEST_DIR"),
                "/../../target/staticlib"
            )),
            "run `scripts/build.sh` in Sofretu's repository, or set SOFRETU_LIB_DIR to the directory that has it",
        ),
    };
    let library = directory.join("libsofretu.a");
    println!("cargo::rerun-if-changed={}", library.display());
    if library.is_file() {
        println!("cargo::rustc-link-search=native={}", directory.display());
        println!("cargo::rustc-link-lib=static=sofretu");
    } else {
        println!("cargo::error={} is missing: {mend}", library.display());
    }
}
