//! How a program of Rust finds the library: what `SOFRETU_LIB_DIR` names is linked, and a library that is missing is told of in one line.

use std::fs;
use std::path::{Path, PathBuf};
use std::process::{Command, Output};

const ROOT: &str = concat!(env!("CARGO_MANIFEST_DIR"), "/../..");

/// A new directory.
fn directory(name: &str) -> PathBuf {
    let place = Path::new(env!("CARGO_TARGET_TMPDIR")).join(name);
    let _ = fs::remove_dir_all(&place);
    fs::create_dir_all(&place).expect("a directory");
    place
}

/// A program outside the repository that uses the crate `sofretu`.
fn user(name: &str) -> PathBuf {
    let place = directory(name);
    let crate_path = Path::new(ROOT).join("rust/sofretu");
    let manifest = format!(
        "[package]\nname = \"user\"\nversion = \"1.0.0\"\nedition = \"2021\"\n[workspace]\n[dependencies]\nsofretu = {{ path = {crate_path:?} }}\n"
    );
    fs::write(place.join("Cargo.toml"), manifest).expect("a file");
    fs::create_dir(place.join("src")).expect("a directory");
    let program = "fn main() -> Result<(), sofretu::Refusal> {
        let sheet = sofretu::Sheet::load([0x5A])?;
        let mut session = sofretu::Session::open(&sheet, sofretu::Store::default())?;
        println!(\"{}\", session.ask(&[0x12, 5, 0, 0, 0], 0).value?);
        Ok(())
    }";
    fs::write(place.join("src/main.rs"), program).expect("a file");
    place
}

/// What cargo does in a directory, with these variables and no other of the library's.
fn cargo(place: &Path, command: &str, variables: &[(&str, &Path)]) -> Output {
    Command::new(env!("CARGO"))
        .args([command, "--offline", "--quiet"])
        .current_dir(place)
        .env_remove("SOFRETU_LIB_DIR")
        .env_remove("SOFRETU_NO_LINK")
        .env_remove("CARGO_TARGET_DIR")
        .envs(variables.iter().copied())
        .output()
        .expect("cargo runs")
}

fn said(output: &Output) -> String {
    String::from_utf8_lossy(&output.stderr).into_owned()
}

#[test]
fn the_library_is_the_one_in_the_directory_that_is_named() {
    let place = user("linking");
    let library = directory("library");
    let named = [("SOFRETU_LIB_DIR", library.as_path())];
    // An archive of nothing is linked, and has none of the calls.
    fs::write(library.join("libsofretu.a"), "!<arch>\n").expect("a file");
    let output = cargo(&place, "run", &named);
    assert!(!output.status.success());
    assert!(said(&output).contains("sofretu_check_sheet"), "{output:?}");
    // The proved one takes its place.
    let proved = Path::new(ROOT).join("target/staticlib/libsofretu.a");
    fs::copy(proved, library.join("libsofretu.a")).expect("the library");
    let output = cargo(&place, "run", &named);
    assert!(output.status.success(), "{output:?}");
    assert_eq!(String::from_utf8_lossy(&output.stdout), "5\n");
}

#[test]
fn a_missing_library_is_told_of_in_one_line() {
    let place = user("unlinked");
    let nowhere = place.join("nowhere");
    let output = cargo(&place, "build", &[("SOFRETU_LIB_DIR", &nowhere)]);
    assert!(!output.status.success());
    let said = said(&output);
    let line = format!(
        "error: sofretu-sys@{}: {}/libsofretu.a is missing: SOFRETU_LIB_DIR must name the directory that has it",
        env!("CARGO_PKG_VERSION"),
        nowhere.display()
    );
    assert!(said.lines().any(|told| told == line), "{said}");
    // To check a program, or to document it, takes no library.
    let output = cargo(&place, "check", &[("SOFRETU_NO_LINK", &place)]);
    assert!(output.status.success(), "{output:?}");
}

#[test]
fn outside_a_repository_with_a_library_one_is_told_what_to_run() {
    // The crates as they are, in a place where no library was built.
    let place = directory("clone");
    for name in ["calls", "sofretu-sys", "sofretu"] {
        copy(
            &Path::new(ROOT).join("rust").join(name),
            &place.join("rust").join(name),
        );
    }
    let manifest = fs::read_to_string(Path::new(ROOT).join("rust/Cargo.toml")).expect("a file");
    let (_, rest) = manifest
        .split_once("resolver")
        .expect("the members before it");
    let members = "[workspace]\nmembers = [\"calls\", \"sofretu\", \"sofretu-sys\"]\nresolver";
    let rest: String = rest
        .lines()
        .filter(|line| {
            !["oracle", "trials", "twin"]
                .iter()
                .any(|name| line.starts_with(name))
        })
        .map(|line| format!("{line}\n"))
        .collect();
    fs::write(place.join("rust/Cargo.toml"), format!("{members}{rest}")).expect("a file");
    let output = cargo(&place.join("rust"), "build", &[]);
    assert!(!output.status.success());
    let said = said(&output);
    let told = said.lines().find(|line| line.contains("is missing: "));
    let told = told.unwrap_or_else(|| panic!("{said}"));
    assert!(told.ends_with("run `scripts/build.sh` in Sofretu's repository, or set SOFRETU_LIB_DIR to the directory that has it"), "{told}");
}

/// A directory with all it holds.
fn copy(from: &Path, to: &Path) {
    fs::create_dir_all(to).expect("a directory");
    for entry in fs::read_dir(from).expect("a directory") {
        let entry = entry.expect("an entry");
        let to = to.join(entry.file_name());
        if entry.file_type().expect("its type").is_dir() {
            copy(&entry.path(), &to);
        } else {
            fs::copy(entry.path(), &to).expect("a file");
        }
    }
}
