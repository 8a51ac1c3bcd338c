//! The program run on files of a test's own.

use std::ffi::{OsStr, OsString};
use std::fs;
use std::path::{Path, PathBuf};

use tool::paint::Paint;
use tool::Console;

/// What the program brought: the exit code, standard output, standard error.
pub type Ran = (u8, String, String);

/// A new directory.
pub fn directory(name: &str) -> PathBuf {
    let place = Path::new(env!("CARGO_TARGET_TMPDIR")).join(name);
    let _ = fs::remove_dir_all(&place);
    fs::create_dir_all(&place).expect("a directory");
    place
}

/// A file in a directory.
pub fn file(directory: &Path, name: impl AsRef<OsStr>, bytes: &[u8]) -> PathBuf {
    let path = directory.join(name.as_ref());
    fs::write(&path, bytes).expect("a file");
    path
}

/// Runs a command line in this process, with or without colours.
pub fn run_in(paint: Paint, words: &[&OsStr]) -> Ran {
    let words: Vec<OsString> = words.iter().map(OsString::from).collect();
    let (mut out, mut err) = (Vec::new(), Vec::new());
    let code = tool::run(
        &words,
        &mut Console {
            out: &mut out,
            err: &mut err,
            paint,
            bar: false,
        },
    );
    let text = |bytes| String::from_utf8(bytes).expect("text");
    (code, text(out), text(err))
}

/// Runs a command on a file: `ask FILE n1 a2` is `on(file, "ask n1 a2")`.
pub fn on(file: &Path, line: &str) -> Ran {
    let mut words: Vec<&OsStr> = line.split_whitespace().map(OsStr::new).collect();
    words.insert(1, file.as_os_str());
    run_in(Paint::default(), &words)
}
