//! Files that are not what they should be, and outputs that are closed.

mod program;

use std::ffi::OsStr;
use std::fs::{self, File};
use std::os::unix::ffi::OsStrExt as _;
use std::process::{Command, Stdio};

use program::{directory, file, on};
use trials::write::*;

const COMMANDS: [&str; 6] = ["show", "check", "ask n0 a0", "all a0", "why n0 a0", "draw"];

/// The program itself.
fn program() -> Command {
    let mut program = Command::new(env!("CARGO_BIN_EXE_sofretu"));
    program.env_remove("NO_COLOR");
    program
}

#[test]
fn files_that_cannot_be_read() {
    let place = directory("unread");
    for command in COMMANDS.into_iter().chain(["store"]) {
        let missing = place.join("missing");
        let (code, out, err) = on(&missing, command);
        assert_eq!((code, out.as_str()), (3, ""));
        let front = format!("sofretu: {}: ", missing.display());
        assert!(err.starts_with(&front) && err.lines().count() == 1, "{err}");
        let (code, _, err) = on(&place, command);
        assert!(code == 3 && err.contains(": Is a directory"), "{err}");
    }
}

#[test]
fn empty_cut_and_overlong_files() {
    let place = directory("lengths");
    let empty = file(&place, "empty", &[]);
    let (code, out, _) = on(&empty, "show");
    assert_eq!(code, 0);
    assert_eq!(
        out,
        format!("    0{:30}! stop 2: the end command is missing\n", "")
    );
    let (code, out, _) = on(&empty, "check");
    assert!(code == 1 && out.contains(": stop 2 at byte 0: "), "{out}");
    let (code, _, err) = on(&empty, "store");
    assert!(
        code == 1 && err.ends_with(": neither a store file nor a dump of entries\n"),
        "{err}"
    );

    let cut = file(&place, "cut", &sheet_l()[..80]);
    let (code, out, _) = on(&cut, "show");
    assert_eq!((code, out.lines().count()), (0, 14));
    assert!(
        out.ends_with("   72  52 01 02 19 00 20 21 21     8 bytes  ! stop 2: a command is cut\n"),
        "{out}"
    );
    let (code, _, err) = on(&cut, "ask n1 a2");
    assert!(code == 1 && err.contains(": stop 2 at byte 72: "), "{err}");

    let long = file(&place, "long", &[0x5A; 70_000]);
    let (code, out, _) = on(&long, "check");
    assert!(
        code == 1 && out.contains(": stop 1: the sheet is longer than 65,536 bytes\n"),
        "{out}"
    );
    let (code, out, _) = on(&long, "show");
    let last = "65537  ..                          4,463 bytes more, not read  ! stop 1: a sheet has at most 65,536 bytes";
    assert_eq!(
        (code, out.lines().count(), out.lines().last()),
        (0, 3, Some(last))
    );
    // The longest that is no stop 1, and one byte more.
    for (length, more) in [(65_536, false), (65_537, true)] {
        let path = file(&place, "long", &vec![0x5A; length]);
        let (_, out, _) = on(&path, "check");
        assert_eq!(out.contains(": stop 1: "), more, "{out}");
        let (_, out, _) = on(&path, "show");
        assert_eq!(out.contains("! stop 1: "), more, "{out}");
    }
}

#[test]
fn a_name_that_is_no_utf_8() {
    let place = directory("names");
    let sheet = file(&place, OsStr::from_bytes(b"l\xff.bin"), &sheet_l());
    let store = place.join(OsStr::from_bytes(b"l\xfe.store"));
    let asked = program()
        .arg("ask")
        .arg(&sheet)
        .args(["n1", "a2", "--store"])
        .arg(&store)
        .output();
    let asked = asked.expect("the program");
    assert_eq!(asked.status.code(), Some(0));
    assert!(asked.stdout.starts_with(b"n1.a2 = 700\n"));
    assert_eq!(fs::read(&store).expect("a store file").len(), 84);
    let missing = program()
        .arg("show")
        .arg(OsStr::from_bytes(b"\xff"))
        .output();
    let missing = missing.expect("the program");
    assert_eq!(missing.status.code(), Some(3));
    assert!(missing
        .stderr
        .starts_with("sofretu: \u{fffd}: No such file".as_bytes()));
}

#[test]
fn a_pipe_has_no_colours_and_can_be_closed() {
    let place = directory("pipes");
    let sheet = file(&place, "l.bin", &sheet_l());
    let shown = program()
        .arg("show")
        .arg(&sheet)
        .output()
        .expect("the program");
    assert!(!shown.stdout.contains(&0x1b));

    // More lines than a pipe holds, and nobody who reads them.
    let large = file(&place, "large", &figure(0, 0, 0).repeat(8_000));
    let mut shown = program()
        .arg("show")
        .arg(&large)
        .stdout(Stdio::piped())
        .stderr(Stdio::piped())
        .spawn()
        .expect("the program");
    drop(shown.stdout.take());
    let shown = shown.wait_with_output().expect("the program");
    assert_eq!(
        (shown.status.code(), shown.stderr.as_slice()),
        (Some(0), &b""[..])
    );

    let full = File::options()
        .write(true)
        .open("/dev/full")
        .expect("a full device");
    let shown = program()
        .arg("show")
        .arg(&sheet)
        .stdout(full)
        .stderr(Stdio::piped())
        .output();
    let shown = shown.expect("the program");
    assert_eq!(shown.status.code(), Some(3));
    assert!(shown
        .stderr
        .starts_with(b"sofretu: standard output: No space left on device"));
}
