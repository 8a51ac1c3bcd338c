//! The examples do what they say.

use std::env;
use std::fs;
use std::io::Write as _;
use std::path::{Path, PathBuf};
use std::process::{Command, Output, Stdio};

/// The example's program, which `cargo test` builds beside this one.
fn example(name: &str) -> Command {
    let tests = env::current_exe().expect("this program");
    let target = tests.ancestors().nth(2).expect("the target's directory");
    let program = target.join("examples").join(name);
    assert!(program.exists(), "`cargo build --examples` builds {name}");
    Command::new(program)
}

/// A new directory with some files.
fn directory(name: &str, files: &[(&str, &[u8])]) -> PathBuf {
    let place = Path::new(env!("CARGO_TARGET_TMPDIR")).join(name);
    let _ = fs::remove_dir_all(&place);
    fs::create_dir_all(&place).expect("a directory");
    for (file, bytes) in files {
        fs::write(place.join(file), bytes).expect("a file");
    }
    place
}

/// One Int attribute, on two nodes: their figures.
fn figures(first: u8, second: u8) -> [u8; 24] {
    [
        0x41, 2, 0, 0x4E, 0, 0x4E, 0, // the attribute and the nodes
        0x56, 0, 0, 0, first, 0, 0, 0, 0x56, 1, 0, 0, second, 0, 0, 0, // the figures
        0x5A,
    ]
}

/// What the server does with a sheet and lines.
fn served(place: &Path, arguments: &[&str], lines: &str) -> Output {
    let mut server = example("server")
        .args(arguments)
        .current_dir(place)
        .stdin(Stdio::piped())
        .stdout(Stdio::piped())
        .stderr(Stdio::piped())
        .spawn()
        .expect("the server");
    // A server that refuses its sheet does not read on.
    let _ = server
        .stdin
        .take()
        .expect("a pipe")
        .write_all(lines.as_bytes());
    server.wait_with_output().expect("its output")
}

#[test]
fn the_server_answers_in_order_and_takes_over_new_sheets() {
    let (old, new) = (figures(7, 8), figures(70, 80));
    let files = [("old", &old[..]), ("new", &new), ("cut", &new[..20])];
    let place = directory("server", &files);
    let mut lines = String::from("0 0\n1 0\n");
    let mut answers = String::from("node 0, attribute 0: 7\nnode 1, attribute 0: 8\n");
    for _ in 0..200 {
        lines += "0 0\nload cut\n1 0\nload new\n0 0\n1 0\nload old\n1 0\nload missing\n0 0\n";
        answers += "node 0, attribute 0: 7\n";
        answers += "cut: stop 2 at byte 15: the sheet has an unknown, misplaced or cut command, no end command, or bytes after it\n";
        answers += "node 1, attribute 0: 8\nnew: 2 nodes\n";
        answers += "node 0, attribute 0: 70\nnode 1, attribute 0: 80\nold: 2 nodes\n";
        answers += "node 1, attribute 0: 8\nmissing: No such file or directory (os error 2)\n";
        answers += "node 0, attribute 0: 7\n";
    }
    lines += "5 0\n0\nzero 0\n";
    answers += "node 5, attribute 0: stop 12: the question is not a well-formed expression of 1 to 256 bytes\n";
    answers += "0: neither `NODE ATTRIBUTE` nor `load FILE`\n";
    answers += "zero 0: no numbers of a node and an attribute\n";
    let output = served(&place, &["old"], &lines);
    assert!(output.status.success(), "{output:?}");
    assert_eq!(String::from_utf8_lossy(&output.stdout), answers);
    assert!(output.stderr.is_empty());
}

#[test]
fn a_server_without_a_good_sheet_says_why() {
    let place = directory("server-refused", &[("empty", &[])]);
    for (arguments, status, said) in [
        (&[][..], 2, "server: name the file of a sheet\n"),
        (
            &["nothing"],
            1,
            "server: nothing: No such file or directory (os error 2)\n",
        ),
        (
            &["empty"],
            1,
            "server: empty: stop 2 at byte 0: the sheet has an unknown, misplaced or cut command, no end command, or bytes after it\n",
        ),
    ] {
        let output = served(&place, arguments, "0 0\n");
        assert_eq!(output.status.code(), Some(status));
        assert_eq!(String::from_utf8_lossy(&output.stderr), said);
        assert!(output.stdout.is_empty());
    }
}

#[test]
fn the_fleet_has_a_row_for_each_program() {
    let output = example("fleet").arg("6").output().expect("its output");
    assert!(output.status.success(), "{output:?}");
    let text = String::from_utf8(output.stdout).expect("text");
    assert!(text.starts_with("6144 handsets in 6 sheets"));
    let rows: Vec<&str> = text.lines().filter(|line| line.starts_with("| ")).collect();
    assert_eq!(rows.len(), 4, "{text}");
    for (row, program) in rows[1..].iter().zip(["Sofretu", "plain", "plain"]) {
        assert!(row[2..].starts_with(program), "{text}");
        assert_eq!(row.split('|').count(), 8, "{text}");
    }
    for arguments in [&["1"][..], &["many"], &["2", "another"]] {
        let output = example("fleet").args(arguments).output();
        assert_eq!(output.expect("its output").status.code(), Some(2));
    }
}
