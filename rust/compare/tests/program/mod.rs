//! The report program, as `scripts/build.sh` links it, run in a directory of its own.

pub mod traced;

use std::fs;
use std::io::{Read, Write as _};
use std::path::{Path, PathBuf};
use std::process::{Child, Command, ExitStatus, Stdio};
use std::thread::{self, JoinHandle};
use std::time::{Duration, Instant};

pub const ROOT: &str = concat!(env!("CARGO_MANIFEST_DIR"), "/../..");

/// The notices on standard error.
pub const SHEET_MISSING: &str = "report: sheet.bin is missing and counts as an empty sheet\n";
pub const SHEET_UNREADABLE: &str =
    "report: sheet.bin cannot be read and counts as an empty sheet\n";
pub const INPUT_FAILED: &str =
    "report: standard input could not be read, which counts as its end\n";
pub const QUESTION_CUT: &str = "report: the last question is cut by the end of standard input\n";
pub const LINE_UNWRITTEN: &str =
    "report: a line could not be written to standard output, which ends the run\n";

/// The notice of a sheet with this stop at this place.
pub fn refused(number: u64, place: u64) -> String {
    let place = match number {
        1 => String::new(),
        8 => format!(" at node {}, attribute {}", place / 32, place % 32),
        _ => format!(" at byte {place}"),
    };
    format!("report: sheet.bin is refused: stop {number}{place}\n")
}

/// What a run wrote: its lines to standard output, its notices to standard error.
#[derive(Debug, PartialEq)]
pub struct Wrote {
    pub lines: String,
    pub notices: String,
}

/// What sheet.bin is.
pub enum Sheet {
    Missing,
    Directory,
    File(Vec<u8>),
}

/// A question as the input has it.
pub fn framed(question: &[u8]) -> Vec<u8> {
    [&(question.len() as u16).to_le_bytes(), question].concat()
}

/// A new directory for a run, with its sheet.bin.
pub fn directory(name: &str, sheet: &Sheet) -> PathBuf {
    let place = Path::new(env!("CARGO_TARGET_TMPDIR")).join(format!("report-{name}"));
    let _ = fs::remove_dir_all(&place);
    fs::create_dir_all(&place).expect("a directory");
    match sheet {
        Sheet::Missing => {}
        Sheet::Directory => fs::create_dir(place.join("sheet.bin")).expect("a directory"),
        Sheet::File(bytes) => fs::write(place.join("sheet.bin"), bytes).expect("a file"),
    }
    place
}

/// The program, to be run in this directory.
pub fn program(directory: &Path) -> Command {
    let file = Path::new(ROOT).join("target/bin/report");
    assert!(
        file.exists(),
        "`scripts/build.sh` puts target/bin/report there"
    );
    let mut command = Command::new(file);
    command.current_dir(directory);
    command
}

/// The status of a program that ends by itself within a minute, while this is done again and again.
pub fn ends(run: &mut Child, mut meanwhile: impl FnMut()) -> ExitStatus {
    let began = Instant::now();
    loop {
        if let Some(status) = run.try_wait().expect("a status") {
            return status;
        }
        if began.elapsed() > Duration::from_secs(60) {
            run.kill().expect("a program");
            run.wait().expect("a status");
            panic!("the run has not ended");
        }
        meanwhile();
        thread::sleep(Duration::from_millis(1));
    }
}

/// What the program writes. The input is written in pieces of these lengths, over and over.
pub fn wrote(name: &str, sheet: &Sheet, input: &[u8], pieces: &[usize]) -> Wrote {
    wrote_in(&directory(name, sheet), input, pieces)
}

pub fn wrote_in(place: &Path, input: &[u8], pieces: &[usize]) -> Wrote {
    let mut run = program(place)
        .stdin(Stdio::piped())
        .stdout(Stdio::piped())
        .stderr(Stdio::piped())
        .spawn()
        .expect("the program");
    let mut pipe = run.stdin.take().expect("a pipe");
    let (input, pieces) = (input.to_vec(), pieces.to_vec());
    let writer = thread::spawn(move || {
        let mut rest = &input[..];
        for piece in pieces.iter().cycle() {
            let (now, later) = rest.split_at(rest.len().min(*piece));
            // The program may have ended already, as after a failed write it does.
            if now.is_empty() || pipe.write_all(now).is_err() {
                break;
            }
            rest = later;
        }
    });
    let output = all_of(run.stdout.take().expect("a pipe"));
    let errors = all_of(run.stderr.take().expect("a pipe"));
    let status = ends(&mut run, || ());
    writer.join().expect("the input is written");
    assert!(status.success(), "{}: {status}", place.display());
    Wrote {
        lines: output.join().expect("text"),
        notices: errors.join().expect("text"),
    }
}

/// All that comes through a pipe, read meanwhile.
pub fn all_of(mut pipe: impl Read + Send + 'static) -> JoinHandle<String> {
    thread::spawn(move || {
        let mut text = String::new();
        pipe.read_to_string(&mut text).expect("text");
        text
    })
}

/// The sheet of document 01.
pub fn sheet_l() -> Vec<u8> {
    fs::read(Path::new(ROOT).join("crates/report/data/sheet.bin")).expect("sheet L")
}

/// Node 1's dial, as the input has it, so many times, and the lines that sheet L has for them.
pub fn dials(times: usize) -> (Vec<u8>, String) {
    let lines = ["0 0 2 700 8 5\n"]
        .into_iter()
        .chain(std::iter::repeat("0 0 2 700 1 5\n"));
    (
        framed(&[0x22, 2, 0x13, 1, 0, 0x10]).repeat(times),
        lines.take(times).collect(),
    )
}
