//! The report program whose standard descriptors are full, closed, directories or pipes without a reader: what it tells on standard error, and
//! that standard error changes nothing on standard output.

use std::fs::{self, File};
use std::io::{self, Write as _};
use std::os::unix::process::CommandExt as _;
use std::path::Path;
use std::process::{Command, ExitStatus, Stdio};
use std::thread::{self, JoinHandle};
use std::time::Duration;

use crate::program::{
    all_of, dials, directory, ends, program, sheet_l, Sheet, Wrote, INPUT_FAILED, LINE_UNWRITTEN,
    QUESTION_CUT, SHEET_MISSING,
};

const SIGPIPE: i32 = 13;

unsafe extern "C" {
    fn signal(number: i32, handler: usize) -> usize;
    fn close(descriptor: i32) -> i32;
}

/// The program starts with this descriptor closed.
fn without(command: &mut Command, descriptor: i32) {
    let closes = move || match unsafe { close(descriptor) } {
        0 => Ok(()),
        _ => Err(io::Error::last_os_error()),
    };
    unsafe { command.pre_exec(closes) };
}

/// The program starts with SIGPIPE ignored. Otherwise the standard library has it start with the signal's usual action.
fn ignoring_sigpipe(command: &mut Command) {
    const IGNORED: usize = 1;
    let ignores = || {
        unsafe { signal(SIGPIPE, IGNORED) };
        Ok(())
    };
    unsafe { command.pre_exec(ignores) };
}

/// A pipe that nobody reads. A program that another test starts meanwhile may hold its reading end for a moment.
fn unread() -> Stdio {
    let (reader, mut writer) = io::pipe().expect("a pipe");
    drop(reader);
    while writer.write(&[0]).is_ok() {
        thread::sleep(Duration::from_millis(1));
    }
    writer.into()
}

fn full() -> Stdio {
    let device = File::options().write(true).open("/dev/full");
    device.expect("a device").into()
}

/// An input of these bytes, in a file.
fn input(place: &Path, bytes: &[u8]) -> File {
    let file = place.join("input");
    fs::write(&file, bytes).expect("a file");
    File::open(file).expect("a file")
}

/// How the program ends, and what it writes where standard output and standard error are pipes.
fn run(command: &mut Command) -> (ExitStatus, Wrote) {
    let mut run = command.spawn().expect("the program");
    let output = run.stdout.take().map(all_of);
    let errors = run.stderr.take().map(all_of);
    let status = ends(&mut run, || ());
    let text = |reader: Option<JoinHandle<String>>| {
        reader.map_or(String::new(), |text| text.join().expect("text"))
    };
    let wrote = Wrote {
        lines: text(output),
        notices: text(errors),
    };
    (status, wrote)
}

#[test]
fn an_output_that_cannot_be_written_is_told() {
    let place = directory("no-output", &Sheet::File(sheet_l()));
    let (questions, _) = dials(30);
    let told = |prepare: fn(&mut Command)| {
        let mut command = program(&place);
        command
            .stdin(input(&place, &questions))
            .stderr(Stdio::piped());
        prepare(&mut command);
        let (status, wrote) = run(&mut command);
        assert!(status.success(), "{status}");
        assert_eq!(wrote.notices, LINE_UNWRITTEN);
    };
    told(|command| {
        command.stdout(full());
    });
    told(|command| without(command, 1));
    told(|command| ignoring_sigpipe(command.stdout(unread())));
}

#[test]
fn an_output_that_nobody_reads_ends_the_run() {
    let (question, _) = dials(1);
    let closed = |command: &mut Command| without(command, 1);
    let unheard = |command: &mut Command| ignoring_sigpipe(command.stdout(unread()));
    for prepare in [closed as fn(&mut Command), unheard] {
        let (input_reader, mut input_writer) = io::pipe().expect("a pipe");
        let mut command = program(&directory("endless-input", &Sheet::File(sheet_l())));
        prepare(command.stdin(input_reader).stderr(Stdio::piped()));
        let mut run = command.spawn().expect("the program");
        drop(command);
        let errors = all_of(run.stderr.take().expect("a pipe"));
        // The input goes on, for as long as its pipe has room, and the run ends all the same.
        let mut room = 5_000;
        let status = ends(&mut run, || {
            if room > 0 {
                room -= 1;
                let _ = input_writer.write_all(&question);
            }
        });
        assert!(status.success(), "{status}");
        assert_eq!(errors.join().expect("text"), LINE_UNWRITTEN);
    }
}

/// The program ignores SIGPIPE by itself, so what starts it need not.
#[test]
fn an_output_that_nobody_reads_is_told_whatever_starts_the_program() {
    let place = directory("unread-output", &Sheet::Missing);
    let (questions, _) = dials(3);
    for prepare in [(|_| {}) as fn(&mut Command), ignoring_sigpipe] {
        let mut command = program(&place);
        command
            .stdin(input(&place, &questions))
            .stdout(unread())
            .stderr(Stdio::piped());
        prepare(&mut command);
        let (status, wrote) = run(&mut command);
        assert!(status.success(), "{status}");
        assert_eq!(wrote.notices, SHEET_MISSING.to_string() + LINE_UNWRITTEN);
    }
}

#[test]
fn an_input_that_cannot_be_read_is_told() {
    let place = directory("no-input", &Sheet::File(sheet_l()));
    let wrote = |prepare: &dyn Fn(&mut Command)| {
        let mut command = program(&place);
        command.stdout(Stdio::piped()).stderr(Stdio::piped());
        prepare(&mut command);
        let (status, wrote) = run(&mut command);
        assert!(status.success(), "{status}");
        assert_eq!(wrote.lines, "");
        wrote.notices
    };
    let a_directory = |command: &mut Command| {
        command.stdin(File::open(&place).expect("a directory"));
    };
    let nothing = |command: &mut Command| {
        command.stdin(Stdio::null());
    };
    assert_eq!(wrote(&a_directory), INPUT_FAILED);
    assert_eq!(wrote(&|command| without(command, 0)), INPUT_FAILED);
    assert_eq!(wrote(&nothing), "");
}

#[test]
fn standard_error_changes_nothing_that_is_printed() {
    let place = directory("no-errors", &Sheet::Missing);
    let (mut questions, _) = dials(3);
    questions.push(6);
    let printed = |prepare: fn(&mut Command)| {
        let mut command = program(&place);
        command
            .stdin(input(&place, &questions))
            .stdout(Stdio::piped());
        prepare(&mut command);
        let (status, wrote) = run(&mut command);
        assert!(status.success(), "{status}");
        assert_eq!(wrote.lines, "2 0 0 0 0 0\n".repeat(4));
        wrote.notices
    };
    let told = printed(|command| {
        command.stderr(Stdio::piped());
    });
    assert_eq!(told, SHEET_MISSING.to_string() + QUESTION_CUT);
    printed(|command| {
        command.stderr(full());
    });
    printed(|command| without(command, 2));
    printed(|command| ignoring_sigpipe(command.stderr(unread())));
    printed(|command| {
        command.stderr(unread());
    });
}
