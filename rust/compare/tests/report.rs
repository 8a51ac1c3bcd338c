//! The report program: the cases of tests/report, made-up sheets and questions against the second evaluator, and what no contract says of
//! it: the file's name and size, the descriptors, what it makes of reads and writes that fail, wait or are cut short, and that its notices go
//! to standard error.

mod notices;
mod program;

use std::fmt::Write as _;
use std::fs::{self, File};
use std::io::{Read as _, Write as _};
use std::os::fd::AsRawFd;
use std::path::Path;
use std::process::Stdio;
use std::thread;
use std::time::Duration;

use program::traced::{self, Call, Fate};
use program::{
    all_of, dials, directory, ends, framed, program, refused, sheet_l, wrote, wrote_in, Sheet,
    Wrote, INPUT_FAILED, LINE_UNWRITTEN, QUESTION_CUT, ROOT, SHEET_MISSING, SHEET_UNREADABLE,
};
use trials::case::bytes;
use trials::generate;

/// Bytes in hexadecimal, and BYTES*N for those bytes N times.
fn spelt(text: &str) -> Vec<u8> {
    let word = |word: &str| {
        let (once, times) = word.split_once('*').unwrap_or((word, "1"));
        bytes(once)
            .expect("bytes")
            .repeat(times.parse().expect("a number"))
    };
    text.split_whitespace().flat_map(word).collect()
}

/// A run in which nothing went wrong.
fn only_lines(lines: &str) -> Wrote {
    Wrote {
        lines: lines.into(),
        notices: String::new(),
    }
}

#[test]
fn the_cases_print_what_they_say() {
    let text =
        fs::read_to_string(Path::new(ROOT).join("tests/report/cases.txt")).expect("the cases");
    let mut count = 0;
    for case in text.split("\ncase ").skip(1) {
        let mut lines = case.lines();
        let name = lines.next().expect("a name").trim();
        let (mut sheet, mut input) = (Sheet::Missing, Vec::new());
        let (mut lines_due, mut notices_due) = (String::new(), String::new());
        for line in lines.filter(|line| !line.is_empty() && !line.starts_with('#')) {
            match line.split_once(' ') {
                Some(("sheet", "missing")) => sheet = Sheet::Missing,
                Some(("sheet", "directory")) => sheet = Sheet::Directory,
                Some(("sheet", "L")) => sheet = Sheet::File(sheet_l()),
                Some(("sheet", text)) => sheet = Sheet::File(spelt(text)),
                Some(("input", text)) => input.extend(spelt(text)),
                Some(("prints", text)) => writeln!(lines_due, "{text}").expect("text"),
                Some(("says", text)) => writeln!(notices_due, "{text}").expect("text"),
                _ => panic!("{name}: {line}"),
            }
        }
        let due = Wrote {
            lines: lines_due,
            notices: notices_due,
        };
        let whole = wrote(name, &sheet, &input, &[usize::MAX]);
        assert_eq!(whole, due, "{name}");
        let in_pieces = wrote(name, &sheet, &input, &[1, 4096, 3]);
        assert_eq!(in_pieces, due, "{name}, in pieces");
        count += 1;
    }
    assert!(count > 30);
}

/// An accepted sheet of 65,536 bytes: 7 attributes, 1,024 nodes, a figure for each pair, and rules that no node uses.
fn largest() -> Vec<u8> {
    let mut sheet = [0x41, 0, 0].repeat(7);
    sheet.extend([0x4E, 0].repeat(1_024));
    for node in 0..1_024u16 {
        for attribute in 0..7 {
            let [low, high] = node.to_le_bytes();
            sheet.extend([0x56, low, high, attribute, 0, 0, 0, 0]);
        }
    }
    for rule in 0..25u8 {
        let layers = if rule < 24 { 62 } else { 5 };
        sheet.extend([0x52, 1 + rule / 7, rule % 7]);
        sheet.extend((4 * layers as u16 + 1).to_le_bytes());
        sheet.extend([0x20, 0x11, 1].repeat(layers));
        sheet.extend([0x10].repeat(layers + 1));
    }
    sheet.push(0x5A);
    sheet
}

#[test]
fn the_largest_sheet_is_told_from_one_byte_more() {
    let mut sheet = largest();
    assert_eq!(sheet.len(), 65_536);
    let input = framed(&[0x22, 6, 0x13, 0xFF, 3, 0x10]);
    let run = |sheet: &[u8]| {
        let sheet = Sheet::File(sheet.to_vec());
        wrote("largest", &sheet, &input, &[usize::MAX])
    };
    assert_eq!(run(&sheet), only_lines("0 0 0 0 1 1\n"));
    for longer in [65_537, 65_538, 200_000] {
        sheet.resize(longer, 0x5A);
        let due = Wrote {
            lines: "1 0 0 0 0 0\n".into(),
            notices: refused(1, 0),
        };
        assert_eq!(run(&sheet), due, "{longer}");
    }
}

#[test]
fn only_the_file_sheet_bin_is_the_sheet() {
    let (input, lines) = dials(2);
    let place = directory("name", &Sheet::Missing);
    for other in [
        "sheet",
        "Sheet.bin",
        "SHEET.BIN",
        "sheet.bin.bak",
        "sheet.dat",
        "sheets.bin",
        "sheet.bi",
        "0",
        "-",
    ] {
        fs::write(place.join(other), sheet_l()).expect("a file");
    }
    let none = Wrote {
        lines: "2 0 0 0 0 0\n".repeat(2),
        notices: SHEET_MISSING.into(),
    };
    assert_eq!(wrote_in(&place, &input, &[usize::MAX]), none);
    fs::write(place.join("sheet.bin"), sheet_l()).expect("a file");
    assert_eq!(wrote_in(&place, &input, &[usize::MAX]), only_lines(&lines));
}

#[test]
fn generated_inputs_print_the_second_evaluators_answers() {
    let (mut lines, mut notices) = (0, 0);
    for number in 0..400 {
        let case = generate::case(11, number as u64);
        let mut questions: Vec<Vec<u8>> = case.asks.into_iter().map(|ask| ask.question).collect();
        if number % 4 == 0 {
            let long = [257, 300, 4_096, 65_535][number / 4 % 4];
            questions.insert(number % (questions.len() + 1), vec![0x10; long]);
        }
        let mut input: Vec<u8> = questions
            .iter()
            .flat_map(|question| framed(question))
            .collect();
        let cut = number % 3 == 0;
        if cut {
            // A last question that is cut is answered as no bytes are.
            let last = framed(&vec![0x10; [0, 1, 6, 300][number / 3 % 4]]);
            input.extend(&last[..1 + number % (last.len() - 1)]);
            questions.push(Vec::new());
        }
        let (mut store, mut kept) = (vec![0; 12_288], 0);
        let (mut lines_due, mut notices_due) = (String::new(), String::new());
        let check = oracle::ask(&case.sheet, &mut store, kept, &[], 1_000_000);
        if check.number <= 8 {
            notices_due += &refused(check.number as u64, check.place as u64);
            notices += 1;
        }
        if cut {
            notices_due += QUESTION_CUT;
        }
        for question in &questions {
            let answer = oracle::ask(&case.sheet, &mut store, kept, question, 1_000_000);
            kept = answer.kept as u64;
            writeln!(lines_due, "{answer}").expect("text");
            lines += 1;
        }
        let pieces: &[usize] = [&[1][..], &[2, 3, 64], &[1_000, 1], &[70_000, 5]][number % 4];
        let sheet = Sheet::File(case.sheet);
        let due = Wrote {
            lines: lines_due,
            notices: notices_due,
        };
        let wrote = wrote("generated", &sheet, &input, pieces);
        assert_eq!(wrote, due, "case {number}");
    }
    assert!(lines > 1_000 && notices > 10);
}

/// What the program writes of this sheet and this input where its calls fare so. Its standard descriptors are files.
fn traced_run(name: &str, sheet: &Sheet, input: &[u8], fate: impl FnMut(&Call) -> Fate) -> Wrote {
    let place = directory(name, sheet);
    fs::write(place.join("input"), input).expect("a file");
    let create = |name| File::create(place.join(name)).expect("a file");
    let status = traced::run(
        program(&place)
            .stdin(File::open(place.join("input")).expect("a file"))
            .stdout(create("output"))
            .stderr(create("errors")),
        fate,
    );
    assert!(status.success(), "{name}: {status}");
    let text = |name| fs::read_to_string(place.join(name)).expect("text");
    Wrote {
        lines: text("output"),
        notices: text("errors"),
    }
}

/// Whether a call reads the sheet, and not a library, of which the loader reads little at a time.
fn reads_sheet(call: &Call) -> bool {
    !call.writes && call.descriptor > 2 && call.count > 60_000
}

#[test]
fn a_sheet_whose_read_fails_after_some_bytes_counts_as_empty() {
    let (input, _) = dials(2);
    let sheet = Sheet::File(sheet_l());
    // The first read brings all of the sheet, or a part of it.
    for (part, error) in [
        (sheet_l().len() as u64, traced::EIO),
        (50, traced::EIO),
        (50, traced::EACCES),
    ] {
        let mut reads = 0;
        let wrote = traced_run("failing-sheet", &sheet, &input, |call| {
            reads += u64::from(reads_sheet(call));
            match reads {
                1 if reads_sheet(call) => Fate::Cut(part),
                2 if reads_sheet(call) => {
                    assert_eq!(call.count, 65_537 - part);
                    Fate::Fails(error)
                }
                _ => Fate::Made,
            }
        });
        let due = Wrote {
            lines: "2 0 0 0 0 0\n".repeat(2),
            notices: SHEET_UNREADABLE.into(),
        };
        assert_eq!(wrote, due);
        assert_eq!(reads, 2);
    }
}

#[test]
fn interrupted_and_short_calls_change_nothing() {
    let (mut input, lines) = dials(40);
    input.push(6);
    let mut calls = [0; 3];
    let wrote = traced_run("interrupted", &Sheet::File(sheet_l()), &input, |call| {
        let Some(count) = calls.get_mut(call.descriptor as usize) else {
            return Fate::Made;
        };
        *count += 1;
        match *count % 4 {
            0 => Fate::Fails(traced::EINTR),
            2 => Fate::Fails(traced::EAGAIN),
            _ => Fate::Cut(1 + *count % 7),
        }
    });
    let due = Wrote {
        lines: lines + "12 0 0 0 0 5\n",
        notices: QUESTION_CUT.into(),
    };
    assert_eq!(wrote, due);
    assert!(calls[0] > 100 && calls[1] > 100 && calls[2] > 20);
}

#[test]
fn a_sheet_that_comes_in_pieces_is_whole() {
    let (input, lines) = dials(2);
    let mut calls = 0;
    let wrote = traced_run("pieces", &Sheet::File(sheet_l()), &input, |call| {
        if !reads_sheet(call) {
            return Fate::Made;
        }
        calls += 1;
        match calls % 4 {
            0 => Fate::Fails(traced::EINTR),
            2 => Fate::Fails(traced::EAGAIN),
            _ => Fate::Cut(1 + calls % 7),
        }
    });
    assert_eq!(wrote, only_lines(&lines));
    assert!(calls > 40);
}

#[test]
fn a_read_of_standard_input_that_fails_is_its_end() {
    let (input, lines) = dials(3);
    // Two questions come whole, and the third is cut, or has not begun.
    for (came, cut) in [(20, true), (16, false)] {
        let mut reads = 0;
        let wrote = traced_run("failing-input", &Sheet::File(sheet_l()), &input, |call| {
            reads += u32::from(call.descriptor == 0);
            match (call.descriptor, reads) {
                (0, 1) => Fate::Cut(came),
                (0, _) => Fate::Fails(traced::EIO),
                _ => Fate::Made,
            }
        });
        let mut due = Wrote {
            lines: lines[..28].into(),
            notices: INPUT_FAILED.into(),
        };
        if cut {
            due.lines += "12 0 0 0 0 5\n";
            due.notices += QUESTION_CUT;
        }
        assert_eq!(wrote, due);
        assert_eq!(reads, 2);
    }
}

#[test]
fn a_line_that_cannot_be_written_ends_the_run() {
    let (input, lines) = dials(30);
    let (mut writes, mut reads) = (0, 0);
    let wrote = traced_run("failing-output", &Sheet::File(sheet_l()), &input, |call| {
        reads += u32::from(call.descriptor == 0);
        writes += u32::from(call.descriptor == 1);
        match (call.descriptor, writes) {
            (1, 5) => Fate::Fails(traced::EIO),
            _ => Fate::Made,
        }
    });
    let due = Wrote {
        lines: lines[..4 * 14].into(),
        notices: LINE_UNWRITTEN.into(),
    };
    assert_eq!(wrote, due);
    assert_eq!((writes, reads), (5, 1));
}

#[test]
fn all_that_goes_wrong_is_told_once_and_in_order() {
    let (input, _) = dials(3);
    let mut reads = 0;
    let wrote = traced_run("all", &Sheet::Missing, &input, |call| {
        reads += u32::from(call.descriptor == 0);
        match (call.descriptor, reads) {
            (0, 1) => Fate::Cut(3),
            (0 | 1, _) => Fate::Fails(traced::EIO),
            _ => Fate::Made,
        }
    });
    let due = Wrote {
        lines: String::new(),
        notices: [SHEET_MISSING, INPUT_FAILED, QUESTION_CUT, LINE_UNWRITTEN].concat(),
    };
    assert_eq!(wrote, due);
}

unsafe extern "C" {
    fn fcntl(descriptor: i32, command: i32, value: i32) -> i32;
}

/// A descriptor of this pipe's end does not wait, in the program that inherits it either.
fn does_not_wait(end: &impl AsRawFd) {
    const F_SETFL: i32 = 4;
    const O_NONBLOCK: i32 = 0o4000;
    assert_eq!(unsafe { fcntl(end.as_raw_fd(), F_SETFL, O_NONBLOCK) }, 0);
}

/// A pipe holds only so many bytes.
fn holds(end: &impl AsRawFd, bytes: i32) {
    const F_SETPIPE_SZ: i32 = 1031;
    assert!(unsafe { fcntl(end.as_raw_fd(), F_SETPIPE_SZ, bytes) } >= bytes);
}

#[test]
fn an_input_that_does_not_wait_is_waited_for() {
    let (input, lines) = dials(12);
    let (reader, mut writer) = std::io::pipe().expect("a pipe");
    does_not_wait(&reader);
    let mut run = program(&directory("slow-input", &Sheet::File(sheet_l())))
        .stdin(reader)
        .stdout(Stdio::piped())
        .stderr(Stdio::piped())
        .spawn()
        .expect("the program");
    let output = all_of(run.stdout.take().expect("a pipe"));
    let errors = all_of(run.stderr.take().expect("a pipe"));
    for piece in input.chunks(5) {
        thread::sleep(Duration::from_millis(20));
        writer.write_all(piece).expect("a run that goes on");
    }
    drop(writer);
    assert!(ends(&mut run, || ()).success());
    assert_eq!(output.join().expect("text"), lines);
    assert_eq!(errors.join().expect("text"), "");
}

#[test]
fn an_output_that_does_not_wait_is_waited_for() {
    let (input, lines) = dials(3_000);
    let (mut reader, writer) = std::io::pipe().expect("a pipe");
    does_not_wait(&writer);
    holds(&writer, 4_096);
    let place = directory("slow-output", &Sheet::File(sheet_l()));
    fs::write(place.join("input"), input).expect("a file");
    let mut run = program(&place)
        .stdin(File::open(place.join("input")).expect("a file"))
        .stdout(writer)
        .stderr(Stdio::piped())
        .spawn()
        .expect("the program");
    let errors = all_of(run.stderr.take().expect("a pipe"));
    let (mut read, mut piece) = (Vec::new(), [0; 1_500]);
    loop {
        // The pipe is full long before the program has printed all.
        thread::sleep(Duration::from_millis(10));
        match reader.read(&mut piece).expect("bytes") {
            0 => break,
            n => read.extend(&piece[..n]),
        }
    }
    assert!(ends(&mut run, || ()).success());
    assert_eq!(String::from_utf8(read).expect("text"), lines);
    assert_eq!(errors.join().expect("text"), "");
}
