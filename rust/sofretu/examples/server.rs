//! A server's loop: several threads answer a stream of questions, and a new sheet is taken over while they do.
//!
//!     cargo run --release --example server -- sheet.bin
//!
//! Each line of standard input is `NODE ATTRIBUTE`, answered with that figure, or `load FILE`, after which the sheet in that file answers. The answers
//! stand in the order of the lines. A sheet that is refused changes nothing.

use std::collections::BTreeMap;
use std::env;
use std::fs;
use std::io::{self, BufRead, Write};
use std::path::Path;
use std::process::ExitCode;
use std::sync::mpsc::{self, Receiver, Sender};
use std::sync::{Mutex, PoisonError};
use std::thread;

use sofretu::{Session, Sheet, Store, MOST_STEPS};

const THREADS: usize = 4;

/// A figure that is wanted, and the sheet that is in force for it.
struct Job {
    line: u64,
    sheet: Sheet,
    node: u16,
    attribute: u8,
}

/// The answer to a line of the input.
struct Reply {
    line: u64,
    text: String,
}

/// Reads and checks a sheet. It owns its bytes, so every thread can have a clone.
fn load(path: &Path) -> Result<Sheet, String> {
    let said = |error: &dyn std::fmt::Display| format!("{}: {error}", path.display());
    let bytes = fs::read(path).map_err(|error| said(&error))?;
    Sheet::load(bytes).map_err(|refusal| said(&refusal))
}

/// Answers jobs until there are no more. The thread has one session, with a store of its own, for all its jobs.
fn answer(sheet: &Sheet, jobs: &Mutex<Receiver<Job>>, replies: &Sender<Reply>) {
    let mut session = Session::open(sheet, Store::default()).expect("an empty store");
    loop {
        // The lock is held for as long as it takes to get a job, not to do it.
        let next = jobs.lock().unwrap_or_else(PoisonError::into_inner).recv();
        let Ok(job) = next else { return };
        if !job.sheet.same(session.sheet()) {
            // What was kept is of the old sheet: the session goes on with the new one and an empty store.
            session.reload(&job.sheet);
        }
        let [low, high] = job.node.to_le_bytes();
        let question = [0x22, job.attribute, 0x13, low, high, 0x10];
        let text = match session.ask(&question, MOST_STEPS).value {
            Ok(value) => format!("node {}, attribute {}: {value}", job.node, job.attribute),
            Err(refusal) => format!("node {}, attribute {}: {refusal}", job.node, job.attribute),
        };
        let reply = Reply {
            line: job.line,
            text,
        };
        if replies.send(reply).is_err() {
            return;
        }
    }
}

/// Writes the replies in the order of their lines.
fn write(replies: Receiver<Reply>, mut output: impl Write) -> io::Result<()> {
    let mut waiting = BTreeMap::new();
    let mut due = 0;
    for reply in replies {
        waiting.insert(reply.line, reply.text);
        while let Some(text) = waiting.remove(&due) {
            writeln!(output, "{text}")?;
            due += 1;
        }
    }
    output.flush()
}

/// Hands out a job for each line, and keeps the sheet that is in force.
fn read(
    input: impl BufRead,
    mut sheet: Sheet,
    jobs: Sender<Job>,
    replies: &Sender<Reply>,
) -> io::Result<()> {
    for (line, text) in (0..).zip(input.lines()) {
        let text = text?;
        let words: Vec<&str> = text.split_whitespace().collect();
        let said = match words[..] {
            ["load", file] => match load(Path::new(file)) {
                Ok(new) => {
                    sheet = new;
                    format!("{file}: {} nodes", sheet.nodes())
                }
                Err(error) => error,
            },
            [node, attribute] => match (node.parse(), attribute.parse()) {
                (Ok(node), Ok(attribute)) => {
                    let job = Job {
                        line,
                        sheet: sheet.clone(),
                        node,
                        attribute,
                    };
                    if jobs.send(job).is_err() {
                        return Ok(());
                    }
                    continue;
                }
                _ => format!("{text}: no numbers of a node and an attribute"),
            },
            _ => format!("{text}: neither `NODE ATTRIBUTE` nor `load FILE`"),
        };
        if replies.send(Reply { line, text: said }).is_err() {
            return Ok(());
        }
    }
    Ok(())
}

fn serve(sheet: Sheet, input: impl BufRead, output: impl Write + Send) -> io::Result<()> {
    let (jobs, taken) = mpsc::channel();
    let (replies, brought) = mpsc::channel();
    let taken = Mutex::new(taken);
    thread::scope(|scope| {
        let written = scope.spawn(move || write(brought, output));
        for _ in 0..THREADS {
            let (sheet, taken, replies) = (sheet.clone(), &taken, replies.clone());
            scope.spawn(move || answer(&sheet, taken, &replies));
        }
        // When the jobs end, so do the threads that answer; when the last of them has no more to reply, so does the one that writes.
        let read = read(input, sheet, jobs, &replies);
        drop(replies);
        let written = written.join().expect("the thread that writes");
        read.and(written)
    })
}

fn main() -> ExitCode {
    let Some(path) = env::args_os().nth(1) else {
        eprintln!("server: name the file of a sheet");
        return ExitCode::from(2);
    };
    let served = load(Path::new(&path)).and_then(|sheet| {
        serve(sheet, io::stdin().lock(), io::stdout()).map_err(|error| error.to_string())
    });
    match served {
        Ok(()) => ExitCode::SUCCESS,
        Err(error) => {
            eprintln!("server: {error}");
            ExitCode::FAILURE
        }
    }
}
