//! How far one machine goes: a million handsets in one process, each with its dial number, test interval and volume.
//!
//!     cargo run --profile measure --example fleet            # 977 sheets of 1,024 handsets
//!     cargo run --profile measure --example fleet -- 40      # fewer sheets
//!
//! Every sheet is checked and has its own store and its open session. Two threads, each with half of the sheets, ask for all settings of all handsets, and
//! then for those of one handset after the other, in an order that goes from sheet to sheet: what status frames bring, one from each handset in three
//! days. Beside it stand two plain programs: one reads each sheet once into hash maps and remembers every value; the other reads a handset's sheet anew for
//! each frame. Every answer is compared with what the sheet's maker expects.

mod estate;
mod plain;

use std::env;
use std::fs;
use std::io;
use std::process::{Command, ExitCode};
use std::thread;
use std::time::{Duration, Instant};

use estate::{expected, question, sheet, PLACES, SETTINGS};
use plain::Plain;
use sofretu::{Session, Sheet, Store, Value, MOST_STEPS};

const THREADS: usize = 2;
const SHEETS: u16 = 977;
/// How long it takes until each handset has sent its status frame.
const DAYS: u64 = 3;
/// The program that reads sheets anew is given this many frames, and its time is worked out for all.
const SAMPLE: usize = 2_000;

/// A program that knows the settings of the handsets of one sheet.
trait Estate: Send {
    fn setting(&mut self, place: u16, setting: u8) -> Option<i32>;
}

impl Estate for Session {
    fn setting(&mut self, place: u16, setting: u8) -> Option<i32> {
        match self.ask(&question(place, setting), MOST_STEPS).value {
            Ok(Value::Int(number)) => Some(number),
            _ => None,
        }
    }
}

impl Estate for Plain {
    fn setting(&mut self, place: u16, setting: u8) -> Option<i32> {
        self.ask(place, setting)
    }
}

/// The bytes of a sheet, which are read anew for each frame: for its first setting.
struct Reread {
    bytes: Vec<u8>,
    plain: Option<Plain>,
}

impl Estate for Reread {
    fn setting(&mut self, place: u16, setting: u8) -> Option<i32> {
        if setting == SETTINGS[0] {
            self.plain = None;
        }
        let plain = self.plain.get_or_insert_with(|| Plain::read(&self.bytes));
        plain.ask(place, setting)
    }
}

/// A sheet's number, and what knows its settings.
type Numbered<E> = (u16, E);

fn session(number: u16) -> Session {
    let sheet = Sheet::load(sheet(number)).expect("an accepted sheet");
    Session::open(&sheet, Store::default()).expect("an empty store")
}

/// Asks for all settings of the handset of a place.
fn frame<E: Estate>((number, estate): &mut Numbered<E>, place: u16) {
    for setting in SETTINGS {
        let value = estate.setting(place, setting);
        let right = expected(*number, place, setting);
        assert_eq!(value, Some(right), "sheet {number}, place {place}");
    }
}

/// The time that two threads take, each with half of the sheets.
fn on_threads<E: Estate>(
    estates: &mut [Numbered<E>],
    work: impl Fn(&mut [Numbered<E>]) + Sync,
) -> Duration {
    let began = Instant::now();
    let half = estates.len().div_ceil(THREADS);
    thread::scope(|scope| {
        for part in estates.chunks_mut(half) {
            scope.spawn(|| work(part));
        }
    });
    began.elapsed()
}

/// All handsets, sheet after sheet.
fn all<E: Estate>(estates: &mut [Numbered<E>]) {
    for estate in estates {
        for place in 0..PLACES {
            frame(estate, place);
        }
    }
}

/// As many frames, each from another sheet than the one before, every handset's at most once.
fn scattered<E: Estate>(estates: &mut [Numbered<E>], frames: usize) {
    for number in 0..frames {
        let round = number / estates.len();
        // 1,024 and 389 have no common factor, so every place has its round.
        let place = (round * 389) % usize::from(PLACES);
        let estate = number % estates.len();
        frame(&mut estates[estate], u16::try_from(place).expect("a place"));
    }
}

/// The memory that the process has taken, in KB, where the system tells.
fn resident() -> Option<u64> {
    let status = fs::read_to_string("/proc/self/status").ok()?;
    let line = status.lines().find(|line| line.starts_with("VmRSS:"))?;
    line.split_whitespace().nth(1)?.parse().ok()
}

/// Loads every sheet, asks for the settings of the handsets in both ways, and prints a row. With fewer frames than handsets it asks in one way, for a
/// sample.
fn row<E: Estate>(program: &str, sheets: u16, frames: usize, load: impl Fn(u16) -> E) {
    let began = Instant::now();
    let mut estates: Vec<Numbered<E>> = (0..sheets).map(|number| (number, load(number))).collect();
    let loaded = began.elapsed().as_secs_f64();
    let share = frames / THREADS;
    let first = if frames < handsets(sheets) {
        None
    } else {
        Some(on_threads(&mut estates, all))
    };
    let steady = on_threads(&mut estates, |part| {
        scattered(part, share.min(part.len() * usize::from(PLACES)));
    });
    let figures = (frames * SETTINGS.len()) as f64;
    let rate = |time: Duration| format!("{:.2} million", figures / time.as_secs_f64() / 1e6);
    let memory = resident().map_or("not known".into(), |kb| format!("{} MB", kb / 1_024));
    println!(
        "| {program} | {loaded:.2} s | {memory} | {} | {} | {:.1} s |",
        first.map_or("not tried".into(), rate),
        rate(steady),
        steady.as_secs_f64() * handsets(sheets) as f64 / frames as f64
    );
}

fn handsets(sheets: u16) -> usize {
    usize::from(sheets) * usize::from(PLACES)
}

/// Each program has a process of its own, so that its memory is its own.
const PROGRAMS: [(&str, &str); 3] = [
    ("sofretu", "Sofretu: sheets checked, sessions open"),
    (
        "once",
        "plain: each sheet read once, every value remembered",
    ),
    ("anew", "plain: a sheet read anew for each frame"),
];

/// Runs the program of this name, if there is one.
fn run(name: &str, sheets: u16) -> bool {
    let Some((_, words)) = PROGRAMS.iter().find(|(known, _)| *known == name) else {
        return false;
    };
    let every = handsets(sheets);
    match name {
        "sofretu" => row(words, sheets, every, session),
        "once" => row(words, sheets, every, |number| Plain::read(&sheet(number))),
        _ => row(words, sheets, SAMPLE.min(every), |number| Reread {
            bytes: sheet(number),
            plain: None,
        }),
    }
    true
}

/// Prints the table, with a row from each program.
fn table(sheets: u16) -> io::Result<bool> {
    let handsets = handsets(sheets);
    let a_second = handsets as f64 / (DAYS * 86_400) as f64;
    println!("{handsets} handsets in {sheets} sheets: dial, interval and volume of each, on {THREADS} threads.");
    println!("The steady load is a frame from each in {DAYS} days, {a_second:.2} a second.");
    println!();
    println!("| Program | Time to load | Memory | Figures a second, sheet after sheet | Figures a second, frames from sheet to sheet | The frames of {DAYS} days, in all |");
    println!("|---|---|---|---|---|---|");
    for (name, _) in PROGRAMS {
        let mut program = Command::new(env::current_exe()?);
        if !program
            .arg(sheets.to_string())
            .arg(name)
            .status()?
            .success()
        {
            return Ok(false);
        }
    }
    Ok(true)
}

fn main() -> ExitCode {
    let mut words = env::args().skip(1);
    let sheets = words.next().map_or(Ok(SHEETS), |word| word.parse());
    let done = match (sheets, words.next()) {
        (Ok(sheets @ 2..), None) => table(sheets).unwrap_or_else(|error| {
            eprintln!("fleet: {error}");
            false
        }),
        (Ok(sheets @ 2..), Some(name)) if run(&name, sheets) => true,
        _ => {
            eprintln!("fleet: give a number of sheets, 2 to 65,535, or none for {SHEETS}");
            return ExitCode::from(2);
        }
    };
    if done {
        ExitCode::SUCCESS
    } else {
        ExitCode::FAILURE
    }
}
