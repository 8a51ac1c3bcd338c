//! The program `sofretu`: sheets shown, checked, asked, explained and drawn, over the proved library.
//!
//! What it says of a sheet comes from the library, or is held to it: a listing's first fault is the stop of the library's check, and an explanation agrees
//! with the library's answer or says that it does not.
//!
//! "Document 01" is the paper "Settings sheets evaluated by Saiga", "document 02" its change requests.
#![forbid(unsafe_code)]
#![warn(missing_docs)]

pub mod commands;
pub mod draw;
pub mod evaluate;
pub mod expression;
pub mod failure;
pub mod files;
pub mod kept;
pub mod listing;
pub mod paint;
pub mod progress;
pub mod question;
pub mod sheet;
pub mod store_file;
pub mod tree;
pub mod usage;
pub mod words;

use std::ffi::OsString;
use std::io::Write;

use failure::{Failure, FINE};
use paint::Paint;
use usage::Wanted;

/// Where a command writes.
pub struct Console<'a> {
    /// Standard output.
    pub out: &'a mut dyn Write,
    /// Standard error.
    pub err: &'a mut dyn Write,
    /// Colours on standard output.
    pub paint: Paint,
    /// Whether standard error takes a progress bar.
    pub bar: bool,
}

/// Runs a command line without the program's name, and gives the exit code.
pub fn run(words: &[OsString], console: &mut Console) -> u8 {
    let ran = match usage::read(words) {
        Ok(Wanted::Help) => said(console, &usage::help()),
        Ok(Wanted::HelpOf(command)) => said(console, &command.help()),
        Ok(Wanted::Version) => said(
            console,
            concat!("sofretu ", env!("CARGO_PKG_VERSION"), "\n"),
        ),
        Ok(Wanted::Run(line)) => commands::run(&line, console),
        Err(failure) => Err(failure),
    };
    let ran = ran.and_then(|code| {
        console.out.flush()?;
        Ok(code)
    });
    match ran {
        Ok(code) => code,
        Err(failure) => {
            let code = failure.code();
            if code != FINE {
                let _ = writeln!(console.err, "sofretu: {failure}");
            }
            code
        }
    }
}

fn said(console: &mut Console, text: &str) -> Result<u8, Failure> {
    console.out.write_all(text.as_bytes())?;
    Ok(FINE)
}
