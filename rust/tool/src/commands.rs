//! The commands, each in a module of its own.

pub mod all;
pub mod ask;
pub mod check;
pub mod draw;
pub mod show;
pub mod store;
pub mod why;

use crate::failure::Failure;
use crate::usage::Line;
use crate::Console;

/// Runs a command, and gives the exit code.
pub fn run(line: &Line, console: &mut Console) -> Result<u8, Failure> {
    match line.command.name {
        "show" => show::run(line, console),
        "check" => check::run(line, console),
        "ask" => ask::run(line, console),
        "all" => all::run(line, console),
        "why" => why::run(line, console),
        "store" => store::run(line, console),
        _ => draw::run(line, console),
    }
}
