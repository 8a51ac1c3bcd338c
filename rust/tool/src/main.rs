//! The program.
#![forbid(unsafe_code)]

use std::env;
use std::ffi::OsString;
use std::io::{self, BufWriter, IsTerminal as _};
use std::process::ExitCode;

use tool::paint::Paint;
use tool::Console;

fn main() -> ExitCode {
    let words: Vec<OsString> = env::args_os().skip(1).collect();
    let (out, err) = (io::stdout(), io::stderr());
    let set = |name| env::var_os(name).is_some_and(|value| !value.is_empty());
    let dumb = env::var_os("TERM").is_some_and(|term| term == "dumb");
    let code = tool::run(
        &words,
        &mut Console {
            paint: Paint {
                colours: out.is_terminal() && !set("NO_COLOR") && !dumb,
            },
            bar: err.is_terminal() && !dumb,
            out: &mut BufWriter::new(out.lock()),
            err: &mut err.lock(),
        },
    );
    ExitCode::from(code)
}
