//! `show`: the listing of any bytes.

use crate::failure::{Failure, FINE};
use crate::files;
use crate::listing::{Line as Listed, Listing, MOST_BYTES};
use crate::paint::Paint;
use crate::usage::Line;
use crate::words;
use crate::Console;

/// How many bytes of a line are shown in hexadecimal, and the width that they and the mark for more of them take.
const BYTES: usize = 8;
const HEX: usize = 3 * BYTES + 2;

/// Lists a sheet.
pub fn run(line: &Line, console: &mut Console) -> Result<u8, Failure> {
    let file = files::sheet(line.path(0))?;
    let listing = Listing::of(&file.bytes);
    for listed in &listing.lines {
        writeln!(console.out, "{}", text(listed, &file.bytes, console.paint))?;
    }
    if file.bytes.len() > MOST_BYTES {
        let more = match file.more {
            0 => String::new(),
            more => words::count(more, "byte") + " more, not read  ",
        };
        let fault = console
            .paint
            .bad("! stop 1: a sheet has at most 65,536 bytes");
        let at = file.bytes.len();
        writeln!(console.out, "{at:>5}  {:HEX$}  {more}{fault}", "..")?;
    }
    Ok(FINE)
}

/// A line of the listing: offset, bytes, what they say, and what is wrong with them.
pub fn text(line: &Listed, bytes: &[u8], paint: Paint) -> String {
    let hex = words::hex(&bytes[line.at..line.at + line.length], BYTES);
    let front = paint.faint(&format!("{:>5}  {hex:HEX$}", line.at));
    let mut text = format!("{front}  {}", line.text);
    if let Some((stop, why)) = &line.fault {
        let gap = if line.text.is_empty() { "" } else { "  " };
        let fault = paint.bad(&format!("! stop {}: {why}", stop.number()));
        text.push_str(&format!("{gap}{fault}"));
    }
    text
}
