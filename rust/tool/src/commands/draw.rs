//! `draw`: the nodes as a graph or a picture.

use crate::draw::{dot, svg};
use crate::failure::{Failure, FINE};
use crate::files;
use crate::usage::Line;
use crate::Console;

/// Draws a sheet.
pub fn run(line: &Line, console: &mut Console) -> Result<u8, Failure> {
    let (_, listing) = files::accepted(line.path(0))?;
    let drawing = match line.flag("--svg") {
        true => svg::picture(&listing.sheet),
        false => dot::graph(&listing.sheet),
    };
    console.out.write_all(drawing.as_bytes())?;
    Ok(FINE)
}
