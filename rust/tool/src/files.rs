//! Sheets read from files.

use std::fs::File;
use std::io::Read as _;
use std::path::Path;

use crate::failure::Failure;
use crate::listing::{Listing, MOST_BYTES};

/// A sheet's bytes: of a file that is too long the first 65,537, which is enough to refuse it.
#[derive(Debug)]
pub struct SheetFile {
    /// The bytes that were read.
    pub bytes: Vec<u8>,
    /// How many more the file has, where it tells its length.
    pub more: u64,
}

/// Reads a sheet.
pub fn sheet(path: &Path) -> Result<SheetFile, Failure> {
    let failure = |error| Failure::File(path.into(), error);
    let file = File::open(path).map_err(failure)?;
    let length = file.metadata().map_err(failure)?.len();
    let mut bytes = Vec::new();
    let most = MOST_BYTES as u64 + 1;
    file.take(most).read_to_end(&mut bytes).map_err(failure)?;
    let more = length.saturating_sub(bytes.len() as u64);
    Ok(SheetFile { bytes, more })
}

/// A sheet that the library accepts, with what its commands say.
pub fn accepted(path: &Path) -> Result<(sofretu::Sheet, Listing), Failure> {
    let SheetFile { bytes, .. } = sheet(path)?;
    let listing = Listing::of(&bytes);
    let checked = sofretu::Sheet::load(bytes).map_err(|refusal| Failure::sheet(path, refusal))?;
    Ok((checked, listing))
}
