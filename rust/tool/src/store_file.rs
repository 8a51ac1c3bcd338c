//! The file that keeps figures between questions.
//!
//! It has a mark of eight bytes, the fingerprint of the sheet that the figures were kept for, the fingerprint of the entries, and the kept entries of 12 bytes
//! each. Kept figures are believed, so a file of another sheet is refused, and so is one whose entries changed.

use std::ffi::OsString;
use std::fs::{self, File};
use std::io::{self, Read as _, Write as _};
use std::path::{Path, PathBuf};
use std::process;

use sofretu::{ENTRY, MOST_ENTRIES};

use crate::failure::Failure;

/// What the file begins with. No entry of any sheet does: its attribute would be 102.
pub const MARK: [u8; 8] = *b"sofretu1";
/// The length of what stands before the entries.
pub const FRONT: usize = 24;

/// The 64-bit FNV-1a of some bytes. One changed byte always changes it.
pub fn fingerprint(bytes: &[u8]) -> u64 {
    let start = 0xcbf2_9ce4_8422_2325_u64;
    let mixed = |hash: u64, byte: &u8| (hash ^ u64::from(*byte)).wrapping_mul(0x0100_0000_01b3);
    bytes.iter().fold(start, mixed)
}

/// What a store file says.
#[derive(Clone, Debug, PartialEq, Eq)]
pub struct StoreFile {
    /// The fingerprint of its sheet.
    pub sheet: u64,
    /// The kept entries.
    pub entries: Vec<u8>,
}

impl StoreFile {
    /// The file that bytes are, or why they are none.
    pub fn from_bytes(bytes: &[u8]) -> Result<StoreFile, String> {
        let Some((mark, rest)) = bytes.split_first_chunk::<8>() else {
            return Err("it is too short".into());
        };
        if *mark != MARK {
            return Err("it does not begin with 'sofretu1'".into());
        }
        let cut = || "it is cut".to_string();
        let (sheet, rest) = rest.split_first_chunk().ok_or_else(cut)?;
        let (sum, entries) = rest.split_first_chunk().ok_or_else(cut)?;
        if !entries.len().is_multiple_of(ENTRY) {
            return Err(cut());
        }
        if entries.len() > ENTRY * MOST_ENTRIES {
            return Err("it has more than 1,024 entries".into());
        }
        if u64::from_le_bytes(*sum) != fingerprint(entries) {
            return Err("its entries changed since they were written".into());
        }
        Ok(StoreFile {
            sheet: u64::from_le_bytes(*sheet),
            entries: entries.into(),
        })
    }

    /// The file's bytes.
    pub fn to_bytes(&self) -> Vec<u8> {
        let sum = fingerprint(&self.entries).to_le_bytes();
        [&MARK, &self.sheet.to_le_bytes(), &sum, &self.entries[..]].concat()
    }
}

/// The most bytes of a store file; one more is read, so that a longer one is told apart.
const MOST: u64 = (FRONT + ENTRY * MOST_ENTRIES) as u64;

/// The bytes of a store file, or of a dump. None if there is no such file.
pub fn read(path: &Path) -> Result<Option<Vec<u8>>, Failure> {
    let failure = |error| Failure::File(path.into(), error);
    let file = match File::open(path) {
        Err(error) if error.kind() == io::ErrorKind::NotFound => return Ok(None),
        opened => opened.map_err(failure)?,
    };
    let mut bytes = Vec::new();
    file.take(MOST + 1)
        .read_to_end(&mut bytes)
        .map_err(failure)?;
    Ok(Some(bytes))
}

/// The entries kept in a file for a sheet: none if there is no such file.
pub fn entries_for(path: &Path, sheet: &[u8]) -> Result<Vec<u8>, Failure> {
    let Some(bytes) = read(path)? else {
        return Ok(Vec::new());
    };
    let refused = |why: String| Failure::Refused(path.into(), why);
    let damaged = |why| {
        refused(format!(
            "no store file, or a damaged one: {why}; move it away"
        ))
    };
    let file = StoreFile::from_bytes(&bytes).map_err(damaged)?;
    if file.sheet != fingerprint(sheet) {
        let why =
            "the figures were kept for another sheet; name another file, or move this one away";
        return Err(refused(why.into()));
    }
    Ok(file.entries)
}

/// Writes a store file so that at every moment the old one or the new one is there, whole: a new file beside it, brought to the disk and put in its place.
pub fn write(path: &Path, file: &StoreFile) -> Result<(), Failure> {
    // A link stays a link: what it leads to is replaced.
    let target = fs::canonicalize(path).unwrap_or_else(|_| path.into());
    let new = beside(&target);
    let written = fill(&new, &target, &file.to_bytes()).and_then(|()| fs::rename(&new, &target));
    if let Err(error) = written {
        let _ = fs::remove_file(&new);
        return Err(Failure::File(path.into(), error));
    }
    // The name is on the disk when its directory is. Not every system lets a directory be opened.
    if let Ok(directory) = File::open(directory(&target)) {
        let _ = directory.sync_all();
    }
    Ok(())
}

/// The name of the new file: of this process alone, so that two that write at once do not meet.
fn beside(target: &Path) -> PathBuf {
    let mut name = OsString::from(target);
    name.push(format!(".{}.new", process::id()));
    name.into()
}

fn directory(target: &Path) -> &Path {
    match target.parent() {
        Some(parent) if parent != Path::new("") => parent,
        _ => Path::new("."),
    }
}

fn fill(new: &Path, target: &Path, bytes: &[u8]) -> io::Result<()> {
    let mut file = File::create(new)?;
    file.write_all(bytes)?;
    if let Ok(old) = fs::metadata(target) {
        file.set_permissions(old.permissions())?;
    }
    file.sync_all()
}
