//! `store`: the entries of a store file, or of a dump.

use std::io;
use std::path::Path;

use sofretu::{Entry, Session, Store, ENTRY, MOST_ENTRIES};

use crate::failure::{Failure, FINE, REFUSED};
use crate::files;
use crate::kept::read_entry;
use crate::sheet::Sheet;
use crate::store_file::{self, fingerprint, StoreFile, MARK};
use crate::usage::Line;
use crate::words;
use crate::Console;

/// Lists a store.
pub fn run(line: &Line, console: &mut Console) -> Result<u8, Failure> {
    let path = line.path(0);
    let absent = || Failure::File(path.into(), io::ErrorKind::NotFound.into());
    let bytes = store_file::read(path)?.ok_or_else(absent)?;
    let refused = |why: String| Failure::Refused(path.into(), why);
    let (bound, entries) = if bytes.starts_with(&MARK) {
        let file = StoreFile::from_bytes(&bytes);
        let file = file.map_err(|why| refused(format!("a damaged store file: {why}")))?;
        (Some(file.sheet), file.entries)
    } else if is_dump(&bytes) {
        (None, bytes)
    } else {
        return Err(refused("neither a store file nor a dump of entries".into()));
    };
    let sheet = match line.word(1) {
        Some(_) => Some(files::accepted(line.path(1))?),
        None => None,
    };
    let number = words::count((entries.len() / ENTRY) as u64, "figure");
    match bound {
        Some(sheet) => writeln!(
            console.out,
            "{number}, kept for the sheet with fingerprint {sheet:016x}"
        )?,
        None => writeln!(
            console.out,
            "{number} in a dump, which does not tell its sheet"
        )?,
    }
    let mut code = FINE;
    let mut typed = None;
    if let Some((checked, listing)) = &sheet {
        let verdict = verdict(checked, bound, &entries);
        match &verdict {
            Ok(fits) => writeln!(console.out, "{}", fits_line(line.path(1), fits))?,
            Err(why) => {
                code = REFUSED;
                let said = console.paint.bad(&fits_line(line.path(1), why));
                writeln!(console.out, "{said}")?;
            }
        }
        typed = verdict.is_ok().then_some(&listing.sheet);
    }
    code = code.max(list(&entries, typed, bound.is_none(), console)?);
    Ok(code)
}

/// Whether bytes can be entries alone.
fn is_dump(bytes: &[u8]) -> bool {
    let length = bytes.len();
    length > 0 && length.is_multiple_of(ENTRY) && length <= ENTRY * MOST_ENTRIES
}

fn fits_line(sheet: &Path, what: &str) -> String {
    format!("{}: {what}", sheet.display())
}

/// Whether figures are this sheet's.
fn verdict(sheet: &sofretu::Sheet, bound: Option<u64>, entries: &[u8]) -> Result<String, String> {
    if bound.is_some_and(|bound| bound != fingerprint(sheet.bytes())) {
        return Err("the figures were kept for another sheet".into());
    }
    let kept = entries_of_a_dump(entries, bound.is_none());
    let store = Store::from_parts(entries.into(), kept as u64);
    match (Session::open(sheet, store), bound) {
        (Err(unopened), _) => Err(unopened.to_string()),
        (Ok(_), Some(_)) => Ok("the figures were kept for this sheet".into()),
        (Ok(_), None) => Ok("the figures fit this sheet".into()),
    }
}

/// How many entries there are before the zero bytes at the end of a dump, which are room that is not used.
fn entries_of_a_dump(entries: &[u8], dump: bool) -> usize {
    let mut shown = entries.len() / ENTRY;
    while dump && shown > 0 && entries[(shown - 1) * ENTRY..shown * ENTRY] == [0; ENTRY] {
        shown -= 1;
    }
    shown
}

/// The entries, by their types if the sheet is known.
fn list(
    entries: &[u8],
    sheet: Option<&Sheet>,
    dump: bool,
    console: &mut Console,
) -> Result<u8, Failure> {
    let all = entries.len() / ENTRY;
    let shown = entries_of_a_dump(entries, dump);
    let store = Store::from_parts(entries.into(), shown as u64);
    let mut code = FINE;
    let chunks = entries.chunks_exact(ENTRY);
    for (number, (read, bytes)) in store.entries().zip(chunks).enumerate() {
        let text = match (sheet.and_then(|sheet| read_entry(sheet, bytes)), read) {
            (Some((occurrence, value)), _) => {
                format!("{} = {}", occurrence.words(), words::value(value))
            }
            (None, Ok(entry)) => untyped(&entry),
            (None, Err(_)) => {
                code = REFUSED;
                let hex = words::hex(bytes, ENTRY);
                format!("{hex}  {}", console.paint.bad("! no entry of any sheet"))
            }
        };
        writeln!(console.out, "{number:>5}  {text}")?;
    }
    if shown < all {
        let more = words::thousands((all - shown) as u64);
        writeln!(
            console.out,
            "{shown:>5}  {more} more of zero bytes: room that is not used, or a Unit"
        )?;
    }
    Ok(code)
}

/// An entry without its sheet: the parameter is the number of its four bytes.
fn untyped(entry: &Entry) -> String {
    let Entry {
        node,
        attribute,
        parameter,
        value,
        ..
    } = entry;
    let value = words::value(*value);
    format!("n{node}.a{attribute}({parameter}) = {value}")
}
