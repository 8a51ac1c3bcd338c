//! The store file: kept between questions, bound to its sheet, and never lost.

mod program;

use std::fs;
use std::path::{Path, PathBuf};
use std::process::Command;

use program::{directory, file, on};
use tool::store_file::{fingerprint, StoreFile, FRONT, MARK};
use trials::write::*;

/// A directory with sheet L and a store file that has the answer to D.
fn asked(name: &str) -> (PathBuf, PathBuf, PathBuf) {
    let place = directory(name);
    let sheet = file(&place, "l.bin", &sheet_l());
    let store = place.join("l.store");
    assert_eq!(ask(&sheet, &store, "n1 a2").0, 0);
    (place, sheet, store)
}

fn ask(sheet: &Path, store: &Path, what: &str) -> (u8, String, String) {
    on(sheet, &format!("ask {what} --store {}", store.display()))
}

/// What is in a directory besides the files that belong there.
fn litter(place: &Path) -> Vec<String> {
    let names = fs::read_dir(place).expect("a directory");
    let names = names.map(|entry| entry.expect("an entry").file_name().into_string());
    let own = ["l.bin", "l.store", "other.bin"];
    let names = names.map(|name| name.expect("UTF-8"));
    names.filter(|name| !own.contains(&name.as_str())).collect()
}

#[test]
fn figures_are_kept_between_questions() {
    let (place, sheet, store) = asked("kept");
    let first = fs::read(&store).expect("a store file");
    assert_eq!(first.len(), FRONT + 5 * 12);
    assert_eq!(first[..8], MARK);
    assert_eq!(first[8..16], fingerprint(&sheet_l()).to_le_bytes());
    assert_eq!(first[16..24], fingerprint(&first[24..]).to_le_bytes());
    assert_eq!(first[24..36], entry(1, OWN, INT_TYPE, 0, 0));

    let (code, out, _) = ask(&sheet, &store, "n1 a2");
    assert_eq!(
        (code, out.as_str()),
        (
            0,
            "n1.a2 = 700\n1 step, 5 figures kept\n  a2                    1\n"
        )
    );
    assert_eq!(fs::read(&store).expect("a store file"), first);
    let (_, out, _) = ask(&sheet, &store, "n2 a2");
    assert!(
        out.starts_with("n2.a2 = 811\n6 steps, 7 figures kept\n"),
        "{out}"
    );
    // What a stopped question finished is kept too.
    let (code, out, _) = ask(&sheet, &store, "n2 a0 --budget 0");
    assert!(
        code == 1 && out.starts_with("n2.a0 has no value: stop 15: "),
        "{out}"
    );

    let why = format!("why n1 a2 --store {}", store.display());
    let (code, out, _) = on(&sheet, &why);
    assert!(
        code == 0 && out.contains("\nn1.a2 = 700      1  kept, entry 4\n"),
        "{out}"
    );
    let bytes = fs::read(&store).expect("a store file");
    assert_eq!(
        StoreFile::from_bytes(&bytes)
            .expect("a store file")
            .entries
            .len(),
        7 * 12
    );
    assert_eq!(litter(&place), [""; 0]);
}

#[test]
fn a_store_is_listed() {
    let (place, sheet, store) = asked("listed");
    let mark = format!("{:016x}", fingerprint(&sheet_l()));
    let untyped = "    0  n1.a1(0) = 0
    1  n1.a0(0) = n0
    2  n0.a1(0) = 700
    3  n0.a2(0) = 700
    4  n1.a2(0) = 700
";
    let typed = untyped.replace("(0)", "");
    let head = format!("5 figures, kept for the sheet with fingerprint {mark}\n");
    assert_eq!(
        on(&store, "store"),
        (0, format!("{head}{untyped}"), String::new())
    );
    let with = |sheet: &Path| on(&store, &format!("store {}", sheet.display()));
    let fits = format!(
        "{}: the figures were kept for this sheet\n",
        sheet.display()
    );
    assert_eq!(
        with(&sheet),
        (0, format!("{head}{fits}{typed}"), String::new())
    );
    let other = file(&place, "other.bin", &sheet_lf());
    let fits = format!(
        "{}: the figures were kept for another sheet\n",
        other.display()
    );
    assert_eq!(
        with(&other),
        (1, format!("{head}{fits}{untyped}"), String::new())
    );

    // A dump has entries alone, and room behind them.
    let mut entries = fs::read(&store).expect("a store file").split_off(FRONT);
    entries.resize(12_288, 0);
    let dump = file(&place, "l.store", &entries);
    let head = "1,024 figures in a dump, which does not tell its sheet\n";
    let room = "    5  1,019 more of zero bytes: room that is not used, or a Unit\n";
    assert_eq!(
        on(&dump, "store"),
        (0, format!("{head}{untyped}{room}"), String::new())
    );
    let (code, out, _) = on(&dump, &format!("store {}", sheet.display()));
    assert!(
        code == 0 && out.contains("l.bin: the figures fit this sheet\n"),
        "{out}"
    );
    let wrong = file(&place, "l.store", &entry(9, OWN, INT_TYPE, 0, 0));
    let (code, out, _) = on(&wrong, &format!("store {}", sheet.display()));
    assert!(
        code == 1 && out.contains("l.bin: stop 10 at entry 0: "),
        "{out}"
    );
    let wrong = file(&place, "l.store", &entry(0, OWN, 9, 0, 0));
    let (code, out, _) = on(&wrong, "store");
    assert!(
        code == 1 && out.ends_with("! no entry of any sheet\n"),
        "{out}"
    );
}

#[test]
fn a_store_of_another_sheet_is_refused_and_stays() {
    let (place, _, store) = asked("other");
    let other = file(&place, "other.bin", &sheet_lf());
    let before = fs::read(&store).expect("a store file");
    let said = "the figures were kept for another sheet; name another file, or move this one away";
    let err = format!("sofretu: {}: {said}\n", store.display());
    assert_eq!(
        ask(&other, &store, "n1 a2"),
        (1, String::new(), err.clone())
    );
    let why = format!("why n1 a2 --store {}", store.display());
    assert_eq!(on(&other, &why), (1, String::new(), err));
    assert_eq!(fs::read(&store).expect("a store file"), before);
}

/// Every cut, and every change of a byte, is found, and the file stays as it is.
#[test]
fn a_damaged_store_is_refused_and_stays() {
    let (_, sheet, store) = asked("damaged");
    let whole = fs::read(&store).expect("a store file");
    let cuts = (0..whole.len()).map(|length| whole[..length].to_vec());
    let changes = (0..whole.len()).map(|at| {
        let mut changed = whole.clone();
        changed[at] ^= 1 << (at % 8);
        changed
    });
    let mut long = whole.clone();
    long.resize(FRONT + 1_025 * 12, 0);
    for damaged in cuts.chain(changes).chain([long]) {
        fs::write(&store, &damaged).expect("a file");
        let (code, out, err) = ask(&sheet, &store, "n2 a2");
        assert_eq!((code, out.as_str()), (1, ""), "{damaged:?}");
        assert!(
            err.starts_with(&format!("sofretu: {}: ", store.display())),
            "{err}"
        );
        assert_eq!(fs::read(&store).expect("a file"), damaged);
        let (code, ..) = on(&store, "store");
        let another_sheets = StoreFile::from_bytes(&damaged).is_ok();
        assert_eq!(code, u8::from(!another_sheets));
    }
    // Entries that were written so, and are none of this sheet.
    let forged = StoreFile {
        sheet: fingerprint(&sheet_l()),
        entries: entry(9, OWN, INT_TYPE, 0, 0),
    };
    fs::write(&store, forged.to_bytes()).expect("a file");
    let (code, _, err) = ask(&sheet, &store, "n2 a2");
    assert!(code == 1 && err.contains(": stop 10 at entry 0: "), "{err}");
}

/// A sheet whose attribute is its parameter, and a store that is full of other figures.
#[test]
fn a_full_store_is_told() {
    let place = directory("full_store");
    let parts = [
        attribute(INT_TYPE, INT_TYPE),
        node(0),
        rule(0, 0, &PARAMETER),
        end(),
    ];
    let sheet = file(&place, "l.bin", &parts.concat());
    let entries = (0..1_024).flat_map(|number| entry(0, 0, INT_TYPE, number, number));
    let full = StoreFile {
        sheet: fingerprint(&parts.concat()),
        entries: entries.collect(),
    };
    let store = file(&place, "l.store", &full.to_bytes());
    let why = |what: &str| {
        on(
            &sheet,
            &format!("why n0 a0 {what} --store {}", store.display()),
        )
    };
    let summary = |new: &str| {
        format!("1 step, 1,024 figures kept, {new}; the library's answer is the same\n")
    };
    let (_, out, _) = why("2000");
    let tail = "the store is full: what is worked out is not kept\n".to_string()
        + &summary("0 of them new");
    assert!(
        out.contains("      1  rule at 5, not kept: parameter\n") && out.ends_with(&tail),
        "{out}"
    );
    let (_, out, _) = why("7");
    assert!(out.contains("      1  kept, entry 7\n"), "{out}");
    let (_, out, _) = ask(&sheet, &store, "n0 a0 2000");
    assert!(
        out.starts_with("n0.a0(2000) = 2000\n1 step, 1,024 figures kept\n"),
        "{out}"
    );
    assert_eq!(fs::read(&store).expect("a store file"), full.to_bytes());
}

/// What a killed program leaves beside the file is not looked at.
#[test]
fn a_leftover_new_file_does_no_harm() {
    let (place, sheet, store) = asked("leftover");
    let leftover = place.join(format!("l.store.{}.new", std::process::id()));
    fs::write(&leftover, b"sofretu1 and no more").expect("a file");
    let (code, out, _) = ask(&sheet, &store, "n2 a2");
    assert!(
        code == 0 && out.starts_with("n2.a2 = 811\n6 steps, 7 figures kept\n"),
        "{out}"
    );
    assert_eq!(litter(&place), [""; 0]);
}

/// The program under a limit of no bytes for files: a write fails, or kills it where the signal is not held off.
fn without_room(place: &Path, hold_off: &str) -> (Option<i32>, String, String) {
    let program = env!("CARGO_BIN_EXE_sofretu");
    let line = format!(
        "ulimit -c 0; ulimit -f 0; {hold_off} exec {program} ask l.bin n2 a2 --store l.store"
    );
    let mut shell = Command::new("bash");
    let output = shell
        .args(["-c", &line])
        .current_dir(place)
        .output()
        .expect("bash");
    let text = |bytes| String::from_utf8(bytes).expect("text");
    (
        output.status.code(),
        text(output.stdout),
        text(output.stderr),
    )
}

#[test]
fn a_store_that_cannot_be_written_is_as_it_was() {
    let (place, sheet, store) = asked("full");
    let before = fs::read(&store).expect("a store file");
    let (code, out, err) = without_room(&place, "trap '' XFSZ;");
    assert_eq!(code, Some(3));
    assert!(out.starts_with("n2.a2 = 811\n"), "{out}");
    assert!(err.starts_with("sofretu: l.store: File too large"), "{err}");
    assert_eq!(fs::read(&store).expect("a store file"), before);
    assert_eq!(litter(&place), [""; 0]);

    let (code, ..) = without_room(&place, "");
    assert_eq!(code, None, "it is killed while it writes");
    assert_eq!(fs::read(&store).expect("a store file"), before);
    assert_eq!(litter(&place).len(), 1);
    let (code, out, _) = ask(&sheet, &store, "n2 a2");
    assert!(
        code == 0 && out.starts_with("n2.a2 = 811\n6 steps, 7 figures kept\n"),
        "{out}"
    );

    let nowhere = place.join("no/such/l.store");
    let (code, out, err) = ask(&sheet, &nowhere, "n1 a2");
    assert!(code == 3 && out.starts_with("n1.a2 = 700\n"), "{out}");
    assert!(err.contains("No such file or directory"), "{err}");
    let (code, _, err) = ask(&sheet, &place, "n1 a2");
    assert!(code == 3 && err.contains("Is a directory"), "{err}");
}
