//! The calls are declared three times, for Rattle, Rust and C. Nothing but this test holds the three to each other.

use std::collections::BTreeMap;
use std::fs;
use std::path::Path;

use calls::tally::{APPLICATIONS, CONDITIONS, TALLY_ROWS};
use calls::Stop;

/// A call's parameters, one for each machine word that is passed, and its result.
type Calls = BTreeMap<String, (Vec<String>, String)>;

/// The title of the header's part with the raw calls, and of the part after it.
const RAW_CALLS: &str = "/* ---- Raw calls\n";
const AFTER_RAW_CALLS: &str = "/* ---- ";

fn with_comments(file: &str) -> String {
    let path = Path::new(env!("CARGO_MANIFEST_DIR"))
        .join("../..")
        .join(file);
    fs::read_to_string(&path).unwrap_or_else(|error| panic!("{file}: {error}"))
}

fn text(file: &str) -> String {
    without_comments(&with_comments(file))
}

fn without_comments(text: &str) -> String {
    let mut code = String::new();
    let mut rest = text;
    while let Some((before, comment)) = rest.split_once("/*") {
        code.push_str(before);
        rest = comment.split_once("*/").expect("the comment's end").1;
    }
    code.push_str(rest);
    code.lines()
        .map(|line| line.split("//").next().unwrap_or_default())
        .collect::<Vec<&str>>()
        .join("\n")
}

/// What stands between `before` and the first `after` that follows it, wherever that is in the text.
fn between<'t>(text: &'t str, before: &str, after: &str) -> Vec<&'t str> {
    text.split(before)
        .skip(1)
        .map(|rest| rest.split(after).next().expect("split gives a first part"))
        .collect()
}

/// The parts between commas that stand in no brackets.
fn parts(list: &str) -> Vec<String> {
    list.split(',')
        .map(|part| part.split_whitespace().collect::<Vec<_>>().join(" "))
        .filter(|part| !part.is_empty())
        .collect()
}

fn number(text: &str, constants: &BTreeMap<String, String>) -> String {
    let number = constants.get(text).map_or(text, String::as_str);
    number.replace('_', "")
}

/// An array behind a pointer.
fn array(pointer: &str, element: &str, length: &str) -> String {
    format!("{pointer} [{element}; {length}]")
}

/// The calls whose signatures these are. `words` gives the machine words that a parameter of some type is passed in.
fn calls(signatures: Vec<&str>, words: impl Fn(&str) -> Vec<String>) -> Calls {
    signatures
        .into_iter()
        .map(|signature| {
            let (name, rest) = signature.split_once('(').expect("parameters");
            let (list, rest) = rest.split_once(')').expect("their end");
            let parameters = parts(list)
                .iter()
                .flat_map(|part| words(part.split_once(": ").expect("a type").1))
                .collect();
            (name.into(), (parameters, result(rest)))
        })
        .collect()
}

/// The constants of the Rattle crates that the calls' arrays are made of, as they are written there.
struct Sizes(BTreeMap<String, String>);

impl Sizes {
    fn read() -> Sizes {
        let files = [
            "crates/saiga/src/limits.rt",
            "crates/sheets/src/lookup.rt",
            "crates/stores/src/lib.rt",
            "crates/engine/src/lib.rt",
        ];
        let mut sizes = BTreeMap::new();
        for file in files {
            for declared in between(&text(file), "const ", ";") {
                if let Some((name, value)) = declared.split_once(": usize = ") {
                    sizes.insert(name.into(), value.into());
                }
            }
        }
        Sizes(sizes)
    }

    /// A number, a name, or sums, products and quotients of these, in brackets or not.
    fn value(&self, text: &str) -> usize {
        if let Some((left, _, right)) = last_sign(text, &['+']) {
            return self.value(left) + self.value(right);
        }
        match last_sign(text, &['*', '/']) {
            Some((left, '*', right)) => return self.value(left) * self.value(right),
            Some((left, _, right)) => return self.value(left) / self.value(right),
            None => {}
        }
        if let Some(inner) = text.strip_prefix('(').and_then(|t| t.strip_suffix(')')) {
            return self.value(inner);
        }
        match self.0.get(text) {
            Some(value) => self.value(value),
            None => text.parse().unwrap_or_else(|_| panic!("{text} is no size")),
        }
    }
}

/// The last of some signs that stands in no brackets, between what stands before and after it.
fn last_sign<'t>(text: &'t str, signs: &[char]) -> Option<(&'t str, char, &'t str)> {
    let mut depth = 0;
    for (at, sign) in text.char_indices().rev() {
        match sign {
            ')' => depth += 1,
            '(' => depth -= 1,
            _ if depth == 0 && signs.contains(&sign) => {
                return Some((text[..at].trim(), sign, text[at + 1..].trim()));
            }
            _ => {}
        }
    }
    None
}

fn rattle() -> Calls {
    let sizes = Sizes::read();
    // A lifetime is nothing that is passed.
    let text = text("crates/sofretu/src/lib.rt")
        .replace("<'a>", "")
        .replace("&'a ", "&");
    calls(between(&text, "pub extern \"C\" fn ", "{"), |typ| {
        let (pointer, inner) = match typ.strip_prefix('&') {
            None => return vec![word(typ)],
            Some(inner) => match inner.strip_prefix("mut ") {
                Some(inner) => ("*mut", inner),
                None => ("*const", inner),
            },
        };
        match inner.strip_prefix('[').and_then(|i| i.strip_suffix(']')) {
            None => vec![format!("{pointer} {inner}")],
            Some(inner) => match inner.split_once("; ") {
                Some((element, length)) => {
                    vec![array(pointer, element, &sizes.value(length).to_string())]
                }
                None => vec![format!("{pointer} {inner}"), "u64".into()],
            },
        }
    })
}

fn rust() -> Calls {
    let text = text("rust/sofretu-sys/src/lib.rs");
    let constants: BTreeMap<String, String> = between(&text, "const ", ";")
        .into_iter()
        .filter_map(|declared| {
            let (name, value) = declared.split_once(": usize = ")?;
            Some((name.into(), value.into()))
        })
        .collect();
    let block = text.split("extern \"C\" {").nth(1).expect("the block");
    let block = block.split("}").next().expect("its end");
    calls(between(block, "fn ", ";\n"), |typ| {
        vec![match typ.split_once(" [") {
            None => word(typ),
            Some((pointer, inner)) => {
                let inner = inner.strip_suffix(']').expect("an array");
                let (element, length) = inner.split_once("; ").expect("its length");
                array(pointer, element, &number(length, &constants))
            }
        }]
    })
}

fn c() -> Calls {
    let text = text("include/sofretu.h");
    let constants: BTreeMap<String, String> = between(&text, "#define ", "\n")
        .into_iter()
        .filter_map(|line| line.split_once(' '))
        .map(|(name, value)| (name.into(), value.into()))
        .collect();
    let typed = |typ: &str| {
        typ.replace("uint", "u")
            .replace("int", "i")
            .replace("_t", "")
    };
    // A struct of one array is passed as the array is. The handles, which have more fields, are passed to no call.
    let structs: BTreeMap<&str, (String, String)> = between(&text, "typedef struct {", ";\n\n")
        .into_iter()
        .filter(|declared| declared.matches(';').count() == 1)
        .map(|declared| {
            let (array, name) = declared.split_once(";\n} ").expect("one array and a name");
            let (field, length) = array.trim().split_once('[').expect("an array");
            let (typ, _) = field.split_once(' ').expect("its type");
            let length = length.strip_suffix(']').expect("its length");
            (name, (typed(typ), number(length, &constants)))
        })
        .collect();
    let header = with_comments("include/sofretu.h");
    let (_, raw) = header.split_once(RAW_CALLS).expect("the raw calls");
    let (raw, _) = raw.split_once(AFTER_RAW_CALLS).expect("their end");
    // The first part is the end of the comment that begins with the title.
    let (_, raw) = raw.split_once("*/").expect("the comment's end");
    without_comments(raw)
        .split(';')
        .filter_map(|declaration| {
            let (front, rest) = declaration.split_once('(')?;
            let list = rest.strip_suffix(')')?;
            let mut front = front.split_whitespace().rev();
            let (name, result) = (front.next()?, front.next()?);
            let parameters = parts(list)
                .iter()
                .filter(|part| *part != "void")
                .map(|part| {
                    let (pointer, part) = match part.strip_prefix("const ") {
                        Some(part) => ("*const", part),
                        None => ("*mut", part.as_str()),
                    };
                    let (typ, name) = part.split_once(' ').expect("a type and a name");
                    if let Some((element, length)) = structs.get(typ) {
                        return array(pointer, element, length);
                    }
                    let typ = typed(typ);
                    match name.split_once('[') {
                        Some((_, length)) => {
                            let length = length.strip_suffix(']').expect("an array");
                            array(pointer, &typ, &number(length, &constants))
                        }
                        None if name.starts_with('*') => format!("{pointer} {typ}"),
                        None => typ,
                    }
                })
                .collect();
            let result = if result == "void" {
                String::new()
            } else {
                typed(result)
            };
            Some((name.into(), (parameters, result)))
        })
        .collect()
}

/// A `usize` is passed as a `u64`.
fn word(typ: &str) -> String {
    typ.replace("usize", "u64")
}

/// The type after an arrow, or nothing.
fn result(rest: &str) -> String {
    let mut words = rest.split_whitespace();
    match words.next() {
        Some("->") => words.next().unwrap_or_default().into(),
        _ => String::new(),
    }
}

#[test]
fn sizes_are_worked_out_products_before_sums() {
    let named = [("LAST", "15"), ("ROWS", "(LAST + 1) * 32")];
    let sizes = Sizes(named.map(|(name, text)| (name.into(), text.into())).into());
    for (text, value) in [
        ("ROWS + LAST + 1", 528),
        ("(LAST + 1) * 32 + LAST + 1", 528),
        ("2 * ROWS / 4 + 3 * 2", 262),
        ("(64 + 1) * (256 / 2)", 8_320),
    ] {
        assert_eq!(sizes.value(text), value, "{text}");
    }
}

#[test]
fn rust_and_c_declare_the_same_calls() {
    let rust = rust();
    assert_eq!(rust.len(), 7);
    assert_eq!(rust, c());
    let (parameters, result) = &rust["sofretu_check_sheet"];
    assert_eq!(
        *parameters,
        [
            "*const u8",
            "u64",
            "*mut [u16; 33298]",
            "*mut [u8; 65536]",
            "*mut [u64; 3]"
        ]
    );
    assert_eq!(result, "u32");
    for call in ["sofretu_ask", "sofretu_ask_in", "sofretu_ask_checked"] {
        let (parameters, _) = &rust[call];
        assert!(
            parameters.ends_with(&["*mut [i64; 6]".into(), "*mut [u64; 34]".into()]),
            "{call}: {parameters:?}"
        );
    }
}

/// The number by which C and the library know a version.
fn version_number(version: &str) -> u32 {
    let [major, minor, patch] = version
        .split('.')
        .map(|part| part.parse::<u32>().expect("a number"))
        .collect::<Vec<u32>>()[..]
    else {
        panic!("{version} is no version of three numbers");
    };
    assert!(minor < 100 && patch < 100, "{version} does not fit");
    major * 10_000 + minor * 100 + patch
}

#[test]
fn library_header_and_crate_are_of_one_version() {
    let version = env!("CARGO_PKG_VERSION");
    let number = version_number(version);
    assert_eq!(sofretu_sys::version(), number);
    let header = text("include/sofretu.h");
    assert_eq!(
        between(&header, "#define SOFRETU_VERSION ", "\n"),
        [number.to_string()]
    );
    assert_eq!(
        between(&header, "#define SOFRETU_VERSION_TEXT ", "\n"),
        [format!("{version:?}")]
    );
}

#[test]
fn a_version_is_one_number() {
    assert_eq!(version_number("0.2.0"), 200);
    assert_eq!(version_number("1.12.3"), 11_203);
}

#[test]
fn the_rows_of_a_tally_have_the_same_numbers() {
    let sizes = Sizes::read();
    let header = text("include/sofretu.h");
    // What stands after a name and what comes between the two, up to the first that is no digit.
    let declared = |name: &str| -> usize {
        let rest = between(&header, name, "\n")[0];
        let digits: String = rest.chars().take_while(char::is_ascii_digit).collect();
        digits.parse().unwrap_or_else(|_| panic!("{name}{rest}"))
    };
    for (rust, rattle, c) in [
        (TALLY_ROWS, "TALLY_ROWS", "SOFRETU_TALLY_ROWS "),
        (APPLICATIONS, "APPLICATIONS_ROW", "SOFRETU_APPLICATIONS = "),
        (CONDITIONS, "CONDITIONS_ROW", "SOFRETU_CONDITIONS = "),
    ] {
        assert_eq!((sizes.value(rattle), declared(c)), (rust, rust), "{c}");
    }
}

#[test]
fn the_stops_have_the_same_names_and_numbers() {
    // `SheetLength` of number 1 is `SHEET_LENGTH = 1` in C.
    let in_c = |stop: &Stop| {
        let mut name = String::new();
        for letter in format!("{stop:?}").chars() {
            if letter.is_uppercase() && !name.is_empty() {
                name.push('_');
            }
            name.push(letter.to_ascii_uppercase());
        }
        format!("SOFRETU_{name} = {}", stop.number())
    };
    let header = text("include/sofretu.h");
    let mut declared = between(&header, "enum {", "}").into_iter();
    let stops = declared.find(|stops| stops.contains("SOFRETU_SHEET_LENGTH"));
    let stops = parts(stops.expect("the stops"));
    assert_eq!(stops, Stop::ALL.iter().map(in_c).collect::<Vec<_>>());
}

#[test]
fn what_rattle_exports_is_declared_as_it_is() {
    assert_eq!(rattle(), rust());
}
