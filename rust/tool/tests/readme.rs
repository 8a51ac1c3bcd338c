//! What README.md shows of the program is what the program prints.

mod program;

use std::path::Path;

use program::{directory, file, on};
use trials::write::{sheet_l, sheet_lf};

/// The examples of a page: in indented blocks, each from a line `$ sofretu ..` on, with what is printed.
fn examples(page: &str) -> Vec<(String, String)> {
    let mut examples: Vec<(String, String)> = Vec::new();
    let mut inside = false;
    for line in page.lines() {
        let code = line.strip_prefix("    ");
        if let Some(words) = code.and_then(|code| code.strip_prefix("$ sofretu ")) {
            examples.push((words.into(), String::new()));
            inside = true;
        } else if let (true, Some((_, printed))) = (inside, examples.last_mut()) {
            inside = code.is_some() || line.is_empty();
            if inside {
                printed.push_str(code.unwrap_or("").trim_end());
                printed.push('\n');
            }
        }
    }
    examples
}

/// A line of the page, a command with its file, in a directory that has the file.
fn printed(place: &Path, line: &str) -> String {
    let (command, rest) = line.split_once(' ').expect("a file");
    let (name, words) = rest.split_once(' ').unwrap_or((rest, ""));
    let (_, out, err) = on(&place.join(name), &format!("{command} {words}"));
    // The page's directory is where its files are.
    (out + &err).replace(&format!("{}/", place.display()), "")
}

#[test]
fn the_page_shows_what_the_program_prints() {
    let place = directory("readme");
    file(&place, "l.bin", &sheet_l());
    file(&place, "lf.bin", &sheet_lf());
    let examples = examples(include_str!("../../../README.md"));
    for line in ["show l.bin", "why l.bin n1 a2"] {
        assert!(
            examples.iter().any(|(words, _)| words == line),
            "README.md has no `{line}`"
        );
    }
    for (line, shown) in examples {
        assert_eq!(
            printed(&place, &line).trim_end(),
            shown.trim_end(),
            "{line}"
        );
    }
}

#[test]
fn the_examples_of_a_page_are_found() {
    let page = "Text\n\n    $ sofretu a b\n    one\n\n      two\n\nText\n    no example\n\n    $ sofretu c\n    $ sofretu d\n";
    let found = examples(page);
    let expected = [("a b", "one\n\n  two\n\n"), ("c", ""), ("d", "")];
    assert_eq!(found.len(), expected.len());
    for (found, expected) in found.iter().zip(expected) {
        assert_eq!((found.0.as_str(), found.1.as_str()), expected);
    }
}
