//! Lists of questions, and their text form (tests/vectors/README.md).

use std::fmt;
use std::str::SplitWhitespace;

use oracle::ask::Answer;
use oracle::store::ENTRY;
use oracle::tally::ZEROS;

/// A question and its budget.
#[derive(Clone, Debug, PartialEq, Eq)]
pub struct Ask {
    pub budget: u64,
    pub question: Vec<u8>,
}

/// One sheet, a first store, and a list of questions. Each question after the first is lent what the one before left.
#[derive(Clone, Debug, Default, PartialEq, Eq)]
pub struct Case {
    pub sheet: Vec<u8>,
    pub store: Vec<u8>,
    pub kept: u64,
    pub asks: Vec<Ask>,
}

/// A case with an answer to each question, and the store left after the last.
#[derive(Clone, Debug, PartialEq, Eq)]
pub struct Listed {
    pub case: Case,
    pub answers: Vec<Answer>,
    pub kept: u64,
    pub store: Vec<u8>,
}

/// How many bytes of a store the kept entries take; a number kept above the capacity takes all of them.
fn bytes_kept(store: &[u8], kept: u64) -> usize {
    usize::try_from(kept)
        .map_or(store.len(), |kept| kept.saturating_mul(ENTRY))
        .min(store.len())
}

impl fmt::Display for Listed {
    fn fmt(&self, f: &mut fmt::Formatter) -> fmt::Result {
        let case = &self.case;
        writeln!(f, "sheet {}", hex(&case.sheet))?;
        let zeros = case.store.iter().all(|byte| *byte == 0);
        let store = if zeros { "-".into() } else { hex(&case.store) };
        writeln!(f, "store {} {} {store}", case.store.len(), case.kept)?;
        for (ask, answer) in case.asks.iter().zip(&self.answers) {
            writeln!(f, "ask {} {} -> {answer}", ask.budget, hex(&ask.question))?;
            let rows = answer.tally.map(|steps| steps.to_string());
            writeln!(f, "tally {}", rows.join(" "))?;
        }
        let entries = &self.store[..bytes_kept(&self.store, self.kept)];
        writeln!(f, "left {} {}", self.kept, hex(entries))
    }
}

/// Reads the text form. An error names its line.
pub fn read_lists(text: &str) -> Result<Vec<Listed>, String> {
    let mut lists = Vec::new();
    // A list without its `left` line, and the six fields of an answer without its tally.
    let mut pending: Option<(Listed, Option<[i64; 6]>)> = None;
    for (number, line) in text.lines().enumerate() {
        let mut words = line.split_whitespace();
        let read = match (words.next(), &mut pending) {
            (None, _) => Some(()),
            (Some("sheet"), None) => start(&mut words).map(|list| pending = Some((list, None))),
            (Some("store"), Some((list, None))) => read_store(&mut words, list),
            (Some("ask"), Some((list, six @ None))) => {
                read_ask(&mut words, list).map(|fields| *six = Some(fields))
            }
            (Some("tally"), Some((list, six))) => six
                .take()
                .and_then(|fields| read_tally(&mut words, fields, list)),
            (Some("left"), Some((list, None))) => read_left(&mut words, list).map(|()| {
                lists.extend(pending.take().map(|(list, _)| list));
            }),
            _ => None,
        };
        if read.is_none() || words.next().is_some() {
            return Err(format!("line {}: not understood", number + 1));
        }
    }
    match pending {
        Some(_) => Err("the last list has no `left` line".into()),
        None => Ok(lists),
    }
}

fn start(words: &mut SplitWhitespace) -> Option<Listed> {
    let case = Case {
        sheet: bytes(words.next()?)?,
        ..Case::default()
    };
    Some(Listed {
        case,
        answers: Vec::new(),
        kept: 0,
        store: Vec::new(),
    })
}

fn read_store(words: &mut SplitWhitespace, list: &mut Listed) -> Option<()> {
    let length = number(words)?;
    list.case.kept = number(words)?;
    let given = bytes(words.next()?)?;
    list.case.store = match given.len() {
        0 => vec![0; length],
        given_length if given_length == length => given,
        _ => return None,
    };
    Some(())
}

/// The six fields of the answer, whose tally is on the next line.
fn read_ask(words: &mut SplitWhitespace, list: &mut Listed) -> Option<[i64; 6]> {
    let budget = number(words)?;
    let question = bytes(words.next()?)?;
    if words.next()? != "->" {
        return None;
    }
    list.case.asks.push(Ask { budget, question });
    let mut fields = [0; 6];
    for field in &mut fields {
        *field = number(words)?;
    }
    Some(fields)
}

fn read_tally(words: &mut SplitWhitespace, fields: [i64; 6], list: &mut Listed) -> Option<()> {
    let mut tally = ZEROS;
    for row in &mut tally {
        *row = number(words)?;
    }
    list.answers.push(Answer::new(fields, tally));
    Some(())
}

fn read_left(words: &mut SplitWhitespace, list: &mut Listed) -> Option<()> {
    list.kept = number(words)?;
    list.store = list.case.store.clone();
    let entries = bytes(words.next()?)?;
    let kept = bytes_kept(&list.store, list.kept);
    if entries.len() != kept {
        return None;
    }
    list.store[..kept].copy_from_slice(&entries);
    Some(())
}

fn number<N: std::str::FromStr>(words: &mut SplitWhitespace) -> Option<N> {
    words.next()?.parse().ok()
}

/// Bytes in hexadecimal; `-` is none.
pub fn hex(bytes: &[u8]) -> String {
    if bytes.is_empty() {
        return "-".into();
    }
    bytes.iter().map(|byte| format!("{byte:02x}")).collect()
}

/// The bytes that hexadecimal digits stand for; `-` is none.
pub fn bytes(text: &str) -> Option<Vec<u8>> {
    if text == "-" {
        return Some(Vec::new());
    }
    if !text.len().is_multiple_of(2) || !text.bytes().all(|digit| digit.is_ascii_hexdigit()) {
        return None;
    }
    (0..text.len())
        .step_by(2)
        .map(|at| u8::from_str_radix(&text[at..at + 2], 16).ok())
        .collect()
}
