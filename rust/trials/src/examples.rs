//! The examples of docs/STOPS.md.

use calls::Tally;
use oracle::ask::Answer;

use crate::case::{bytes, Ask, Case};

/// An answer as the page gives it: its six fields, and where it says so in words, its tally.
#[derive(Clone, Debug, PartialEq, Eq)]
pub struct Given {
    pub fields: [i64; 6],
    pub tally: Option<String>,
}

/// An example: questions with their answers, under the heading of a number.
#[derive(Clone, Debug, Default, PartialEq, Eq)]
pub struct Example {
    pub number: i64,
    pub case: Case,
    pub answers: Vec<Given>,
}

impl Example {
    /// Answers as the page would give them: with their tallies in words where it has words.
    pub fn given(&self, answers: &[Answer]) -> Vec<Given> {
        let words = self.answers.iter().map(|given| given.tally.is_some());
        let answers = answers.iter().zip(words.chain(std::iter::repeat(false)));
        answers
            .map(|(answer, words)| Given {
                fields: answer.fields(),
                tally: words.then(|| Tally::from(answer.tally).to_string()),
            })
            .collect()
    }
}

/// Reads the examples of a page. They stand in fences, under headings that begin with a number, each from a `sheet` line on.
/// An error names its line.
pub fn read_examples(page: &str) -> Result<Vec<Example>, String> {
    let mut examples: Vec<Example> = Vec::new();
    let mut heading = None;
    let mut fenced = false;
    for (number, line) in page.lines().enumerate() {
        let read = if let Some(title) = line.strip_prefix("## ") {
            heading = title.split(':').next().and_then(|word| word.parse().ok());
            Some(())
        } else if line.starts_with("```") {
            fenced = !fenced;
            Some(())
        } else if !fenced {
            Some(())
        } else {
            heading.and_then(|heading| read_line(heading, line, &mut examples))
        };
        read.ok_or_else(|| format!("line {}: not understood", number + 1))?;
    }
    Ok(examples)
}

fn read_line(heading: i64, line: &str, examples: &mut Vec<Example>) -> Option<()> {
    let words: Vec<&str> = line.split_whitespace().collect();
    match words[..] {
        ["sheet", ref groups @ ..] => examples.push(Example {
            number: heading,
            case: Case {
                sheet: repeated(groups)?,
                ..Case::default()
            },
            answers: Vec::new(),
        }),
        ["store", length, kept, ref groups @ ..] => {
            let case = &mut examples.last_mut()?.case;
            case.kept = kept.parse().ok()?;
            case.store = repeated(groups)?;
            if case.store.len() != length.parse().ok()? {
                return None;
            }
        }
        ["ask", budget, ref groups @ .., "->", n, p, t, v, s, k] => {
            let mut fields = [0; 6];
            for (field, word) in fields.iter_mut().zip([n, p, t, v, s, k]) {
                *field = word.parse().ok()?;
            }
            let example = examples.last_mut()?;
            example.case.asks.push(Ask {
                budget: budget.parse().ok()?,
                question: repeated(groups)?,
            });
            example.answers.push(Given {
                fields,
                tally: None,
            });
        }
        ["tally", ref words @ ..] => {
            let given = examples.last_mut()?.answers.last_mut()?;
            if given.tally.replace(words.join(" ")).is_some() {
                return None;
            }
        }
        _ => return None,
    }
    Some(())
}

/// The bytes of groups, each in hexadecimal and as often as the number after × says; `-` is none.
fn repeated(groups: &[&str]) -> Option<Vec<u8>> {
    let mut all = Vec::new();
    for group in groups {
        let (group, times) = group.split_once('×').unwrap_or((group, "1"));
        all.extend(bytes(group)?.repeat(times.parse().ok()?));
    }
    Some(all)
}
