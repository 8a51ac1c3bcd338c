//! The command line: commands, their words and options, and their help.

use std::ffi::{OsStr, OsString};
use std::path::Path;

use crate::failure::Failure;

/// A command: its name, how its words are written, what it does, its options with and without a value, and how many words it takes.
#[derive(Debug)]
pub struct Command {
    /// Its name.
    pub name: &'static str,
    /// Its words and options as the help writes them.
    pub form: &'static str,
    /// What it does, in one line.
    pub brief: &'static str,
    /// What it does, in full.
    pub help: &'static str,
    options: &'static [&'static str],
    flags: &'static [&'static str],
    words: (usize, usize),
}

/// The commands in the order of the help.
pub const COMMANDS: [Command; 7] = [
    Command {
        name: "show",
        form: "SHEET",
        brief: "list a sheet: offset, bytes, and what they say",
        help: "\
Lists any file as a sheet. Every byte belongs to one line. What is faulty is shown with the reason;
what cannot be read is one line with all the rest.

  a2: Int           attribute 2 has Int values
  a4(Int): Bool     attribute 4 has a parameter of type Int
  n1: k0            node 1 is of kind 0
  n1.a2 = 700       a figure
  k0.a2 = this.a1   a rule for the nodes of kind 0
  k2 -> this.a0     a forward: what a node of kind 2 does not define, its a0 defines",
        options: &[],
        flags: &[],
        words: (1, 1),
    },
    Command {
        name: "check",
        form: "SHEET",
        brief: "say whether a sheet is accepted, and if not, where and why",
        help: "\
Says that the sheet is accepted, with its counts, or which stop holds of it, with the lines around
its place.",
        options: &[],
        flags: &[],
        words: (1, 1),
    },
    Command {
        name: "ask",
        form: "SHEET NODE ATTRIBUTE [PARAMETER] [--store FILE] [--budget N]",
        brief: "ask for an attribute of a node",
        help: "\
NODE is n3 or 3, ATTRIBUTE a2 or 2. PARAMETER is of the attribute's parameter type: none for a Unit,
true or false, a number, a node, or null.

  --store FILE   figures are kept in FILE between questions. The file belongs to one sheet.
  --budget N     how many steps the question may take; 1,000,000 without this option",
        options: &["--store", "--budget"],
        flags: &[],
        words: (3, 4),
    },
    Command {
        name: "all",
        form: "SHEET ATTRIBUTE [PARAMETER] [--csv] [--budget N]",
        brief: "ask for an attribute of every node",
        help: "\
Asks every node in turn. What is kept for one is there for the next. The exit code is 1 if a node has
no value.

  --csv          comma-separated values, with a line of headings
  --budget N     how many steps each question may take; 1,000,000 without this option",
        options: &["--budget"],
        flags: &["--csv"],
        words: (2, 3),
    },
    Command {
        name: "why",
        form: "SHEET NODE ATTRIBUTE [PARAMETER] [--store FILE] [--budget N] [--depth N] [--lines N]",
        brief: "explain an attribute of a node as a tree of equations",
        help: "\
Each line has an attribute of a node with its value, the steps that it took with all that it needed,
and where it comes from: a figure, a rule or a forward with its offset in the sheet, or the store.
After a stop come what was due and the way that led there; for a circle, what is on it.

The explanation is worked out beside the proved library. Where the two disagree, it says so, and the
exit code is 4. NODE, ATTRIBUTE and PARAMETER are as for 'ask'.

  --store FILE   the figures kept in FILE are used; the file is not changed
  --budget N     how many steps the question may take; 1,000,000 without this option
  --depth N      how many equations inside each other are shown; 12 without this option
  --lines N      how many equations are shown; 200 without this option",
        options: &["--store", "--budget", "--depth", "--lines"],
        flags: &[],
        words: (3, 4),
    },
    Command {
        name: "store",
        form: "FILE [SHEET]",
        brief: "list the figures kept in a store file",
        help: "\
Lists the entries of a file that 'ask --store' wrote, or of a dump that has entries alone. With the
sheet, it also says whether the figures were kept for it, and reads the parameters by their types.",
        options: &[],
        flags: &[],
        words: (1, 2),
    },
    Command {
        name: "draw",
        form: "SHEET [--svg]",
        brief: "draw the nodes and the figures that lead from node to node",
        help: "\
Writes a graph for Graphviz: the nodes, and an arrow for each figure that is a node.

  --svg          writes a picture instead: a tree by the attribute that most nodes have a node for",
        options: &[],
        flags: &["--svg"],
        words: (1, 1),
    },
];

/// A command with what was written after it.
#[derive(Debug)]
pub struct Line {
    /// The command.
    pub command: &'static Command,
    words: Vec<OsString>,
    options: Vec<(&'static str, OsString)>,
    flags: Vec<&'static str>,
}

/// What a command line asks for.
#[derive(Debug)]
pub enum Wanted {
    /// The help of the program.
    Help,
    /// The help of a command.
    HelpOf(&'static Command),
    /// The version.
    Version,
    /// A command.
    Run(Line),
}

impl Command {
    fn usage(&self, what: &str) -> Failure {
        Failure::Usage(format!(
            "{}: {what}; see 'sofretu {} --help'",
            self.name, self.name
        ))
    }

    /// Its help.
    pub fn help(&self) -> String {
        let Command {
            name, form, help, ..
        } = self;
        format!("usage: sofretu {name} {form}\n\n{help}\n\n{EXITS}")
    }
}

const EXITS: &str = "\
Exit codes: 0 a value, or accepted; 1 refused or stopped; 2 wrong usage; 3 a file cannot be read or
written; 4 the explanation disagrees with the library.
";

/// The help of the program.
pub fn help() -> String {
    let mut text = "Settings sheets: shown, checked, asked, explained and drawn.\n\n".to_string();
    for Command {
        name, form, brief, ..
    } in &COMMANDS
    {
        text.push_str(&format!("  sofretu {name} {form}\n      {brief}\n"));
    }
    text.push_str(
        "\n'sofretu COMMAND --help' tells more; 'sofretu --version' tells the version.\n\
         Colours are used on a terminal, unless NO_COLOR is set.\n\n",
    );
    text + EXITS
}

/// Reads a command line without the program's name.
pub fn read(words: &[OsString]) -> Result<Wanted, Failure> {
    let Some((first, rest)) = words.split_first() else {
        return Err(Failure::Usage("no command; see 'sofretu --help'".into()));
    };
    match first.to_str() {
        Some("--help" | "-h" | "help") => return Ok(Wanted::Help),
        Some("--version" | "-V") => return Ok(Wanted::Version),
        _ => {}
    }
    let named = COMMANDS.iter().find(|command| *first == *command.name);
    let unknown = || Failure::Usage(format!("no command {first:?}; see 'sofretu --help'"));
    read_rest(named.ok_or_else(unknown)?, rest)
}

fn read_rest(command: &'static Command, rest: &[OsString]) -> Result<Wanted, Failure> {
    let mut line = Line {
        command,
        words: Vec::new(),
        options: Vec::new(),
        flags: Vec::new(),
    };
    let mut rest = rest.iter();
    let mut options_end = false;
    while let Some(word) = rest.next() {
        // A name that is no UTF-8 is a file's, or the value of an option before it.
        let option = word.as_encoded_bytes().starts_with(b"--") && !options_end;
        let text = word.to_str().unwrap_or("");
        if text == "--" && option {
            options_end = true;
        } else if (text == "--help" || text == "-h") && !options_end {
            return Ok(Wanted::HelpOf(command));
        } else if option {
            let (name, given) = match text.split_once('=') {
                Some((name, value)) => (name, Some(OsString::from(value))),
                None => (text, None),
            };
            let known = |names: &[&'static str]| names.iter().copied().find(|known| *known == name);
            if let (Some(flag), None) = (known(command.flags), &given) {
                line.flags.push(flag);
            } else if let Some(option) = known(command.options) {
                let value = given.or_else(|| rest.next().cloned());
                let missing = || command.usage(&format!("{name} needs a value"));
                line.options.push((option, value.ok_or_else(missing)?));
            } else {
                return Err(command.usage(&format!("no option {}", word.display())));
            }
        } else {
            line.words.push(word.clone());
        }
    }
    let (least, most) = command.words;
    match line.words.len() {
        few if few < least => Err(command.usage("something is missing")),
        many if many > most => Err(command.usage("too many words")),
        _ => Ok(Wanted::Run(line)),
    }
}

impl Line {
    /// A word by its place.
    pub fn word(&self, place: usize) -> Option<&OsStr> {
        self.words.get(place).map(OsString::as_os_str)
    }

    /// A file by its place among the words. There are as many as the command needs.
    pub fn path(&self, place: usize) -> &Path {
        Path::new(&self.words[place])
    }

    /// The value of an option: of several the last.
    pub fn option(&self, name: &str) -> Option<&OsStr> {
        let mut given = self.options.iter().rev();
        given
            .find(|(option, _)| *option == name)
            .map(|(_, value)| value.as_os_str())
    }

    /// Whether a flag is given.
    pub fn flag(&self, name: &str) -> bool {
        self.flags.contains(&name)
    }

    /// The number that an option gives, or another.
    pub fn number(&self, name: &str, without: u64) -> Result<u64, Failure> {
        let Some(value) = self.option(name) else {
            return Ok(without);
        };
        let number = value
            .to_str()
            .and_then(|text| text.replace([',', '_'], "").parse().ok());
        number.ok_or_else(|| self.wrong(&format!("{name} takes a number, and not {value:?}")))
    }

    /// A wrong word or option.
    pub fn wrong(&self, what: &str) -> Failure {
        self.command.usage(what)
    }
}
