//! Colours, on a terminal alone.

/// Whether colours are used.
#[derive(Clone, Copy, Debug, Default, PartialEq, Eq)]
pub struct Paint {
    /// True on a terminal that takes them.
    pub colours: bool,
}

impl Paint {
    fn with(self, code: &str, text: &str) -> String {
        match self.colours && !text.is_empty() {
            true => format!("\x1b[{code}m{text}\x1b[0m"),
            false => text.into(),
        }
    }

    /// What stands back: offsets, bytes, lines of a tree.
    pub fn faint(self, text: &str) -> String {
        self.with("2", text)
    }

    /// What is wrong.
    pub fn bad(self, text: &str) -> String {
        self.with("1;31", text)
    }

    /// What was asked for.
    pub fn good(self, text: &str) -> String {
        self.with("1;32", text)
    }

    /// Where something comes from.
    pub fn source(self, text: &str) -> String {
        self.with("36", text)
    }
}
