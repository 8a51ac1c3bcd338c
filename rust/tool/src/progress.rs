//! A bar on standard error for what takes long.

use std::io::Write;
use std::time::{Duration, Instant};

/// The bar comes after this time, and is drawn again after it.
const WAIT: Duration = Duration::from_millis(400);
const AGAIN: Duration = Duration::from_millis(100);
const WIDTH: usize = 30;

/// How far something is.
#[derive(Debug)]
pub struct Progress {
    whole: usize,
    next: Option<Instant>,
    drawn: bool,
}

impl Progress {
    /// Of so many parts. On what is no terminal nothing is drawn.
    pub fn new(whole: usize, terminal: bool) -> Progress {
        Progress {
            whole,
            next: terminal.then(|| Instant::now() + WAIT),
            drawn: false,
        }
    }

    /// So many parts are done. A bar that cannot be written is left out.
    pub fn done(&mut self, parts: usize, err: &mut dyn Write) {
        let now = Instant::now();
        if self.next.is_none_or(|next| now < next) {
            return;
        }
        self.next = Some(now + AGAIN);
        self.drawn = true;
        let _ = write!(err, "\r{}", bar(parts, self.whole));
        let _ = err.flush();
    }

    /// Takes the bar away.
    pub fn end(self, err: &mut dyn Write) {
        if self.drawn {
            let _ = write!(err, "\r{}\r", " ".repeat(bar(self.whole, self.whole).len()));
            let _ = err.flush();
        }
    }
}

fn bar(parts: usize, whole: usize) -> String {
    let full = parts * WIDTH / whole.max(1);
    let (done, left) = ("#".repeat(full), ".".repeat(WIDTH - full));
    format!("[{done}{left}] {parts} of {whole}")
}

#[cfg(test)]
mod tests {
    use super::*;

    #[test]
    fn a_bar_is_drawn_after_a_while_and_taken_away() {
        let mut drawn = Vec::new();
        let mut progress = Progress::new(4, true);
        progress.done(1, &mut drawn);
        assert!(drawn.is_empty());
        progress.next = Some(Instant::now());
        progress.done(2, &mut drawn);
        progress.end(&mut drawn);
        let text = String::from_utf8(drawn).expect("text");
        let bar = "[###############...............] 2 of 4";
        assert_eq!(text, format!("\r{bar}\r{}\r", " ".repeat(bar.len())));

        let mut drawn = Vec::new();
        let mut silent = Progress::new(4, false);
        silent.done(2, &mut drawn);
        silent.end(&mut drawn);
        assert!(drawn.is_empty());
    }
}
