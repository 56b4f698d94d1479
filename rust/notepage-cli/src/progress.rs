//! A count that moves, on a terminal.
use std::io::{stderr, IsTerminal, Write};
use std::path::Path;

pub struct Progress {
    count: usize,
    moves: bool,
}

impl Progress {
    /// A count of so many notes; one alone is not counted.
    pub fn new(count: usize) -> Self {
        Progress { count, moves: count > 1 && stderr().is_terminal() }
    }

    pub fn at(&self, done: usize, file: &Path) {
        if self.moves {
            let _ = write!(stderr(), "\r\x1b[K{done} of {}  {}", self.count, file.display());
        }
    }

    /// Takes the count away, so that a sentence stands on a line of its own.
    pub fn clear(&self) {
        if self.moves {
            let _ = write!(stderr(), "\r\x1b[K");
        }
    }
}
