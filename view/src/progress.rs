//! A line on standard error for long input, so that nobody thinks that nothing happens.

use std::io::{IsTerminal, Write};

use crate::words::grouped;

const EACH: usize = 100_000;

pub struct Progress {
    terminal: bool,
    shown: bool,
}

impl Default for Progress {
    fn default() -> Self {
        Progress { terminal: std::io::stderr().is_terminal(), shown: false }
    }
}

impl Progress {
    pub fn at(&mut self, frames: usize) {
        if frames == 0 || frames % EACH != 0 {
            return;
        }
        let (from, to) = if self.terminal { ("\r", "") } else { ("", "\n") };
        eprint!("{from}view: {} frames{to}", grouped(frames));
        let _ = std::io::stderr().flush();
        self.shown = true;
    }

    pub fn end(&self) {
        if self.shown && self.terminal {
            eprintln!();
        }
    }
}
