//! What a program that takes long says of how far it is, on standard error.

use std::io::IsTerminal;
use std::time::{Duration, Instant};

pub struct Progress {
    told: Instant,
    on_terminal: bool,
}

impl Progress {
    /// Nothing is said yet.
    pub fn start() -> Self {
        Self {
            told: Instant::now(),
            on_terminal: std::io::stderr().is_terminal(),
        }
    }

    /// On a terminal one line that is written over, otherwise a line every few seconds.
    pub fn tell(&mut self, text: impl FnOnce() -> String) {
        let pause = if self.on_terminal { 200 } else { 5000 };
        if self.told.elapsed() < Duration::from_millis(pause) {
            return;
        }
        self.told = Instant::now();
        let text = text();
        if self.on_terminal {
            eprint!("\r{text:<70}\r");
        } else {
            eprintln!("{text}");
        }
    }
}
