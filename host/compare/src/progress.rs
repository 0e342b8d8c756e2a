//! The line that says how far a long run is: written over on a terminal, else one every ten seconds.
use std::io::{stderr, IsTerminal};
use std::time::{Duration, Instant};

pub struct Progress {
    begin: Instant,
    total: Duration,
    told: Instant,
}

impl Progress {
    pub fn new(total: Duration) -> Self {
        let begin = Instant::now();
        Progress { begin, total, told: begin }
    }

    pub fn is_over(&self) -> bool {
        self.begin.elapsed() >= self.total
    }

    pub fn tell(&mut self, cases: u64, mismatches: u64) {
        let is_terminal = stderr().is_terminal();
        let pause = if is_terminal { Duration::from_millis(200) } else { Duration::from_secs(10) };
        if self.told.elapsed() < pause {
            return;
        }
        self.told = Instant::now();
        let (passed, total) = (self.begin.elapsed().as_secs(), self.total.as_secs());
        let line = format!("{passed} of {total} s, {cases} cases, {mismatches} mismatches");
        if is_terminal {
            eprint!("\x1b[K{line}\r");
        } else {
            eprintln!("{line}");
        }
    }
}

/// Makes room for another line.
pub fn clear() {
    if stderr().is_terminal() {
        eprint!("\x1b[K");
    }
}
