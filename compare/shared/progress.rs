//! How far a subject has come, told while it is checked.

extern "C" {
    fn isatty(descriptor: i32) -> i32;
}

const STANDARD_ERROR: i32 = 2;

/// Tells on standard error how far a subject has come: on a terminal one line, rewritten at each percent, elsewhere a
/// line at each quarter.
pub struct Progress {
    subject: &'static str,
    quiet: bool,
    terminal: bool,
    percent: u64,
}

impl Progress {
    pub fn new(subject: &'static str, quiet: bool) -> Progress {
        // SAFETY: isatty takes any number and keeps nothing.
        let terminal = unsafe { isatty(STANDARD_ERROR) } == 1;
        Progress { subject, quiet, terminal, percent: 0 }
    }

    /// To be called with `done` growing from 1 to `total`.
    pub fn step(&mut self, done: u64, total: u64) {
        let percent = done.saturating_mul(100) / total;
        if self.quiet || percent == self.percent {
            return;
        }
        let quarter = percent / 25 > self.percent / 25;
        self.percent = percent;
        if self.terminal {
            eprint!("\r{}: {} of {} ({} %)", self.subject, done, total, percent);
        } else if quarter && percent < 100 {
            eprintln!("{}: {} of {} ({} %)", self.subject, done, total, percent);
        }
    }

    /// Clears the line, so that what is printed next starts on a free one.
    pub fn end(&self) {
        if self.terminal && !self.quiet && self.percent > 0 {
            eprint!("\r\x1b[K");
        }
    }
}
