//! How far a comparison has come, on standard error: one line that is rewritten
//! on a terminal, elsewhere a line now and then.
//!
//! The texts are made from fixed seeds, so a run compares as many as the last
//! one did: the number is told beforehand, rounded, and shown as "about". It is
//! for the eye, and no outcome depends on it.

use std::io::{self, IsTerminal, Write};
use std::sync::Mutex;
use std::time::{Duration, Instant};

/// Between two lines on a terminal, and elsewhere.
const ON_TERMINAL: Duration = Duration::from_millis(100);
const ELSEWHERE: Duration = Duration::from_secs(10);
/// The most characters of a line that is rewritten.
const WIDTH: usize = 79;
/// The clock is looked at once in so many steps.
const STEPS: usize = 16;

/// What is counted, and when it was last shown.
struct Progress {
    name: &'static str,
    unit: &'static str,
    /// None if it is not known.
    about: Option<usize>,
    every: Duration,
    done: usize,
    shown: Duration,
}

impl Progress {
    fn new(
        name: &'static str,
        unit: &'static str,
        about: Option<usize>,
        every: Duration,
    ) -> Progress {
        Progress {
            name,
            unit,
            about,
            every,
            done: 0,
            shown: Duration::ZERO,
        }
    }

    /// The line that is due at this time since the beginning, if one is.
    fn due(&mut self, now: Duration) -> Option<String> {
        if now < self.shown + self.every {
            return None;
        }
        self.shown = now;
        Some(self.line(now))
    }

    fn line(&self, now: Duration) -> String {
        let (name, unit, done) = (self.name, self.unit, with_commas(self.done));
        match self.about {
            Some(about) if self.done > 0 && self.done < about => {
                let left = now.as_secs_f64() / self.done as f64 * (about - self.done) as f64;
                let about = with_commas(about);
                format!("{name}: {done} of about {about} {unit}, {left:.0} s left")
            }
            _ => format!("{name}: {done} {unit}, {} s so far", now.as_secs()),
        }
    }
}

fn with_commas(number: usize) -> String {
    let digits = number.to_string();
    let mut text = String::new();
    for (at, digit) in digits.chars().enumerate() {
        if at > 0 && (digits.len() - at).is_multiple_of(3) {
            text.push(',');
        }
        text.push(digit);
    }
    text
}

/// A line as a terminal is to have it: over the one before, and not too long.
fn rewritten(line: &str) -> String {
    let cut: String = line.chars().take(WIDTH).collect();
    format!("\r{cut}\x1B[K")
}

/// The comparison of this program.
struct Running {
    progress: Progress,
    began: Instant,
    /// Whether a line stands on the terminal.
    drawn: bool,
}

static RUNNING: Mutex<Option<Running>> = Mutex::new(None);

/// Begins to show how many there are of about so many, if that is known.
pub fn begin(name: &'static str, unit: &'static str, about: Option<usize>) {
    let every = if io::stderr().is_terminal() {
        ON_TERMINAL
    } else {
        ELSEWHERE
    };
    let running = Running {
        progress: Progress::new(name, unit, about, every),
        began: Instant::now(),
        drawn: false,
    };
    *RUNNING.lock().expect("one thread") = Some(running);
}

/// One more.
pub fn step() {
    let mut running = RUNNING.lock().expect("one thread");
    let Some(running) = running.as_mut() else {
        return;
    };
    running.progress.done += 1;
    if !running.progress.done.is_multiple_of(STEPS) {
        return;
    }
    let Some(line) = running.progress.due(running.began.elapsed()) else {
        return;
    };
    // what cannot be shown is no fault of the comparison
    let _ = if running.progress.every == ON_TERMINAL {
        running.drawn = true;
        write!(io::stderr(), "{}", rewritten(&line))
    } else {
        writeln!(io::stderr(), "{line}")
    };
}

/// Takes the line from the terminal.
pub fn end() {
    let running = RUNNING.lock().expect("one thread").take();
    if running.is_some_and(|running| running.drawn) {
        let _ = write!(io::stderr(), "{}", rewritten(""));
    }
}

#[cfg(test)]
mod tests {
    use super::*;

    const fn millis(number: u64) -> Duration {
        Duration::from_millis(number)
    }

    fn after(done: usize, about: Option<usize>) -> Progress {
        let mut progress = Progress::new("compare", "texts", about, ON_TERMINAL);
        progress.done = done;
        progress
    }

    #[test]
    fn lines() {
        let now = millis(4_000);
        assert_eq!(
            after(1_000, Some(3_500)).line(now),
            "compare: 1,000 of about 3,500 texts, 10 s left"
        );
        // with no number told beforehand, before the first text, and where there are more
        assert_eq!(after(999, None).line(now), "compare: 999 texts, 4 s so far");
        assert_eq!(after(0, Some(5)).line(now), "compare: 0 texts, 4 s so far");
        assert_eq!(
            after(1_234_567, Some(5)).line(now),
            "compare: 1,234,567 texts, 4 s so far"
        );
    }

    #[test]
    fn not_too_often() {
        let mut progress = after(1, None);
        let shown: Vec<u64> = (0..1_000)
            .filter(|&now| progress.due(millis(now)).is_some())
            .collect();
        assert_eq!(shown, [100, 200, 300, 400, 500, 600, 700, 800, 900]);
        // a long text in between puts off what comes behind it
        assert!(progress.due(millis(1_950)).is_some());
        assert!(progress.due(millis(2_000)).is_none());
        assert!(progress.due(millis(2_050)).is_some());
    }

    #[test]
    fn a_line_of_a_terminal() {
        let line = rewritten(&"é".repeat(100));
        assert_eq!(line, format!("\r{}\x1B[K", "é".repeat(79)));
        assert_eq!(rewritten("a"), "\ra\x1B[K");
    }
}
