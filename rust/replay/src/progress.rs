//! How far a long run is, for somebody who watches: on a terminal only, in one line that is written over and gone at the end.

use std::io::{stderr, IsTerminal, Write};
use std::time::{Duration, Instant};

pub struct Progress {
    name: &'static str,
    /// What is counted.
    unit: &'static str,
    goal: u64,
    start: Instant,
    told: Instant,
    watched: bool,
}

impl Progress {
    /// A run that is at its end when so many are done.
    pub fn new(name: &'static str, unit: &'static str, goal: u64) -> Progress {
        let now = Instant::now();
        Progress { name, unit, goal, start: now, told: now, watched: stderr().is_terminal() }
    }

    /// So many are done.
    pub fn at(&mut self, done: u64) {
        if !self.watched || self.told.elapsed() < Duration::from_millis(200) {
            return;
        }
        self.told = Instant::now();
        // A terminal that is gone is no reason to stop.
        let _ = write!(stderr(), "\r{}\x1b[K", self.text(done, self.start.elapsed()));
    }

    /// What is told when so many are done after so long.
    fn text(&self, done: u64, after: Duration) -> String {
        let rate = done as f64 / after.as_secs_f64().max(0.001);
        let percent = u128::from(done.min(self.goal)) * 100 / u128::from(self.goal.max(1));
        let left = self.goal.saturating_sub(done) as f64 / rate.max(0.001);
        format!("{}: {} %, {:.0} {} a second, {:.0} s left", self.name, percent, rate, self.unit, left)
    }

    /// The line goes away.
    pub fn end(&self) {
        if self.watched {
            let _ = write!(stderr(), "\r\x1b[K");
        }
    }
}

#[cfg(test)]
mod tests {
    use super::*;

    #[test]
    fn tells_how_far_it_is_and_how_long_it_takes() {
        let progress = Progress::new("replay", "events", 1_000);
        let text = progress.text(250, Duration::from_secs(5));
        assert_eq!(text, "replay: 25 %, 50 events a second, 15 s left");
        assert_eq!(progress.text(2_000, Duration::from_secs(5)), "replay: 100 %, 400 events a second, 0 s left");
        let endless = Progress::new("replay", "events", u64::MAX).text(0, Duration::ZERO);
        assert!(endless.starts_with("replay: 0 %, 0 events a second"));
    }
}
