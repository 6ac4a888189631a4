//! How far the work is, on a terminal alone: a bar, the rate, and the time that is left.

use std::io::{stderr, IsTerminal, Write};
use std::time::{Duration, Instant};

const EVERY: Duration = Duration::from_millis(200);
const WIDTH: u64 = 30;

/// What is shown of a night that began with some rows done.
pub struct Progress {
    count: Option<u64>,
    before: u64,
    begun: Instant,
    shown: Option<Instant>,
}

impl Progress {
    /// Shown where standard error is a terminal; `count` is asked only there.
    pub fn new(before: u64, count: impl FnOnce() -> Option<u64>) -> Option<Progress> {
        let begun = Instant::now();
        stderr().is_terminal().then(|| Progress { count: count(), before, begun, shown: None })
    }

    /// Shows how far the work is, now and then, in place of what was shown before.
    pub fn tell(&mut self, done: u64) {
        if self.shown.is_some_and(|shown| shown.elapsed() < EVERY) && self.count != Some(done) {
            return;
        }
        self.shown = Some(Instant::now());
        // Whoever reads the progress may go away; the rows are made all the same.
        let _ = write!(stderr(), "\r\x1b[K{}", bar(done, self.before, self.count, self.begun.elapsed()));
    }
}

/// The bar's line is cleared, so that what comes next stands alone.
pub fn clear(progress: &Option<Progress>) {
    if progress.is_some() {
        let _ = write!(stderr(), "\r\x1b[K");
    }
}

fn bar(done: u64, before: u64, count: Option<u64>, time: Duration) -> String {
    let rate = (done - before) as f64 / time.as_secs_f64().max(1e-3);
    let Some(count) = count else { return format!("{done}, {rate:.0} a second") };
    let full = (WIDTH * done).checked_div(count).unwrap_or(WIDTH).min(WIDTH);
    let left =
        if rate > 0.0 { format!("{} left", clock(count.saturating_sub(done) as f64 / rate)) } else { String::new() };
    let (full, rest) = ("#".repeat(full as usize), "-".repeat((WIDTH - full) as usize));
    format!("[{full}{rest}] {done} of {count}, {rate:.0} a second, {left}")
}

/// Hours, minutes and seconds.
fn clock(seconds: f64) -> String {
    let seconds = seconds.ceil() as u64;
    let (hours, minutes, seconds) = (seconds / 3600, seconds / 60 % 60, seconds % 60);
    format!("{hours}:{minutes:02}:{seconds:02}")
}

#[cfg(test)]
mod tests {
    use super::*;

    #[test]
    fn the_bar_tells_rate_and_time_left() {
        let half = format!("[{}{}] 5000 of 10000, 400 a second, 0:00:13 left", "#".repeat(15), "-".repeat(15));
        assert_eq!(bar(5000, 1000, Some(10_000), Duration::from_secs(10)), half);
        assert!(bar(0, 0, Some(10), Duration::ZERO).starts_with("[-"));
        assert!(bar(10, 0, Some(10), Duration::from_secs(1)).ends_with("] 10 of 10, 10 a second, 0:00:00 left"));
        assert_eq!(bar(7, 0, None, Duration::from_secs(1)), "7, 7 a second");
        assert!(bar(0, 0, Some(0), Duration::ZERO).starts_with("[#"));
        assert_eq!(clock(3725.2), "1:02:06");
    }
}
