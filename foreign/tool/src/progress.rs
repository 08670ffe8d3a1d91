//! A progress bar on a terminal, once something takes longer than a second.

use std::io::Write;
use std::time::{Duration, Instant};

use crate::terminal::columns;

/// Nothing is shown before.
const PATIENCE: Duration = Duration::from_secs(1);
/// The bar is drawn again at most so often.
const PAUSE: Duration = Duration::from_millis(100);
/// How many signs the bar has between its brackets, at most and at least.
const WIDTH: usize = 30;
const NARROW: usize = 5;

/// What is shown of it.
pub struct Progress {
    /// Whether anything may be shown: on a terminal alone.
    terminal: bool,
    /// How wide it is.
    columns: fn() -> usize,
    begun: Instant,
    drawn: Option<Instant>,
    /// The signs of the line that stands there now.
    shown: usize,
}

impl Progress {
    pub fn new(terminal: bool) -> Progress {
        Progress { terminal, columns, begun: Instant::now(), drawn: None, shown: 0 }
    }

    /// So many pairs are done.
    pub fn tick(&mut self, done: usize, all: usize, to: &mut dyn Write) {
        let soon = self.drawn.is_some_and(|drawn| drawn.elapsed() < PAUSE);
        if !self.terminal || soon || self.begun.elapsed() < PATIENCE {
            return;
        }
        // in the last column a line would be wrapped
        let line = line(done, all, self.begun.elapsed(), (self.columns)().saturating_sub(1));
        let rest = self.shown.saturating_sub(line.len());
        // what can't be shown is not missed
        let _ = write!(to, "\r{line}{:rest$}", "").and_then(|()| to.flush());
        self.shown = line.len();
        self.drawn = Some(Instant::now());
    }

    /// Takes the bar away, before anything else is written.
    pub fn clear(&mut self, to: &mut dyn Write) {
        if self.shown > 0 {
            let _ = write!(to, "\r{:width$}\r", "", width = self.shown).and_then(|()| to.flush());
            self.shown = 0;
        }
    }
}

/// The bar, with how many pairs are done and about how long the rest takes; as much of it as fits
/// into so many columns.
fn line(done: usize, all: usize, spent: Duration, columns: usize) -> String {
    let part = |whole: usize| (whole * done.min(all)).checked_div(all).unwrap_or(whole);
    let percent = format!("{:3} %", part(100));
    let counts = format!("{done} of {all} pairs");
    let mut left = String::new();
    if done > 0 && done < all {
        let seconds = spent.as_secs_f64() * (all - done) as f64 / done as f64;
        let seconds = seconds.ceil() as u64;
        left = format!(", {}:{:02} left", seconds / 60, seconds % 60);
    }
    let bar = |width: usize| {
        let full = part(width);
        let (full, rest) = ("#".repeat(full), "-".repeat(width - full));
        format!("{percent} [{full}{rest}] {counts}{left}")
    };
    let width = columns.saturating_sub(bar(0).len()).min(WIDTH);
    let narrower = [
        format!("{percent} {counts}{left}"),
        format!("{percent} {counts}"),
        percent.clone(),
        String::new(),
    ];
    match width {
        NARROW.. => bar(width),
        _ => narrower.into_iter().find(|line| line.len() <= columns).unwrap_or_default(),
    }
}

#[cfg(test)]
mod tests {
    use super::*;

    #[test]
    fn lines() {
        let line = |done, all| line(done, all, Duration::from_secs(30), 80);
        assert_eq!(line(0, 3), "  0 % [------------------------------] 0 of 3 pairs");
        assert_eq!(line(1, 3), " 33 % [##########--------------------] 1 of 3 pairs, 1:00 left");
        assert_eq!(line(3, 3), "100 % [##############################] 3 of 3 pairs");
        assert_eq!(line(0, 0), "100 % [##############################] 0 of 0 pairs");
    }

    #[test]
    fn lines_of_a_narrow_terminal() {
        let line = |columns| line(1, 3, Duration::from_secs(30), columns);
        assert_eq!(line(63), " 33 % [##########--------------------] 1 of 3 pairs, 1:00 left");
        assert_eq!(line(58), " 33 % [########------------------] 1 of 3 pairs, 1:00 left");
        assert_eq!(line(37), " 33 % [#----] 1 of 3 pairs, 1:00 left");
        assert_eq!(line(36), " 33 % 1 of 3 pairs, 1:00 left");
        assert_eq!(line(20), " 33 % 1 of 3 pairs");
        assert_eq!(line(12), " 33 %");
        assert_eq!(line(4), "");
        assert!((0..200).all(|columns| line(columns).len() <= columns));
    }

    #[test]
    fn nothing_in_a_pipe_and_nothing_before_a_second() {
        let mut to = Vec::new();
        let long_ago = Instant::now().checked_sub(Duration::from_secs(5));
        let begun = long_ago.unwrap_or_else(Instant::now);
        Progress { begun, ..Progress::new(false) }.tick(1, 2, &mut to);
        let mut fresh = Progress::new(true);
        fresh.tick(1, 2, &mut to);
        fresh.clear(&mut to);
        assert!(to.is_empty());
    }

    #[test]
    fn it_is_drawn_and_taken_away() {
        let Some(begun) = Instant::now().checked_sub(Duration::from_secs(5)) else {
            return;
        };
        let mut to = Vec::new();
        let mut progress = Progress { begun, columns: || 80, ..Progress::new(true) };
        progress.tick(1, 2, &mut to);
        progress.tick(2, 2, &mut to);
        progress.clear(&mut to);
        let text = String::from_utf8(to).unwrap();
        let lines: Vec<&str> = text.split('\r').collect();
        assert!(lines[1].starts_with(" 50 % [###############---------------] 1 of 2 pairs, 0:"));
        assert_eq!(lines[2].trim(), "");
        assert_eq!(lines.len(), 4);
    }
}
