//! How far a long piece of work is, on a terminal.

use std::io::{self, IsTerminal, Stderr, Write};
use std::sync::OnceLock;
use std::time::{Duration, Instant};

/// Work that ends sooner shows nothing.
const AFTER: Duration = Duration::from_secs(1);
/// When the program began, so that several pieces of work count together.
static BEGAN: OnceLock<Instant> = OnceLock::new();
/// Pieces of work between two looks at the clock.
const BETWEEN: usize = 1024;

/// The clock begins to run.
pub fn begin() -> Instant {
    *BEGAN.get_or_init(Instant::now)
}

/// A line that tells how far the work is, once it takes long.
pub struct Progress<W: Write> {
    to: Option<W>,
    began: Instant,
    after: Duration,
    total: usize,
    shown: Option<usize>,
}

impl Progress<Stderr> {
    /// On standard error where that is a terminal; not where the result goes to a terminal too,
    /// since the lines of both would mix.
    pub fn of(total: usize, to_terminal: bool) -> Self {
        let shows = !to_terminal && io::stderr().is_terminal();
        let mut progress = Progress::new(shows.then(io::stderr), AFTER, total);
        progress.began = begin();
        progress
    }
}

impl<W: Write> Progress<W> {
    /// Work of so many pieces, shown on `to` once it has taken longer than `after`.
    pub fn new(to: Option<W>, after: Duration, total: usize) -> Self {
        Progress {
            to,
            began: Instant::now(),
            after,
            total,
            shown: None,
        }
    }

    /// So many pieces are done.
    pub fn done(&mut self, count: usize) {
        if self.to.is_some() && count.is_multiple_of(BETWEEN) && self.began.elapsed() >= self.after
        {
            self.show(100 * count / self.total.max(1));
        }
    }

    /// What cannot be shown is no failure of the work.
    fn show(&mut self, percent: usize) {
        if let Some(to) = &mut self.to {
            if self.shown != Some(percent) {
                let _ = write!(to, "\rups: {percent} %").and_then(|()| to.flush());
                self.shown = Some(percent);
            }
        }
    }
}

impl<W: Write> Drop for Progress<W> {
    /// The line is taken away.
    fn drop(&mut self) {
        if let (Some(to), Some(_)) = (&mut self.to, self.shown) {
            let _ = write!(to, "\r\x1b[K").and_then(|()| to.flush());
        }
    }
}

#[cfg(test)]
mod tests {
    use super::*;

    fn shown(after: Duration, total: usize) -> String {
        let mut text = Vec::new();
        let mut progress = Progress::new(Some(&mut text), after, total);
        (0..=total).for_each(|count| progress.done(count));
        drop(progress);
        String::from_utf8(text).expect("text")
    }

    #[test]
    fn short_work_shows_nothing() {
        assert_eq!(shown(Duration::from_secs(3600), 4 * BETWEEN), "");
    }

    #[test]
    fn long_work_shows_each_percentage_once_and_takes_it_away() {
        let due = "\rups: 0 %\rups: 25 %\rups: 50 %\rups: 75 %\rups: 100 %\r\x1b[K";
        assert_eq!(shown(Duration::ZERO, 4 * BETWEEN), due);
        let halves = shown(Duration::ZERO, 200 * BETWEEN);
        assert_eq!(halves.matches("\rups: 37 %").count(), 1);
    }

    #[test]
    fn nothing_is_shown_elsewhere() {
        let mut progress = Progress::<Vec<u8>>::new(None, Duration::ZERO, BETWEEN);
        progress.done(0);
        assert_eq!(progress.shown, None);
    }
}
