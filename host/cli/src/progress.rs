//! How far a long copy or a long return has come, on standard error where that is a terminal. Nothing is told of a short one.
use crate::time::clock_of;
use std::io::{self, IsTerminal, Write};
use std::time::{Duration, Instant};

/// A copy of fewer bytes is over before anyone asks.
const MUCH: u64 = 64 << 20;

/// As often it is told.
const PAUSE: Duration = Duration::from_millis(200);

/// How many marks the bar of a copy has, and that of a return, whose line says more: both fit a terminal of 80 columns.
const MARKS: u64 = 40;
const FILM_MARKS: u64 = 20;

pub struct Progress {
    all: u64,
    done: u64,
    /// When it is told next; never where there is no terminal, or not much to copy.
    next: Option<Instant>,
    shown: bool,
    /// Since when films are counted; of a copy there is none.
    films_since: Option<Instant>,
}

impl Progress {
    /// Of a copy of so many bytes.
    pub fn of(all: u64) -> Progress {
        let told = all >= MUCH && io::stderr().is_terminal();
        Progress { all, done: 0, next: told.then(|| Instant::now() + PAUSE), shown: false, films_since: None }
    }

    /// Of a return of so many films.
    pub fn of_films(count: usize) -> Progress {
        let (all, now) = (count as u64, Instant::now());
        let next = io::stderr().is_terminal().then(|| now + PAUSE);
        Progress { all, done: 0, next, shown: false, films_since: Some(now) }
    }

    /// So many more are copied, or counted.
    pub fn add(&mut self, count: u64) {
        self.done += count;
        let now = Instant::now;
        if self.next.is_some_and(|next| now() >= next) {
            self.next = Some(now() + PAUSE);
            self.shown = true;
            let line = match self.films_since {
                Some(since) => films_bar(self.done, self.all, now() - since),
                None => bar(self.done, self.all),
            };
            tell(&format!("\r{line}\x1b[K"));
        }
    }

    /// Takes the bar away, so that a message has the line. It is there again when it is told next.
    pub fn clear(&mut self) {
        if self.shown {
            tell("\r\x1b[K");
            self.shown = false;
        }
    }

    /// Takes the bar away.
    pub fn end(mut self) {
        self.clear();
    }
}

/// Where standard error cannot be written, nothing is left to tell it on.
fn tell(text: &str) {
    let mut out = io::stderr();
    let _ = out.write_all(text.as_bytes()).and_then(|()| out.flush());
}

/// The bar, and how many megabytes of how many.
fn bar(done: u64, all: u64) -> String {
    let megabytes = |bytes: u64| bytes / 1_000_000;
    format!("{}, {} of {} MB", marks(MARKS, done, all), megabytes(done), megabytes(all))
}

/// The bar, how many films of how many, how many a second, and the time left at that speed.
fn films_bar(done: u64, all: u64, taken: Duration) -> String {
    let milliseconds = taken.as_millis().max(1);
    let speed = u128::from(done) * 1000 / milliseconds;
    let left = u128::from(all.saturating_sub(done)) * milliseconds / u128::from(done.max(1));
    let left = clock_of(u64::try_from(left / 1000).unwrap_or(u64::MAX), 1);
    let left = left.split('.').next().unwrap_or_default();
    format!("{}, {done} of {all} films, {speed}/s, {left} left", marks(FILM_MARKS, done, all))
}

/// So many marks, and how many of a hundred parts are done.
fn marks(count: u64, done: u64, all: u64) -> String {
    let part = |of: u64| u64::try_from(u128::from(of) * u128::from(done) / u128::from(all.max(1))).unwrap_or(of);
    let filled = usize::try_from(part(count)).unwrap_or(0);
    let empty = usize::try_from(count).unwrap_or(0).saturating_sub(filled);
    let (bar, rest) = ("#".repeat(filled), ".".repeat(empty));
    format!("[{bar}{rest}] {:3}%", part(100))
}

#[cfg(test)]
mod tests {
    use super::*;

    #[test]
    fn bars() {
        let all = 4_000_000_000;
        assert_eq!(bar(0, all), format!("[{}]   0%, 0 of 4000 MB", ".".repeat(40)));
        assert_eq!(bar(all / 2, all), format!("[{}{}]  50%, 2000 of 4000 MB", "#".repeat(20), ".".repeat(20)));
        assert_eq!(bar(all, all), format!("[{}] 100%, 4000 of 4000 MB", "#".repeat(40)));
        assert_eq!(bar(u64::MAX, u64::MAX), format!("[{}] 100%, 18446744073709 of 18446744073709 MB", "#".repeat(40)));
    }

    #[test]
    fn bars_of_films() {
        let half = format!("[{}{}]  50%", "#".repeat(10), ".".repeat(10));
        let told = films_bar(500, 1000, Duration::from_secs(10));
        assert_eq!(told, format!("{half}, 500 of 1000 films, 50/s, 00:00:10 left"));
        let slow = films_bar(1, 2, Duration::from_secs(3600));
        assert_eq!(slow, format!("{half}, 1 of 2 films, 0/s, 01:00:00 left"));
        assert!(films_bar(0, 0, Duration::ZERO).ends_with("0 of 0 films, 0/s, 00:00:00 left"));
        assert!(films_bar(999_999, 999_999, Duration::from_secs(9)).len() < 80);
    }

    #[test]
    fn a_short_copy_is_not_told() {
        let mut progress = Progress::of(MUCH - 1);
        progress.add(MUCH - 1);
        assert!(progress.next.is_none() && !progress.shown);
    }
}
