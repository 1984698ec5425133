//! How far a batch is, told on the error stream about once a second.

use std::time::{Duration, Instant};

const SECOND: Duration = Duration::from_secs(1);

pub struct Progress {
    /// None where nothing is to be told.
    next: Option<Instant>,
    forms: u64,
}

impl Progress {
    /// Of so many forms.
    pub fn new(forms: u64, quiet: bool) -> Self {
        let next = (!quiet).then(|| Instant::now() + SECOND);
        Progress { next, forms }
    }

    /// How long to wait before the next line.
    pub fn wait(&self) -> Duration {
        let left = |next: Instant| next.saturating_duration_since(Instant::now());
        self.next.map_or(SECOND, left)
    }

    /// Tells it, if it is time.
    pub fn tell(&mut self, done: u64) {
        if let Some(line) = self.line(done, Instant::now()) {
            eprintln!("{line}");
        }
    }

    /// What is told at this time; the next line comes a second later.
    fn line(&mut self, done: u64, now: Instant) -> Option<String> {
        self.next.filter(|next| *next <= now)?;
        self.next = Some(now + SECOND);
        Some(format!("{done} of {} forms", self.forms))
    }
}

#[cfg(test)]
mod tests {
    use super::*;

    #[test]
    fn a_line_a_second() {
        let mut progress = Progress::new(7, false);
        let begun = Instant::now();
        let rows = [
            (0, None),
            (1000, Some("3 of 7 forms")),
            (1999, None),
            (2000, Some("3 of 7 forms")),
            (5500, Some("3 of 7 forms")),
            (6000, None),
        ];
        for (after, expected) in rows {
            let line = progress.line(3, begun + Duration::from_millis(after));
            assert_eq!(line.as_deref(), expected, "{after}");
        }
    }

    #[test]
    fn nothing_where_it_is_to_be_quiet() {
        let mut progress = Progress::new(7, true);
        let later = Instant::now() + 10 * SECOND;
        assert_eq!(progress.line(3, later), None);
    }
}
