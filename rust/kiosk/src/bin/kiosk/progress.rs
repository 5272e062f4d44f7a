//! How far long work is: a bar in the last line of a terminal, which is erased when it is done.

use std::io::{IsTerminal, Write};
use std::time::{Duration, Instant};

/// Work that is done sooner has no bar.
const DELAY: Duration = Duration::from_millis(500);

/// The time from one drawing to the next.
const INTERVAL: Duration = Duration::from_millis(100);

/// The characters between the bar's brackets.
const WIDTH: usize = 40;

pub struct Progress<W: Write> {
    /// Where the bar is drawn: nowhere if that is no terminal, or cannot be written any more.
    terminal: Option<W>,
    total: usize,
    start: Instant,
    /// When the bar is drawn next.
    due: Duration,
    /// The length of the text that stands in the line.
    drawn: usize,
}

impl<W: Write + IsTerminal> Progress<W> {
    /// Work of so many parts, which starts now.
    pub fn new(stream: W, total: usize) -> Self {
        Progress::on(stream.is_terminal().then_some(stream), total)
    }
}

impl<W: Write> Progress<W> {
    fn on(terminal: Option<W>, total: usize) -> Self {
        Progress {
            terminal,
            total,
            start: Instant::now(),
            due: DELAY,
            drawn: 0,
        }
    }

    /// So many parts are done.
    pub fn reach(&mut self, done: usize) {
        self.reach_after(self.start.elapsed(), done);
    }

    fn reach_after(&mut self, elapsed: Duration, done: usize) {
        if self.terminal.is_none() || elapsed < self.due {
            return;
        }
        self.due = elapsed + INTERVAL;
        let bar = bar(done, self.total);
        self.show(&format!("\r{bar}"));
        self.drawn = bar.len();
    }

    /// Clears the line, for text that is to stand there.
    pub fn erase(&mut self) {
        if self.drawn > 0 {
            self.show(&format!("\r{:1$}\r", "", self.drawn));
            self.drawn = 0;
        }
    }

    /// A bar that cannot be drawn is no reason to end the work.
    fn show(&mut self, text: &str) {
        let Some(terminal) = &mut self.terminal else {
            return;
        };
        let shown = terminal
            .write_all(text.as_bytes())
            .and_then(|()| terminal.flush());
        if shown.is_err() {
            self.terminal = None;
        }
    }
}

impl<W: Write> Drop for Progress<W> {
    fn drop(&mut self) {
        self.erase();
    }
}

/// The bar, for so many parts of all.
fn bar(done: usize, total: usize) -> String {
    let part = |of: usize| done.min(total) * of / total.max(1);
    format!("[{:<WIDTH$}] {:>3}%", "#".repeat(part(WIDTH)), part(100))
}

#[cfg(test)]
mod tests {
    use super::*;

    /// A terminal's line after a text is written to it, which may return to the line's start.
    fn line(text: &str) -> String {
        let mut line: Vec<char> = Vec::new();
        let mut at = 0;
        for c in text.chars() {
            if c == '\r' {
                at = 0;
                continue;
            }
            line.resize(line.len().max(at + 1), ' ');
            line[at] = c;
            at += 1;
        }
        line.iter().collect()
    }

    fn text(bytes: &[u8]) -> &str {
        std::str::from_utf8(bytes).expect("plain text")
    }

    #[test]
    fn bars() {
        assert_eq!(bar(0, 8), format!("[{}]   0%", " ".repeat(40)));
        assert_eq!(
            bar(4, 8),
            format!("[{}{}]  50%", "#".repeat(20), " ".repeat(20))
        );
        assert_eq!(bar(8, 8), format!("[{}] 100%", "#".repeat(40)));
        assert_eq!(bar(9, 8), bar(8, 8));
        assert_eq!(bar(0, 0), bar(0, 8));
    }

    #[test]
    fn drawn_late_and_not_too_often() {
        let mut drawn = Vec::new();
        let mut progress = Progress::on(Some(&mut drawn), 100);
        let mut lengths = Vec::new();
        for (milliseconds, done) in [(499, 10), (500, 20), (599, 30), (600, 40), (10_000, 50)] {
            progress.reach_after(Duration::from_millis(milliseconds), done);
            lengths.push(progress.terminal.as_ref().map_or(0, |t| t.len()));
        }
        drop(progress);
        let one = 1 + bar(0, 1).len();
        assert_eq!(lengths, [0, one, one, 2 * one, 3 * one]);
        let bars = [20, 40, 50].map(|done| format!("\r{}", bar(done, 100)));
        assert_eq!(text(&drawn[..3 * one]), bars.concat());
        assert_eq!(line(text(&drawn)).trim_end(), "", "erased at the end");
        assert!(drawn.ends_with(b"\r"));
    }

    /// A line of text stands where the bar was, and the bar is drawn again behind it.
    #[test]
    fn makes_room() {
        let mut drawn = Vec::new();
        let mut progress = Progress::on(Some(&mut drawn), 2);
        progress.erase();
        progress.reach_after(DELAY, 1);
        progress.erase();
        progress.erase();
        progress.show("frame 0");
        drop(progress);
        assert_eq!(line(text(&drawn)).trim_end(), "frame 0");
        let width = bar(1, 2).len();
        assert_eq!(drawn.len(), 1 + width + 2 + width + "frame 0".len());
    }

    /// Fails after so many bytes.
    struct Closing(usize);

    impl Write for Closing {
        fn write(&mut self, bytes: &[u8]) -> std::io::Result<usize> {
            self.0 = self
                .0
                .checked_sub(bytes.len())
                .ok_or(std::io::ErrorKind::BrokenPipe)?;
            Ok(bytes.len())
        }

        fn flush(&mut self) -> std::io::Result<()> {
            Ok(())
        }
    }

    #[test]
    fn a_terminal_that_closes_is_left_alone() {
        let mut progress = Progress::on(Some(Closing(60)), 2);
        progress.reach_after(DELAY, 1);
        assert!(progress.terminal.is_some());
        progress.reach_after(2 * DELAY, 2);
        assert!(progress.terminal.is_none());
    }

    #[test]
    fn no_bar_without_a_terminal() {
        let mut progress = Progress::on(None::<Vec<u8>>, 2);
        progress.reach_after(2 * DELAY, 1);
        assert_eq!(progress.drawn, 0);
    }
}
