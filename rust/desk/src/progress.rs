//! Progress of long work, on a terminal alone.

use std::io::{stderr, IsTerminal};
use std::time::Duration;

use indicatif::{ProgressBar, ProgressStyle};

/// Where progress is shown, if anywhere.
pub struct Progress {
    shown: bool,
}

/// A piece of work under way; what is shown of it goes when it ends.
pub struct Work(ProgressBar);

impl Progress {
    /// Shown where standard error is a terminal.
    pub fn on_terminal() -> Progress {
        Progress { shown: stderr().is_terminal() }
    }

    pub fn hidden() -> Progress {
        Progress { shown: false }
    }

    /// Work on so many bytes.
    pub fn bytes(&self, what: &str, total: u64) -> Work {
        self.work(ProgressBar::new(total), what, "{prefix:>9} {bar:30} {bytes}/{total_bytes} {msg}")
    }

    /// Work that does not tell how far it is.
    pub fn step(&self, what: &str) -> Work {
        let work = self.work(ProgressBar::new_spinner(), what, "{prefix:>9} {spinner} {elapsed} {msg}");
        if self.shown {
            work.0.enable_steady_tick(Duration::from_millis(100));
        }
        work
    }

    fn work(&self, bar: ProgressBar, what: &str, template: &str) -> Work {
        let bar = if self.shown { bar } else { ProgressBar::hidden() };
        // A template that is none leaves the library's own style.
        if let Ok(style) = ProgressStyle::with_template(template) {
            bar.set_style(style);
        }
        bar.set_prefix(what.to_string());
        bar.tick();
        Work(bar)
    }
}

impl Work {
    pub fn at(&self, what: &str) {
        self.0.set_message(what.to_string());
    }

    pub fn more(&self, bytes: u64) {
        self.0.inc(bytes);
    }
}

impl Drop for Work {
    fn drop(&mut self) {
        self.0.finish_and_clear();
    }
}
