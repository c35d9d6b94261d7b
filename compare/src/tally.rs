//! Counts what was looked at and what went wrong, and shows how far the work is.
use std::collections::BTreeMap;
use std::io::{IsTerminal, Write};
use std::time::{Duration, Instant};

/// How many failures are shown in full.
const SHOWN: usize = 10;

/// The counts of a long run.
pub struct Tally {
    began: Instant,
    told: Instant,
    seen: BTreeMap<String, u64>,
    passed: u64,
    failed: u64,
}

impl Default for Tally {
    fn default() -> Tally {
        let now = Instant::now();
        Tally { began: now, told: now, seen: BTreeMap::new(), passed: 0, failed: 0 }
    }
}

impl Tally {
    /// Counts one thing that was met.
    pub fn saw(&mut self, what: &str) {
        *self.seen.entry(what.to_string()).or_default() += 1;
    }

    /// Counts a test that has to hold; the first failures are shown.
    pub fn expect(&mut self, holds: bool, what: &str, detail: impl FnOnce() -> String) {
        if holds {
            self.passed += 1;
            return;
        }
        self.failed += 1;
        self.saw(&format!("FAILED: {what}"));
        if self.failed as usize <= SHOWN {
            println!("FAILED: {what}\n{}", detail());
        }
    }

    /// Shows how far the work is, not too often.
    pub fn progress(&mut self, done: u64, all: u64) {
        let terminal = std::io::stderr().is_terminal();
        let pause = if terminal { Duration::from_millis(200) } else { Duration::from_secs(10) };
        if self.told.elapsed() < pause && done < all {
            return;
        }
        self.told = Instant::now();
        let (start, end) = if terminal { ("\r", if done < all { "" } else { "\n" }) } else { ("", "\n") };
        eprint!("{start}{done} of {all} cases, {} s{end}", self.began.elapsed().as_secs());
        let _ = std::io::stderr().flush();
    }

    /// Prints the counts. The last line is 'N passed, M failed'. Says whether nothing failed.
    pub fn end(&self) -> bool {
        for (what, count) in &self.seen {
            println!("{count:>9}  {what}");
        }
        println!("{} passed, {} failed", self.passed, self.failed);
        self.failed == 0
    }
}
