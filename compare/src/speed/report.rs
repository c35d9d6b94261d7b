//! The tables as docs/SPEED.md shows them, and what misses its target.
use super::measure::Times;

/// The proved code may take so many times as long as the Rust code.
const MOST_RATIO: f64 = 1.2;
/// Twice the tokens may take so many times as long.
const MOST_GROWTH: f64 = 2.2;

/// What else is told of a tail: the times of one half as long, the steps for each token, and the tokens.
pub struct Growth {
    pub last: Option<Times>,
    pub steps: f64,
    pub tokens: usize,
}

/// What was found.
#[derive(Default)]
pub struct Report {
    rows: usize,
    different: Vec<String>,
    missed: Vec<String>,
}

impl Report {
    /// Begins a table.
    pub fn title(&self, name: &str, inputs: &str, numbers: &str) {
        let lines = "---|".repeat(inputs.split('|').count() + numbers.split('|').count());
        println!("\n## {name}\n\n| {inputs} | {numbers} |\n|{lines}");
    }

    /// Notes whether both sides answered alike.
    pub fn answers(&mut self, what: &str, equal: bool) {
        if !equal {
            self.different.push(what.to_string());
        }
    }

    /// Notes a number that should be at most another.
    fn target(&mut self, what: &str, name: &str, number: f64, most: f64) {
        self.rows += 1;
        if number > most {
            self.missed.push(format!("{}: {name} {number:.2}", what.replace(" |", ",")));
        }
    }

    /// A row of times in microseconds.
    pub fn row(&mut self, what: &str, times: Times) {
        let ratio = times.proved / times.fast;
        println!("| {what} | {:.1} | {:.1} | {ratio:.2} |", times.proved / 1e3, times.fast / 1e3);
        self.target(what, "ratio", ratio, MOST_RATIO);
    }

    /// A row of a tail.
    pub fn judged(&mut self, what: &str, times: Times, growth: Growth) {
        let ratio = times.proved / times.fast;
        let n = growth.tokens as f64;
        let (mut mine, mut theirs) = (String::new(), String::new());
        if let Some(last) = growth.last {
            let grown = times.proved / last.proved;
            (mine, theirs) = (format!("{grown:.2}"), format!("{:.2}", times.fast / last.fast));
            self.target(what, "growth", grown, MOST_GROWTH);
        }
        let (proved, fast) = (times.proved / n, times.fast / n);
        println!("| {what} | {proved:.1} | {fast:.1} | {ratio:.2} | {mine} | {theirs} | {:.2} |", growth.steps);
        self.target(what, "ratio", ratio, MOST_RATIO);
    }

    /// Says what was found in all. Whether both sides ever answered differently.
    pub fn end(&self) -> bool {
        println!("\n{} of {} targets met.", self.rows - self.missed.len(), self.rows);
        self.missed.iter().for_each(|what| println!("- missed: {what}"));
        self.different.iter().for_each(|what| println!("- DIFFERENT ANSWERS: {what}"));
        !self.different.is_empty()
    }
}
