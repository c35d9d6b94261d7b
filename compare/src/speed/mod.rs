//! The benchmark: the proved code beside the implementation for speed, on the same inputs, in one process and one run.
//! `compare/bench` builds it, with `compare/driver.c`, which hands the proved functions over.
mod inputs;
mod measure;
mod report;
mod sides;

use inputs::{readings, sheets, tables, Reading};
use measure::{cold, repeated, Times};
use report::{Growth, Report};
pub use sides::Side;
use sides::{steps, FAST};

/// What a slice or a room holds beforehand, so that a wrong write shows.
const BEFORE: u16 = 7;
/// Words or places beyond those that are called for.
const BEYOND: usize = 8;

/// Both sides, and what was found so far.
struct Bench {
    proved: Side,
    report: Report,
}

impl Bench {
    /// The reader on sheets near the limits.
    fn reader(&mut self) {
        self.report.title("Reader", "Sheet | Bytes", "proved, µs | Rust, µs | ratio");
        for (name, sheet) in sheets() {
            let mut slices = [vec![BEFORE; sheet.len()], vec![BEFORE; sheet.len()]];
            let [mine, theirs] = &mut slices;
            let equal = self.proved.read(&sheet, mine) == FAST.read(&sheet, theirs) && mine == theirs;
            self.report.answers(name, equal);
            let times = repeated(|| self.proved.read(&sheet, mine), || FAST.read(&sheet, theirs));
            self.report.row(&format!("{name} | {}", sheet.len()), times);
        }
    }

    /// The check on tables near the limits, repeated and with cold caches.
    fn check(&mut self) {
        self.report.title("Check", "Table | Numbers | States | Caches", "proved, µs | Rust, µs | ratio");
        for (name, states, table) in tables() {
            self.report.answers(name, self.proved.check(&table) == FAST.check(&table));
            let what = |caches| format!("{name} | {} | {states} | {caches}", table.len());
            let times = repeated(|| self.proved.check(&table), || FAST.check(&table));
            self.report.row(&what("warm"), times);
            let times = cold(|| self.proved.check(&table), || FAST.check(&table));
            self.report.row(&what("cold"), times);
        }
    }

    /// The judge on tails of growing length. Each call makes the whole table check too.
    fn judge(&mut self) {
        let columns = "proved, ns a token | Rust, ns a token | ratio | proved, growth | Rust, growth | steps a token";
        self.report.title("Judge", "Grammar | Tokens", columns);
        for reading in readings() {
            let mut last = None;
            for n in [64, 128, 256, 512, 1_024, 2_048, 4_096] {
                last = Some(self.tail(&reading, n, last));
            }
        }
    }

    /// The judge on a tail of n tokens, after one of half the length.
    fn tail(&mut self, reading: &Reading, n: usize, last: Option<Times>) -> Times {
        let tail = (reading.tail)(n);
        let words = reading.words(n) + BEYOND;
        let mut rooms = [vec![BEFORE as u32; words], vec![BEFORE as u32; words]];
        let [mine, theirs] = &mut rooms;
        let told = self.proved.judge(&reading.table, &tail, mine);
        let equal = told == FAST.judge(&reading.table, &tail, theirs) && mine == theirs;
        self.report.answers(&format!("{}, {n} tokens", reading.name), equal);
        let times = repeated(|| self.proved.judge(&reading.table, &tail, mine), || FAST.judge(&reading.table, &tail, theirs));
        let growth = Growth { last, steps: steps(told) as f64 / n as f64, tokens: n };
        self.report.judged(&format!("{} | {n}", reading.name), times, growth);
        times
    }
}

/// Times both sides and prints the tables of docs/SPEED.md. 0, or 1 if they ever answered differently.
///
/// # Safety
/// The pointer leads to a side whose functions keep to their slices.
#[no_mangle]
pub unsafe extern "C" fn compare_speed(proved: *const Side) -> i32 {
    // SAFETY: the driver hands over a side that lives as long as the program.
    let mut bench = Bench { proved: unsafe { *proved }, report: Report::default() };
    bench.reader();
    bench.check();
    bench.judge();
    bench.report.end() as i32
}
