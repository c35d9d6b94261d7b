//! What is timed: sheets and tables near the limits, and tails of three grammars.
use crate::chance::Chance;
use crate::grammars::{arithmetic, boxes, largest, sixfold, wide, SIXFOLD_THING};
use crate::limits;
use crate::make::{make, Sort};
use crate::table::{Grammar, Table};
use crate::tails::sentence;
use crate::vectors;

/// A table of a grammar.
fn table(grammar: &Grammar, sort: Sort) -> Table {
    make(grammar, sort).expect("within the ranges")
}

/// The two sheets: one of nearly as many bytes as a sheet may have, one of as many states.
fn large() -> [(&'static str, Table); 2] {
    [("59,269 bytes", table(&wide(), Sort::Slr)), ("128 states", table(&largest(), Sort::Slr))]
}

/// Sheets for the reader.
pub fn sheets() -> Vec<(&'static str, Vec<u8>)> {
    large().map(|(name, table)| (name, table.sheet())).into()
}

/// Tables for the check with their counts of states: those of the sheets, and one of as many numbers as a table may have.
pub fn tables() -> Vec<(&'static str, usize, Vec<u16>)> {
    let full = vectors::large().into_iter().find(|v| v.answer == 0).expect("one that passes");
    let mut all: Vec<_> = large().map(|(name, table)| (name, table.states.len(), table.numbers())).into();
    all.push(("60,000 numbers", full.value as usize, full.table()));
    all
}

/// A grammar whose tails are judged.
pub struct Reading {
    pub name: &'static str,
    pub table: Vec<u16>,
    states: usize,
    pub tail: Box<dyn Fn(usize) -> Vec<u16>>,
}

impl Reading {
    fn of(name: &'static str, grammar: Grammar, tail: Box<dyn Fn(usize) -> Vec<u16>>) -> Reading {
        let table = table(&grammar, Sort::Lalr);
        Reading { name, table: table.numbers(), states: table.states.len(), tail }
    }

    /// Words of room for n tokens.
    pub fn words(&self, n: usize) -> usize {
        limits::words(self.states, n)
    }
}

/// A long part of a sentence, cut at both ends.
fn part(grammar: &Grammar, length: usize) -> Vec<u16> {
    let mut chance = Chance::new(4);
    loop {
        let whole = sentence(grammar, &mut chance, 6 * length);
        if whole.len() > 2 * length {
            let from = (whole.len() - length) / 2;
            return whole[from..from + length].to_vec();
        }
    }
}

/// The three grammars. Tails of the first two are parts of sentences; the third's are rows of things, with six readings each.
pub fn readings() -> [Reading; 3] {
    let parts = |grammar: Grammar| Box::new(move |n| part(&grammar, n));
    [
        Reading::of("arithmetic", arithmetic(), parts(arithmetic())),
        Reading::of("box", boxes(), parts(boxes())),
        Reading::of("six readings", sixfold(), Box::new(|n| vec![SIXFOLD_THING; n])),
    ]
}
