//! Inputs at the edge of a room: tails that just fit and tails with one token more, of the forests that grow deepest and widest.
use crate::boxed::Sizes;
use crate::chance::Chance;
use crate::grammars::named;
use crate::limits;
use crate::make::tables;
use crate::table::Table;
use crate::tails::sentence;

/// The most tokens for which a table of m states has room.
pub fn most(m: usize, sizes: Sizes) -> usize {
    let fits = |n: &usize| limits::words(m, *n) <= sizes.room;
    (0..=sizes.tokens).take_while(fits).last().unwrap_or(0)
}

/// Rows of each kind, rows that go round through all kinds, and parts of a long sentence.
fn shapes(table: &Table, length: usize) -> Vec<Vec<u16>> {
    let kinds = table.grammar.terms;
    let mut chance = Chance::new(length as u64);
    let mut shapes: Vec<Vec<u16>> = (0..kinds).map(|t| vec![t; length]).collect();
    shapes.push((0..length).map(|k| (k % kinds as usize) as u16).collect());
    for _ in 0..6 {
        let long = sentence(&table.grammar, &mut chance, 3 * length);
        let from = long.len().saturating_sub(length) / 2;
        shapes.push(long[from..].iter().copied().take(length).collect());
        shapes.push(long.iter().copied().take(length).collect());
        shapes.push(long.iter().copied().skip(long.len().saturating_sub(length)).collect());
    }
    shapes
}

/// The inputs.
pub fn extremes(sizes: Sizes) -> Vec<Vec<u8>> {
    let mut inputs = Vec::new();
    for (_, table) in named().iter().flat_map(|(_, grammar)| tables(grammar)) {
        let most = most(table.states.len(), sizes);
        for tail in [most, most + 1].iter().flat_map(|&length| shapes(&table, length)) {
            let words: Vec<String> = tail.iter().map(u16::to_string).collect();
            let line = format!("tail={}\n", words.join(" "));
            inputs.push([table.sheet(), line.into_bytes()].concat());
        }
    }
    inputs
}
