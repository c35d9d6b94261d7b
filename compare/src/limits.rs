//! The limits of document 01, each said once.
use std::ops::RangeInclusive;

/// T, the count of token kinds.
pub const TERMS: RangeInclusive<u32> = 1..=63;
/// N, the count of nonterminals.
pub const NONTERMS: RangeInclusive<u32> = 1..=32;
/// R, the count of listed rules.
pub const RULES: RangeInclusive<u32> = 1..=64;
/// Symbols on a right side.
pub const RIGHT: RangeInclusive<usize> = 1..=8;
/// m, the count of states.
pub const STATES: RangeInclusive<u32> = 1..=128;
/// K, the items of a state.
pub const ITEMS: RangeInclusive<u32> = 1..=200;
/// G, the go lines of a state.
pub const GOES: RangeInclusive<u32> = 0..=96;
/// Digits of a number.
pub const DIGITS: RangeInclusive<usize> = 1..=5;
/// Bytes of a sheet.
pub const SHEET: usize = 60_000;
/// Numbers of a table.
pub const TABLE: usize = 60_000;
/// Tokens of a tail.
pub const TAIL: usize = 4_096;

/// Words of room that a judgement needs: m states, n tokens.
pub fn words(m: usize, n: usize) -> usize {
    8 * m * (n + 2)
}
