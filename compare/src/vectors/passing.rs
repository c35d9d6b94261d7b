//! Tables that pass.
use super::Vector;
use crate::edit::edit;
use crate::grammars::{arithmetic, assignment, boxes, brackets, crossed, grammar, largest, list, rows};
use crate::make::{make, Sort};
use crate::marked::{wider, BOX, TINY};
use crate::table::Grammar;

/// A made table that passes with this many states.
fn made(name: &str, grammar: &Grammar, sort: Sort, m: u64) -> Vector {
    Vector::made(name, &make(grammar, sort).expect("within the ranges"), 0, m)
}

/// A nonterminal with one rule of eight symbols.
fn eight() -> Grammar {
    grammar(2, 1, &[&[3, 0, 0, 0, 0, 0, 0, 0, 1]])
}

/// The box sheet with the end mark in two more sets.
fn two_wider() -> String {
    edit(BOX, &[(44, "item=2 1 0 1 2", "item=2 1 0 1 2 3"), (48, "item=1 2 0 1 2", "item=1 2 0 1 2 3")])
}

pub fn vectors() -> Vec<Vector> {
    vec![
        Vector::sheet("the sheet of document 01", BOX, 0, 9),
        Vector::sheet("the smallest sheet", TINY, 0, 3),
        Vector::sheet("state 3's item with one more look-ahead", &wider(), 0, 9),
        Vector::sheet("two last items with one look-ahead more", &two_wider(), 0, 9),
        made("boxes, LALR", &boxes(), Sort::Lalr, 9),
        made("boxes, canonical", &boxes(), Sort::Canonical, 12),
        made("arithmetic, SLR", &arithmetic(), Sort::Slr, 12),
        made("arithmetic, LALR", &arithmetic(), Sort::Lalr, 12),
        made("arithmetic, canonical", &arithmetic(), Sort::Canonical, 22),
        made("two kinds of brackets, LALR", &brackets(), Sort::Lalr, 11),
        made("a list, canonical", &list(), Sort::Canonical, 4),
        made("rows, canonical", &rows(), Sort::Canonical, 28),
        made("assignment, LALR where SLR has a conflict", &assignment(), Sort::Lalr, 10),
        made("crossed, canonical where LALR has a conflict", &crossed(), Sort::Canonical, 14),
        made("a right side of eight symbols", &eight(), Sort::Slr, 10),
        made("63 kinds, 32 nonterminals, 64 rules, 128 states", &largest(), Sort::Canonical, 128),
    ]
}
