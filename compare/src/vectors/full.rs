//! Tables of about as many numbers as a table may have. Their sheets would be too long; as numbers they pass.
use super::Vector;
use crate::grammars::grammar;
use crate::limits;
use crate::make::{assemble, Sort};
use crate::table::{Grammar, Item, Table};

/// Lists of 49 kinds of things and of lists in six kinds of brackets.
fn lists() -> Grammar {
    let (things, brackets, list) = (49, 6, 64);
    let mut rules = vec![vec![list, list, list + 1], vec![list, list + 1]];
    rules.extend((0..brackets).map(|b| vec![list + 1, things + 2 * b, list, things + 2 * b + 1]));
    rules.extend((0..things).map(|thing| vec![list + 1, thing]));
    grammar(63, 2, &rules.iter().map(Vec::as_slice).collect::<Vec<_>>())
}

/// A table of exactly so many numbers that passes. Sets grow first in complete items, which lead nowhere, then in items with
/// one kind to go, which lead to these.
fn of_numbers(count: usize) -> Table {
    let mut table = assemble(&lists(), Sort::Slr).expect("within the ranges");
    let mut missing = count.checked_sub(table.numbers().len()).expect("not too many yet");
    let grammar = table.grammar.clone();
    for left in [0, 1] {
        let onward = |item: &Item| grammar.right(item.rule)[item.dot..].to_vec();
        let fits = |item: &&mut Item| onward(item).len() == left && onward(item).iter().all(|&x| grammar.is_kind(x));
        let items = table.states.iter_mut().flat_map(|state| &mut state.items);
        for item in items.filter(|i| i.rule != grammar.accept()).filter(fits) {
            for t in 0..=grammar.end() {
                missing -= (missing > 0 && item.set.insert(t)) as usize;
            }
        }
    }
    assert_eq!(missing, 0, "enough room in the sets");
    table
}

pub fn vectors() -> Vec<Vector> {
    let most = of_numbers(limits::TABLE);
    let m = most.states.len() as u64;
    let mut conflict = most.clone();
    let last = conflict.states.last_mut().expect("a state");
    last.goes.push((0, 1));
    let shorter = of_numbers(limits::TABLE - 4);
    let mut broken = shorter.clone();
    broken.states[0].goes[0].1 += 1;
    vec![
        Vector::of("60,000 numbers that pass", most.numbers(), 0, m),
        Vector::of("10: one number more", most.numbers(), 10, 0).filled(limits::TABLE + 1, 0),
        Vector::of("10: one go line more", conflict.numbers(), 10, 0),
        Vector::of("59,996 numbers that pass", shorter.numbers(), 0, m),
        Vector::of("12: four numbers after them", shorter.numbers(), 12, shorter.lines().len() as u64).filled(limits::TABLE, 0),
        Vector {
            broken: vec![5, 6],
            ..Vector::of("22: 59,996 numbers, a go line that leads elsewhere", broken.numbers(), 22, 0)
        },
    ]
}
