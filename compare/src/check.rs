//! The table check: the lines, then the grammar, then the seven conditions.
use crate::answer::{Judgement, Refusal};
use crate::conditions::broken;
use crate::numbers;
use crate::table::Table;

/// Checks a table as numbers. What passes is given as a value.
pub fn check(table: &[u16]) -> Result<Table, Refusal> {
    let table = numbers::read(table)?.table;
    passes(&table)?;
    Ok(table)
}

/// Checks a table whose lines fit.
pub fn passes(table: &Table) -> Result<(), Refusal> {
    if let Some(symbol) = table.grammar.faulty().next() {
        return Err(Refusal::NotReduced { symbol });
    }
    if let Some(symbol) = table.grammar.ringed().next() {
        return Err(Refusal::Ring { symbol });
    }
    match broken(table).first() {
        Some(&(condition, state)) => Err(Refusal::Broken { condition, state }),
        None => Ok(()),
    }
}

/// The check's three numbers: 0 with m, or a refusal.
pub fn told(table: &[u16]) -> Judgement {
    match check(table) {
        Ok(table) => Judgement { answer: 0, value: table.states.len() as u64, steps: 0 },
        Err(refusal) => refusal.into(),
    }
}
