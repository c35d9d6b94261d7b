//! The table check.
use super::conditions::hold;
use super::grammar::Grammar;
use super::table::Table;
use crate::answer::{Judgement, Refusal};

/// Checks a table as numbers; what passes is given taken apart.
pub fn checked(numbers: &[u16]) -> Result<Table, Refusal> {
    let table = Table::of(numbers)?;
    let grammar = Grammar::of(&table);
    if let Some(symbol) = grammar.faulty {
        return Err(Refusal::NotReduced { symbol });
    }
    if let Some(symbol) = grammar.ringed {
        return Err(Refusal::Ring { symbol });
    }
    if !hold(&table, &grammar) {
        return Err(Refusal::Broken { condition: 0, state: 0 });
    }
    Ok(table)
}

/// The check's three numbers.
pub fn check(numbers: &[u16]) -> Judgement {
    match checked(numbers) {
        Ok(table) => Judgement { answer: 0, value: table.states.len() as u64, steps: 0 },
        Err(refusal) => refusal.into(),
    }
}
