//! Self-checks on random grammars and tails: what this program says of itself has to agree with itself, with the rules alone, and
//! with the bounds.
use crate::answer::{most_nodes, most_steps, most_steps_flat, Judgement, Refusal};
use crate::boxed::{outcome, SMALL};
use crate::cases::{change, some_grammar};
use crate::chance::Chance;
use crate::check::{self, check, passes};
use crate::conditions::broken;
use crate::fast;
use crate::forest::{Forest, Trees};
use crate::judge::Machine;
use crate::limits;
use crate::make::{conflicting, tables, Sort};
use crate::marked;
use crate::numbers;
use crate::paths::Paths;
use crate::pieces;
use crate::sheet;
use crate::table::{Grammar, Table};
use crate::tails::{part, tail};
use crate::tally::Tally;
use std::collections::BTreeSet;

/// Runs the stated cases and then this many random ones. Says whether all is well.
pub fn selfcheck(cases: u64, seed: u64) -> bool {
    let mut tally = Tally::default();
    for case in marked::all() {
        let told = outcome(&case.input, SMALL);
        tally.expect(told == case.outcome, "a stated outcome", || format!("{}: {told:?}", case.name));
    }
    for number in 0..cases {
        one(&mut Chance::of_case(seed, number), &mut tally);
        tally.progress(number + 1, cases);
    }
    tally.end()
}

/// One grammar with its tables, changed tables and tails.
fn one(chance: &mut Chance, tally: &mut Tally) {
    let grammar = some_grammar(chance);
    tally.saw("grammars");
    beginners(&grammar, tally);
    pairs(&grammar, tally);
    let tables = tables(&grammar);
    for (sort, table) in &tables {
        tally.saw(&format!("tables, {sort:?}"));
        made(*sort, table, chance, tally);
    }
    for (sort, table) in conflicting(&grammar) {
        tally.saw(&format!("tables with conflicts, {sort:?}"));
        let seventh = broken(&table).iter().all(|&(condition, _)| condition == 7) && passes(&table).is_err();
        tally.expect(seventh, "a conflict breaks condition 7 alone", || format!("{table:?}"));
    }
    if tables.is_empty() {
        tally.saw("grammars without a table that is free of conflicts");
        return;
    }
    for _ in 0..8 {
        let tail = tail(&grammar, chance, 12);
        let told: Vec<Judgement> = tables.iter().map(|(_, table)| judged(table, &tail, tally)).collect();
        let same = told.iter().all(|j| (j.answer, j.value) == (told[0].answer, told[0].value));
        tally.expect(same, "the sorts of tables agree", || format!("{grammar:?} {tail:?} {told:?}"));
    }
    let inside = part(&grammar, chance, 30);
    let told = judged(&tables[0].1, &inside, tally);
    tally.expect(told.answer == 0, "a part of a sentence is a piece", || format!("{grammar:?} {inside:?} {told:?}"));
    for _ in 0..6 {
        changed(chance.pick(&tables).1.clone(), chance, tally);
    }
}

/// The tokens that begin a symbol, by the grammar and by the stretches.
fn beginners(grammar: &Grammar, tally: &mut Tally) {
    for symbol in (0..grammar.terms).chain(grammar.nonterminals()) {
        let same = grammar.begin(symbol) == pieces::beginners(grammar, symbol);
        tally.expect(same, "tokens that begin a symbol", || format!("{grammar:?} {symbol}"));
    }
}

/// Two tokens are a piece exactly if a rule has two neighbours of which the first can end with the one and the second begin
/// with the other.
fn pairs(grammar: &Grammar, tally: &mut Tally) {
    let mut back = grammar.clone();
    back.rules.iter_mut().for_each(|rule| rule.right.reverse());
    let neighbours = grammar.rules.iter().flat_map(|rule| rule.right.windows(2));
    let ends = neighbours.map(|pair| (back.begin(pair[0]), grammar.begin(pair[1])));
    let all: BTreeSet<(u16, u16)> = ends
        .flat_map(|(last, first)| last.into_iter().flat_map(move |a| first.clone().into_iter().map(move |b| (a, b))))
        .collect();
    for (a, b) in (0..grammar.terms).flat_map(|a| (0..grammar.terms).map(move |b| (a, b))) {
        let same = pieces::piece(grammar, &[a, b]) == all.contains(&(a, b));
        tally.expect(same, "neighbours", || format!("{grammar:?} {a} {b}"));
    }
}

/// A made table passes, its sheet and its numbers can be read back, and where its sets are the least ones none can lose a member.
fn made(sort: Sort, table: &Table, chance: &mut Chance, tally: &mut Tally) {
    let detail = || String::from_utf8_lossy(&table.sheet()).into_owned();
    let numbers = table.numbers();
    tally.expect(check(&numbers).as_ref() == Ok(table), "a made table passes", detail);
    let read = sheet::read(&table.sheet()).map(|walked| (walked.numbers, walked.table));
    tally.expect(read == Ok((numbers.clone(), table.clone())), "a sheet is read back", detail);
    let walked = numbers::read(&numbers).map(|walked| walked.table.sheet());
    tally.expect(walked == Ok(table.sheet()), "a sheet is written back", detail);
    let mut less = table.clone();
    let state = chance.below(less.states.len());
    let at = chance.below(less.states[state].items.len());
    let item = &mut less.states[state].items[at];
    let members: Vec<u16> = item.set.iter().copied().collect();
    item.set.remove(chance.pick(&members));
    if sort != Sort::Slr {
        tally.expect(passes(&less).is_err(), "a least set that lost a member", || format!("{less:?}"));
    }
}

/// Judges a tail in two ways, and holds the judgement against the rules alone and the bounds.
fn judged(table: &Table, tail: &[u16], tally: &mut Tally) -> Judgement {
    let machine = Machine::of(table);
    let (mut by_trees, mut by_paths) = (Vec::new(), Vec::new());
    let told = machine.run::<Trees>(tail, &mut |forest| by_trees.push((forest.roots(), forest.nodes())));
    let again = machine.run::<Paths>(tail, &mut |forest| by_paths.push((forest.roots(), forest.nodes())));
    let detail = || format!("{}tail={tail:?} {told:?}", String::from_utf8_lossy(&table.sheet()));
    tally.saw(if told.answer == 0 { "tails judged a piece" } else { "tails judged a stop" });
    tally.expect(told == again && by_trees == by_paths, "trees and paths agree", detail);
    let mut room = vec![1; limits::words(table.states.len(), tail.len())];
    let fast = fast::judge(&table.numbers(), tail, &mut room);
    tally.expect(told == fast && room.iter().all(|&word| word == 0), "the fast judge agrees", detail);
    let (answer, value) = match pieces::stop(&table.grammar, tail) {
        None => (0, tail.len() as u64),
        Some(index) => (1, index as u64),
    };
    tally.expect((told.answer, told.value) == (answer, value), "the judge agrees with the rules", detail);
    let (n, m) = (tail.len(), table.states.len());
    let within = told.steps <= most_steps(n, m, table.grammar.nonterms as usize);
    tally.expect(within, "steps within the bound", detail);
    let flat = table.grammar.rules.iter().all(|rule| rule.right.len() > 1);
    tally.expect(!flat || told.steps <= most_steps_flat(n, m), "steps within the flat bound", detail);
    let held = by_trees.iter().all(|&(_, nodes)| nodes <= most_nodes(n, m));
    tally.expect(held, "nodes within the bound", detail);
    told
}

/// A changed table: if it still passes, its judgements still agree with the rules.
fn changed(mut table: Table, chance: &mut Chance, tally: &mut Tally) {
    change(&mut table, chance);
    let numbers = table.numbers();
    tally.expect(fast::check(&numbers) == check::told(&numbers), "the fast check agrees", || format!("{table:?}"));
    let Ok(walked) = numbers::read(&numbers) else {
        return tally.saw("changed tables, lines do not fit");
    };
    match passes(&walked.table) {
        Err(refusal) => tally.saw(&format!("changed tables, {}", refusal_name(refusal))),
        Ok(()) => {
            tally.saw("changed tables that pass");
            for _ in 0..4 {
                let tail = tail(&table.grammar, chance, 12);
                judged(&table, &tail, tally);
            }
        }
    }
}

/// A refusal's answer, and the condition of a 22.
fn refusal_name(refusal: Refusal) -> String {
    match refusal {
        Refusal::Broken { condition, .. } => format!("22, condition {condition} first"),
        other => format!("{}", other.numbers().0),
    }
}
