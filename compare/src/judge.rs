//! The judge of tails, by the rules of the forest.
use crate::answer::{too_many, Judgement, Refusal};
use crate::check::check;
use crate::forest::{Forest, Trees};
use crate::limits;
use crate::table::Table;
use std::collections::{BTreeMap, BTreeSet};

/// A table as its actions: where go lines lead, what is reduced on which kind, and LONG.
pub struct Machine<'a> {
    table: &'a Table,
    goes: Vec<BTreeMap<u16, usize>>,
    reductions: Vec<BTreeMap<u16, usize>>,
    long: BTreeMap<u16, BTreeSet<usize>>,
}

impl<'a> Machine<'a> {
    pub fn of(table: &'a Table) -> Machine<'a> {
        let goes = table.states.iter().map(|state| state.goes.iter().copied().collect()).collect();
        let reductions = table.states.iter().map(|state| {
            let complete = state.items.iter().filter(|i| table.after(i).is_none());
            complete.flat_map(|i| i.set.iter().map(|&t| (t, i.rule))).collect()
        });
        let mut long: BTreeMap<u16, BTreeSet<usize>> = BTreeMap::new();
        for &(symbol, target) in table.states.iter().flat_map(|state| &state.goes) {
            long.entry(symbol).or_default().insert(target);
        }
        Machine { table, goes, reductions: reductions.collect(), long }
    }

    /// The go target of a state on a symbol.
    fn go(&self, state: usize, symbol: u16) -> Option<usize> {
        self.goes[state].get(&symbol).copied()
    }

    /// The states that go lines on a symbol lead to.
    fn long(&self, symbol: u16) -> BTreeSet<usize> {
        self.long.get(&symbol).cloned().unwrap_or_default()
    }

    /// Judges a tail of kinds. The forest is shown after each step and each shift.
    pub fn run<F: Forest>(&self, tail: &[u16], show: &mut dyn FnMut(&F)) -> Judgement {
        let Some((&first, later)) = tail.split_first() else {
            return Judgement { answer: 0, value: 0, steps: 0 };
        };
        let mut forest = F::single(&self.long(first));
        let mut steps = 0;
        show(&forest);
        if forest.roots().is_empty() {
            return Judgement { answer: 1, value: 0, steps };
        }
        for (index, &t) in (1..).zip(later) {
            steps += self.reduce_phase(&mut forest, t, show);
            forest = forest.raise(&|root| self.go(root, t));
            show(&forest);
            if forest.roots().is_empty() {
                return Judgement { answer: 1, value: index, steps };
            }
        }
        Judgement { answer: 0, value: tail.len() as u64, steps }
    }

    /// The reduce phase on a token. Gives its steps.
    fn reduce_phase<F: Forest>(&self, forest: &mut F, t: u16, show: &mut dyn FnMut(&F)) -> u64 {
        let mut made = BTreeSet::new();
        let mut steps = 0;
        while let Some((root, rule)) = self.lowest(forest, t) {
            let rule = &self.table.grammar.rules[rule];
            let (kept, short) = forest.take(root).below(rule.right.len());
            forest.join(kept.raise(&|node| {
                let target = self.go(node, rule.left);
                assert!(target.is_some() || F::WRONG, "a go line on the left side");
                target
            }));
            if short && made.insert(rule.left) {
                forest.join(F::single(&self.long(rule.left)));
            }
            steps += 1;
            show(forest);
        }
        steps
    }

    /// The lowest root that reduces on a token, and its rule.
    fn lowest<F: Forest>(&self, forest: &F, t: u16) -> Option<(usize, usize)> {
        forest.roots().into_iter().find_map(|root| Some((root, *self.reductions[root].get(&t)?)))
    }
}

/// The refusals before a tail is judged: the table check's, then 30, 31, 32. Gives the table and the words that are used.
fn admit(table: &[u16], tail: &[u16], room: usize) -> Result<(Table, usize), Refusal> {
    let table = check(table)?;
    if tail.len() > limits::TAIL {
        return Err(too_many());
    }
    if let Some(index) = tail.iter().position(|&t| !table.grammar.is_kind(t)) {
        return Err(Refusal::Token { index });
    }
    let words = limits::words(table.states.len(), tail.len());
    if room < words {
        return Err(Refusal::Room { words });
    }
    Ok((table, words))
}

/// Judges a tail with a table as numbers and a room.
pub fn judge(table: &[u16], tail: &[u16], room: &mut [u32]) -> Judgement {
    match admit(table, tail, room.len()) {
        Err(refusal) => refusal.into(),
        Ok((table, words)) => {
            room[..words].fill(0);
            Machine::of(&table).run::<Trees>(tail, &mut |_| ())
        }
    }
}
