//! A maker of tables: SLR, LALR(1) and canonical LR(1), in the usual order. The items of a state come in closure order, the states in
//! the order in which they are found, the go lines by rising symbol.
use crate::limits;
use crate::table::{Grammar, Item, Kinds, State, Table};
use std::collections::{BTreeMap, BTreeSet};

/// The three kinds of tables.
#[derive(Clone, Copy, Debug, PartialEq, Eq)]
pub enum Sort {
    Slr,
    Lalr,
    Canonical,
}

/// All of them.
pub const SORTS: [Sort; 3] = [Sort::Slr, Sort::Lalr, Sort::Canonical];

/// The tokens that begin each symbol, round after round over all rules.
fn first_sets(grammar: &Grammar) -> BTreeMap<u16, Kinds> {
    let mut sets: BTreeMap<u16, Kinds> = (0..grammar.terms).map(|t| (t, Kinds::from([t]))).collect();
    sets.extend(grammar.nonterminals().map(|a| (a, Kinds::new())));
    loop {
        let before = sets.clone();
        for rule in &grammar.rules {
            let more = sets[&rule.right[0]].clone();
            sets.get_mut(&rule.left).expect("a nonterminal").extend(more);
        }
        if sets == before {
            return sets;
        }
    }
}

/// The tokens that follow each nonterminal.
fn follow_sets(grammar: &Grammar) -> BTreeMap<u16, Kinds> {
    let first = first_sets(grammar);
    let mut sets: BTreeMap<u16, Kinds> = grammar.nonterminals().map(|a| (a, Kinds::new())).collect();
    sets.insert(grammar.start(), Kinds::from([grammar.end()]));
    loop {
        let before = sets.clone();
        for rule in &grammar.rules {
            for (k, symbol) in rule.right.iter().enumerate().filter(|(_, x)| grammar.is_nonterminal(**x)) {
                let more = rule.right.get(k + 1).map_or(&before[&rule.left], |next| &first[next]);
                sets.get_mut(symbol).expect("a nonterminal").extend(more);
            }
        }
        if sets == before {
            return sets;
        }
    }
}

/// A maker at work on a grammar.
struct Maker<'a> {
    grammar: &'a Grammar,
    first: BTreeMap<u16, Kinds>,
    /// Whether the sets are worked out while states are made, and tell states apart.
    canonical: bool,
}

impl Maker<'_> {
    /// The look-aheads that an item gives to the rules of the nonterminal after its dot.
    fn given(&self, item: &Item) -> Kinds {
        match self.grammar.symbol(item.rule, item.dot + 1) {
            Some(next) => self.first[&next].clone(),
            None => item.set.clone(),
        }
    }

    /// Adds what the items ask for, each missing rule at the end. Says whether anything was new.
    fn pass(&self, items: &mut Vec<Item>) -> bool {
        let before = items.clone();
        let mut at = 0;
        while at < items.len() {
            let after = self.grammar.symbol(items[at].rule, items[at].dot);
            for rule in after.into_iter().flat_map(|b| self.grammar.rules_of(b)) {
                let given = if self.canonical { self.given(&items[at]) } else { Kinds::new() };
                match items.iter_mut().find(|i| (i.rule, i.dot) == (rule, 0)) {
                    Some(item) => item.set.extend(given),
                    None => items.push(Item { rule, dot: 0, set: given }),
                }
            }
            at += 1;
        }
        *items != before
    }

    /// The closure of a kernel.
    fn close(&self, kernel: Vec<Item>) -> Vec<Item> {
        let mut items = kernel;
        while self.pass(&mut items) {}
        items
    }

    /// For each symbol after a dot, rising, the items with the dot moved on.
    fn moves(&self, items: &[Item]) -> BTreeMap<u16, Vec<Item>> {
        let mut moves: BTreeMap<u16, Vec<Item>> = BTreeMap::new();
        for item in items {
            if let Some(symbol) = self.grammar.symbol(item.rule, item.dot) {
                moves.entry(symbol).or_default().push(Item { dot: item.dot + 1, ..item.clone() });
            }
        }
        moves
    }

    /// All states. None: there are more than a sheet may have.
    fn states(&self) -> Option<Vec<State>> {
        let set = if self.canonical { Kinds::from([self.grammar.end()]) } else { Kinds::new() };
        let mut kernels = vec![vec![Item { rule: self.grammar.accept(), dot: 0, set }]];
        let mut found: BTreeMap<Vec<Item>, usize> = BTreeMap::new();
        let mut states = Vec::new();
        while states.len() < kernels.len() {
            let items = self.close(kernels[states.len()].clone());
            let mut goes = Vec::new();
            for (symbol, kernel) in self.moves(&items) {
                let mut name = kernel.clone();
                name.sort();
                let target = *found.entry(name).or_insert(kernels.len());
                if target == kernels.len() {
                    kernels.push(kernel);
                }
                goes.push((symbol, target));
            }
            states.push(State { items, goes });
            if kernels.len() > *limits::STATES.end() as usize {
                return None;
            }
        }
        Some(states)
    }

    /// Gives each item of an SLR table the tokens that follow its left side.
    fn follow(&self, states: &mut [State]) {
        let follow = follow_sets(self.grammar);
        for item in states.iter_mut().flat_map(|state| &mut state.items) {
            item.set = match self.grammar.left(item.rule) {
                Some(left) => follow[&left].clone(),
                None => Kinds::from([self.grammar.end()]),
            };
        }
    }

    /// Gives each item of an LALR table the least set that closure and go lines ask for.
    fn propagate(&self, states: &mut Vec<State>) {
        states[0].items[0].set = Kinds::from([self.grammar.end()]);
        loop {
            let before = states.clone();
            for (s, old) in before.iter().enumerate() {
                for item in &old.items {
                    let Some(symbol) = self.grammar.symbol(item.rule, item.dot) else { continue };
                    let (_, target) = old.goes.iter().find(|go| go.0 == symbol).expect("a go line");
                    spread(&mut states[*target], (item.rule, item.dot + 1), &item.set);
                    for rule in self.grammar.rules_of(symbol) {
                        spread(&mut states[s], (rule, 0), &self.given(item));
                    }
                }
            }
            if *states == before {
                return;
            }
        }
    }
}

/// Adds look-aheads to the item of a state with this rule and dot.
fn spread(state: &mut State, core: (usize, usize), set: &Kinds) {
    let item = state.items.iter_mut().find(|i| (i.rule, i.dot) == core).expect("an item");
    item.set.extend(set);
}

/// Makes a table, with or without conflicts. None: it is beyond the ranges, or its sheet is too long.
pub fn make(grammar: &Grammar, sort: Sort) -> Option<Table> {
    assemble(grammar, sort).filter(|table| table.sheet().len() <= limits::SHEET)
}

/// Makes a table whose sheet may be too long.
pub fn assemble(grammar: &Grammar, sort: Sort) -> Option<Table> {
    let maker = Maker { grammar, first: first_sets(grammar), canonical: sort == Sort::Canonical };
    let mut states = maker.states()?;
    match sort {
        Sort::Slr => maker.follow(&mut states),
        Sort::Lalr => maker.propagate(&mut states),
        Sort::Canonical => (),
    }
    let fits = |state: &State| state.items.len() <= *limits::ITEMS.end() as usize;
    let table = Table { grammar: grammar.clone(), states };
    table.states.iter().all(fits).then_some(table)
}

/// Whether a table is free of conflicts.
pub fn free(table: &Table) -> bool {
    let clear = |state: &State| {
        let mut taken: BTreeSet<u16> = state.goes.iter().map(|go| go.0).collect();
        let complete = state.items.iter().filter(|i| i.dot == table.grammar.right(i.rule).len());
        complete.flat_map(|i| &i.set).all(|&t| taken.insert(t))
    };
    table.states.iter().all(clear)
}

/// The tables of a grammar that are free of conflicts.
pub fn tables(grammar: &Grammar) -> Vec<(Sort, Table)> {
    let made = SORTS.iter().filter_map(|&sort| Some((sort, make(grammar, sort)?)));
    made.filter(|(_, table)| free(table)).collect()
}

/// The tables of a grammar that have conflicts.
pub fn conflicting(grammar: &Grammar) -> Vec<(Sort, Table)> {
    let made = SORTS.iter().filter_map(|&sort| Some((sort, make(grammar, sort)?)));
    made.filter(|(_, table)| !free(table)).collect()
}
