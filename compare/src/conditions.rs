//! The seven conditions, each of one state. Which condition fails at which state is told for all of them.
use crate::table::{Item, Kinds, State, Table};
use std::collections::{BTreeMap, BTreeSet};

/// A table with what its conditions ask for again and again.
struct View<'a> {
    table: &'a Table,
    begin: BTreeMap<u16, Kinds>,
}

/// Each broken condition, from 1, with each state that breaks it: conditions rise, and the states of each.
pub fn broken(table: &Table) -> Vec<(usize, usize)> {
    let conditions = [View::one, View::two, View::three, View::four, View::five, View::six, View::seven];
    let view = View::of(table);
    let states = |k: usize| (0..table.states.len()).map(move |s| (k, s));
    let pairs = (0..conditions.len()).flat_map(states);
    pairs.filter(|&(k, s)| !conditions[k](&view, s)).map(|(k, s)| (k + 1, s)).collect()
}

impl<'a> View<'a> {
    fn of(table: &'a Table) -> View<'a> {
        let g = &table.grammar;
        let symbols = (0..g.terms).chain(g.nonterminals());
        View { table, begin: symbols.map(|x| (x, g.begin(x))).collect() }
    }

    fn state(&self, s: usize) -> &'a State {
        &self.table.states[s]
    }

    /// 1: how state 0 begins, dots in and outside it, and the accept rule's set.
    fn one(&self, s: usize) -> bool {
        let items = &self.state(s).items;
        let accept = self.table.grammar.accept();
        let end = Kinds::from([self.table.grammar.end()]);
        let sets = items.iter().filter(|i| i.rule == accept).all(|i| i.set == end);
        let place = match s {
            0 => (items[0].rule, items[0].dot) == (accept, 0) && items.iter().all(|i| i.dot == 0),
            _ => items.iter().any(|i| i.dot > 0),
        };
        sets && place
    }

    /// 2: no two items agree in rule and dot.
    fn two(&self, s: usize) -> bool {
        let items = &self.state(s).items;
        items.iter().map(core).collect::<BTreeSet<_>>().len() == items.len()
    }

    /// 3: an item with dot 0 has an earlier item with its left side after the dot, save the first item of state 0.
    fn three(&self, s: usize) -> bool {
        let items = &self.state(s).items;
        let reason = |place: usize| {
            let left = self.table.grammar.left(items[place].rule);
            left.is_some() && items[..place].iter().any(|earlier| self.table.after(earlier) == left)
        };
        let saved = |place: usize| s == 0 && place == 0;
        (0..items.len()).all(|place| items[place].dot > 0 || saved(place) || reason(place))
    }

    /// 4: every rule of a nonterminal after a dot is there with dot 0 and a set large enough.
    fn four(&self, s: usize) -> bool {
        let g = &self.table.grammar;
        let items = &self.state(s).items;
        let closed = |item: &Item| {
            let Some(b) = self.table.after(item).filter(|&x| g.is_nonterminal(x)) else { return true };
            let asked = g.symbol(item.rule, item.dot + 1).map_or(&item.set, |next| &self.begin[&next]);
            let there = |rule| items.iter().any(|i| core(i) == (rule, 0) && i.set.is_superset(asked));
            g.rules_of(b).all(there)
        };
        items.iter().all(closed)
    }

    /// 5: go lines exactly for the symbols after a dot, and targets that hold exactly the items moved on.
    fn five(&self, s: usize) -> bool {
        let State { items, goes } = self.state(s);
        let asked: BTreeSet<u16> = items.iter().filter_map(|i| self.table.after(i)).collect();
        let lines: BTreeSet<u16> = goes.iter().map(|&(symbol, _)| symbol).collect();
        asked == lines && goes.iter().all(|&(symbol, target)| self.moved(s, symbol, target))
    }

    /// Whether the target's items with dot above 0 are exactly the items with this symbol after the dot, moved on, each with a
    /// set that contains the old one.
    fn moved(&self, s: usize, symbol: u16, target: usize) -> bool {
        let old: Vec<&Item> = self.state(s).items.iter().filter(|i| self.table.after(i) == Some(symbol)).collect();
        let new: Vec<&Item> = self.state(target).items.iter().filter(|i| i.dot > 0).collect();
        let due: BTreeSet<_> = old.iter().map(|i| (i.rule, i.dot + 1)).collect();
        let there: BTreeSet<_> = new.iter().map(|i| core(i)).collect();
        let pairs = new.iter().flat_map(|n| old.iter().map(move |o| (n, o)));
        let mut same = pairs.filter(|(n, o)| core(n) == (o.rule, o.dot + 1));
        due == there && same.all(|(n, o)| n.set.is_superset(&o.set))
    }

    /// 6: every state but 0 is the target of a go line of a lower state.
    fn six(&self, s: usize) -> bool {
        let leads = |state: &State| state.goes.iter().any(|&(_, target)| target == s);
        s == 0 || self.table.states[..s].iter().any(leads)
    }

    /// 7: for each kind and the end mark, the go line and the complete items with it are at most one.
    fn seven(&self, s: usize) -> bool {
        let State { items, goes } = self.state(s);
        let complete: Vec<&Item> = items.iter().filter(|i| self.table.after(i).is_none()).collect();
        let actions = |t: u16| {
            let shifts = goes.iter().filter(|&&(symbol, _)| symbol == t).count();
            shifts + complete.iter().filter(|i| i.set.contains(&t)).count()
        };
        (0..=self.table.grammar.end()).all(|t| actions(t) <= 1)
    }
}

/// An item's rule and dot.
fn core(item: &Item) -> (usize, usize) {
    (item.rule, item.dot)
}
