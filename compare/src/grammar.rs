//! What can be said of a grammar without a table: productive, reachable, unit rings, tokens that begin a symbol.
use crate::table::{Grammar, Kinds};
use std::collections::BTreeSet;

impl Grammar {
    /// The nonterminals that derive some string of tokens.
    pub fn productive(&self) -> BTreeSet<u16> {
        let mut found = BTreeSet::new();
        loop {
            let ready = |x: &u16| self.is_kind(*x) || found.contains(x);
            let more: BTreeSet<u16> = self.rules.iter().filter(|r| r.right.iter().all(ready)).map(|r| r.left).collect();
            if more == found {
                return found;
            }
            found = more;
        }
    }

    /// The symbols that are met when one goes on from some symbols, and those themselves.
    fn spread(&self, from: impl Iterator<Item = u16>, onward: impl Fn(u16) -> Vec<u16>) -> BTreeSet<u16> {
        let mut found = BTreeSet::new();
        let mut waiting: Vec<u16> = from.collect();
        while let Some(symbol) = waiting.pop() {
            if found.insert(symbol) {
                waiting.extend(onward(symbol));
            }
        }
        found
    }

    /// The right sides of a nonterminal.
    fn rights(&self, left: u16) -> impl Iterator<Item = &Vec<u16>> {
        self.rules.iter().filter(move |r| r.left == left).map(|r| &r.right)
    }

    /// The symbols that stand in some string derived from the start.
    pub fn reachable(&self) -> BTreeSet<u16> {
        self.spread(std::iter::once(self.start()), |a| self.rights(a).flatten().copied().collect())
    }

    /// The nonterminals to which a nonterminal leads by one rule whose right side is that one alone.
    fn units(&self, left: u16) -> Vec<u16> {
        let single = |right: &Vec<u16>| match right[..] {
            [only] if self.is_nonterminal(only) => Some(only),
            _ => None,
        };
        self.rights(left).filter_map(single).collect()
    }

    /// Whether a nonterminal comes back to itself through such rules.
    pub fn on_ring(&self, symbol: u16) -> bool {
        self.spread(self.units(symbol).into_iter(), |a| self.units(a)).contains(&symbol)
    }

    /// The tokens that can begin a symbol of a reduced grammar: there is no empty right side, so only first symbols count.
    pub fn begin(&self, symbol: u16) -> Kinds {
        let first = |a: u16| self.rights(a).map(|right| right[0]).collect();
        self.spread(std::iter::once(symbol), first).into_iter().filter(|&x| self.is_kind(x)).collect()
    }

    /// The nonterminals that are not productive or not reachable, rising.
    pub fn faulty(&self) -> impl Iterator<Item = u16> {
        let (productive, reachable) = (self.productive(), self.reachable());
        self.nonterminals().filter(move |a| !productive.contains(a) || !reachable.contains(a))
    }

    /// The nonterminals on a unit ring, rising.
    pub fn ringed(&self) -> impl Iterator<Item = u16> + '_ {
        self.nonterminals().filter(|&a| self.on_ring(a))
    }

    /// Whether the grammar is reduced and has no unit ring.
    pub fn sound(&self) -> bool {
        self.faulty().next().is_none() && self.ringed().next().is_none()
    }
}
