//! A grammar and a table as plain values, and the lines that say them.
use std::collections::BTreeSet;

/// A set of kinds, the end mark perhaps among them.
pub type Kinds = BTreeSet<u16>;

/// A rule: its left side and its right side.
#[derive(Clone, Debug, PartialEq, Eq)]
pub struct Rule {
    pub left: u16,
    pub right: Vec<u16>,
}

/// The counts of symbols and the listed rules.
#[derive(Clone, Debug, PartialEq, Eq)]
pub struct Grammar {
    pub terms: u16,
    pub nonterms: u16,
    pub rules: Vec<Rule>,
}

/// An item: a rule, the dot's place, the look-ahead set.
#[derive(Clone, Debug, PartialEq, Eq, PartialOrd, Ord)]
pub struct Item {
    pub rule: usize,
    pub dot: usize,
    pub set: Kinds,
}

/// A state: its items and its go lines (symbol, target) in the order of the sheet.
#[derive(Clone, Debug, PartialEq, Eq)]
pub struct State {
    pub items: Vec<Item>,
    pub goes: Vec<(u16, usize)>,
}

/// A table: the grammar and the states.
#[derive(Clone, Debug, PartialEq, Eq)]
pub struct Table {
    pub grammar: Grammar,
    pub states: Vec<State>,
}

impl Grammar {
    /// The end mark.
    pub fn end(&self) -> u16 {
        self.terms
    }

    /// The start symbol.
    pub fn start(&self) -> u16 {
        self.terms + 1
    }

    /// All nonterminals, rising.
    pub fn nonterminals(&self) -> impl Iterator<Item = u16> {
        self.start()..=self.terms + self.nonterms
    }

    /// Whether a symbol is a token kind.
    pub fn is_kind(&self, symbol: u16) -> bool {
        symbol < self.terms
    }

    /// Whether a symbol is a nonterminal.
    pub fn is_nonterminal(&self, symbol: u16) -> bool {
        symbol > self.terms && symbol <= self.terms + self.nonterms
    }

    /// The number of the accept rule.
    pub fn accept(&self) -> usize {
        self.rules.len()
    }

    /// The right side of a rule, the accept rule's too.
    pub fn right(&self, rule: usize) -> Vec<u16> {
        self.rules.get(rule).map_or_else(|| vec![self.start()], |r| r.right.clone())
    }

    /// The left side of a listed rule. The accept rule has none that could stand anywhere.
    pub fn left(&self, rule: usize) -> Option<u16> {
        self.rules.get(rule).map(|r| r.left)
    }

    /// The symbol in a rule's right side at a place, if there is one.
    pub fn symbol(&self, rule: usize, place: usize) -> Option<u16> {
        match self.rules.get(rule) {
            Some(listed) => listed.right.get(place).copied(),
            None => (place == 0).then(|| self.start()),
        }
    }

    /// The numbers of the rules of a nonterminal, rising.
    pub fn rules_of(&self, left: u16) -> impl Iterator<Item = usize> + '_ {
        self.rules.iter().enumerate().filter(move |(_, r)| r.left == left).map(|(k, _)| k)
    }
}

/// One line: its key and its numbers.
pub type Line = (&'static str, Vec<u32>);

impl Table {
    /// The symbol directly after an item's dot.
    pub fn after(&self, item: &Item) -> Option<u16> {
        self.grammar.symbol(item.rule, item.dot)
    }

    /// The lines of the sheet, in order.
    pub fn lines(&self) -> Vec<Line> {
        let g = &self.grammar;
        let mut lines: Vec<Line> =
            vec![("terms", vec![g.terms as u32]), ("nonterms", vec![g.nonterms as u32]), ("rules", vec![g.rules.len() as u32])];
        for rule in &g.rules {
            let numbers = std::iter::once(&rule.left).chain(&rule.right);
            lines.push(("rule", numbers.map(|&x| x as u32).collect()));
        }
        lines.push(("states", vec![self.states.len() as u32]));
        lines.extend(self.states.iter().flat_map(state_lines));
        lines
    }

    /// The table as 16-bit numbers: for each line the count of its numbers, then the numbers.
    pub fn numbers(&self) -> Vec<u16> {
        self.lines().iter().flat_map(|(_, numbers)| counted(numbers)).collect()
    }

    /// The sheet's bytes.
    pub fn sheet(&self) -> Vec<u8> {
        self.lines().iter().flat_map(written).collect()
    }
}

/// The lines of one state.
fn state_lines(state: &State) -> Vec<Line> {
    let mut lines = vec![("state", vec![state.items.len() as u32, state.goes.len() as u32])];
    for item in &state.items {
        let set = item.set.iter().map(|&t| t as u32);
        lines.push(("item", [item.rule as u32, item.dot as u32].into_iter().chain(set).collect()));
    }
    for &(symbol, target) in &state.goes {
        lines.push(("go", vec![symbol as u32, target as u32]));
    }
    lines
}

/// A line's numbers behind their count.
pub fn counted(numbers: &[u32]) -> Vec<u16> {
    std::iter::once(numbers.len() as u32).chain(numbers.iter().copied()).map(|x| x as u16).collect()
}

/// A line as bytes, with its LF.
pub fn written((key, numbers): &Line) -> Vec<u8> {
    let words: Vec<String> = numbers.iter().map(u32::to_string).collect();
    format!("{key}={}\n", words.join(" ")).into_bytes()
}
