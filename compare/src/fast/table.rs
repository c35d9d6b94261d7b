//! A table taken apart once: items and go lines in rows, sets as 64-bit numbers.
use super::ranges::Ranges;
use crate::answer::Refusal;
use crate::limits;

/// A rule: its left side and its right side.
#[derive(Clone, Copy)]
pub struct Rule {
    pub left: u8,
    pub length: u8,
    pub right: [u8; RIGHT],
}

/// Symbols on the longest right side.
pub const RIGHT: usize = *limits::RIGHT.end();

/// An item with the symbol after its dot; NONE if it is complete.
#[derive(Clone, Copy)]
pub struct Item {
    pub rule: u8,
    pub dot: u8,
    pub after: u8,
    pub set: u64,
}

/// No symbol, or no state.
pub const NONE: u8 = u8::MAX;

/// A go line.
#[derive(Clone, Copy)]
pub struct Go {
    pub symbol: u8,
    pub target: u8,
}

/// Where the items and the go lines of a state begin and end.
#[derive(Clone, Copy)]
pub struct State {
    pub items: (u32, u32),
    pub goes: (u32, u32),
}

/// The table. The accept rule is the last of the rules; its left side is NONE.
pub struct Table {
    pub terms: u8,
    pub nonterms: u8,
    pub rules: Vec<Rule>,
    pub states: Vec<State>,
    pub items: Vec<Item>,
    pub goes: Vec<Go>,
}

/// The numbers, the place and the line's number.
struct Lines<'a> {
    numbers: &'a [u16],
    at: usize,
    line: usize,
}

impl<'a> Lines<'a> {
    /// Takes the next line, which has to pass a test.
    #[inline]
    fn take(&mut self, fits: impl FnOnce(&[u16]) -> bool) -> Result<&'a [u16], Refusal> {
        let refusal = Refusal::Range { line: self.line };
        let &count = self.numbers.get(self.at).ok_or(refusal)?;
        let start = self.at + 1;
        let line = self.numbers.get(start..start + count as usize).ok_or(refusal)?;
        if !fits(line) {
            return Err(refusal);
        }
        self.at = start + count as usize;
        self.line += 1;
        Ok(line)
    }
}

impl Table {
    /// Takes a table as numbers apart: 10, or 12 with the line.
    pub fn of(numbers: &[u16]) -> Result<Table, Refusal> {
        if numbers.len() > limits::TABLE {
            return Err(Refusal::TooLarge);
        }
        let mut lines = Lines { numbers, at: 0, line: 0 };
        let mut ranges = Ranges::new();
        lines.take(|line| ranges.terms(line))?;
        lines.take(|line| ranges.nonterms(line))?;
        lines.take(|line| ranges.rules(line))?;
        let mut table = Table {
            terms: ranges.terms as u8,
            nonterms: ranges.nonterms as u8,
            rules: Vec::with_capacity(ranges.rules as usize + 1),
            states: Vec::new(),
            items: Vec::with_capacity(numbers.len() / 8),
            goes: Vec::with_capacity(numbers.len() / 8),
        };
        for _ in 0..ranges.rules {
            let line = lines.take(|line| ranges.rule(line))?;
            table.rules.push(rule(line));
        }
        table.rules.push(rule(&[NONE as u16, ranges.terms + 1]));
        lines.take(|line| ranges.states(line))?;
        table.states.reserve(ranges.states as usize);
        for _ in 0..ranges.states {
            table.state(&mut lines, &ranges)?;
        }
        if lines.at < numbers.len() {
            return Err(Refusal::Range { line: lines.line });
        }
        Ok(table)
    }

    /// Takes the lines of one state.
    fn state(&mut self, lines: &mut Lines, ranges: &Ranges) -> Result<(), Refusal> {
        let line = lines.take(|line| ranges.state(line))?;
        let (items, goes) = (line[0], line[1]);
        let (first_item, first_go) = (self.items.len() as u32, self.goes.len() as u32);
        for _ in 0..items {
            let line = lines.take(|line| ranges.item(line))?;
            let rule = &self.rules[line[0] as usize];
            let after = if line[1] < rule.length as u16 { rule.right[line[1] as usize] } else { NONE };
            let set = line[2..].iter().fold(0, |set, &t| set | 1 << t);
            self.items.push(Item { rule: line[0] as u8, dot: line[1] as u8, after, set });
        }
        let mut floor = 0;
        for _ in 0..goes {
            let line = lines.take(|line| ranges.go(line, floor))?;
            self.goes.push(Go { symbol: line[0] as u8, target: line[1] as u8 });
            floor = line[0] + 1;
        }
        let (last_item, last_go) = (self.items.len() as u32, self.goes.len() as u32);
        self.states.push(State { items: (first_item, last_item), goes: (first_go, last_go) });
        Ok(())
    }

    /// The items of a state.
    #[inline]
    pub fn items(&self, state: usize) -> &[Item] {
        let (from, to) = self.states[state].items;
        &self.items[from as usize..to as usize]
    }

    /// The go lines of a state.
    #[inline]
    pub fn goes(&self, state: usize) -> &[Go] {
        let (from, to) = self.states[state].goes;
        &self.goes[from as usize..to as usize]
    }

    /// The number of the accept rule.
    pub fn accept(&self) -> u8 {
        self.rules.len() as u8 - 1
    }

    /// The count of symbols, the end mark among them.
    pub fn symbols(&self) -> usize {
        self.terms as usize + self.nonterms as usize + 1
    }

    /// The place of a nonterminal among nonterminals; None for kinds and NONE.
    #[inline]
    pub fn nonterminal(&self, symbol: u8) -> Option<usize> {
        (symbol > self.terms && symbol != NONE).then(|| (symbol - self.terms - 1) as usize)
    }
}

/// A rule from its numbers.
fn rule(line: &[u16]) -> Rule {
    let mut right = [NONE; RIGHT];
    for (place, &symbol) in right.iter_mut().zip(&line[1..]) {
        *place = symbol as u8;
    }
    Rule { left: line[0] as u8, length: line.len() as u8 - 1, right }
}
