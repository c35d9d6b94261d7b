//! The walk through the lines of a table, in document 01's order, with the ranges. Where the lines come from is left to a source:
//! the bytes of a sheet or a table as numbers.
use crate::answer::Refusal;
use crate::limits;
use crate::table::{counted, Grammar, Item, Rule, State, Table};
use std::ops::RangeInclusive;

/// Gives lines one after another.
pub trait Source {
    /// The numbers of the next line, whose key has to be this one. None: there is no such line.
    fn line(&mut self, key: &str) -> Option<Vec<u32>>;
    /// Whether nothing is left.
    fn empty(&self) -> bool;
    /// The refusal for a line that is not there or is too many.
    fn fault(&self, line: usize) -> Refusal;
}

/// What a walk gives: the table, its numbers as they came, and the count of lines.
pub struct Walked {
    pub table: Table,
    pub numbers: Vec<u16>,
    pub lines: usize,
}

/// A walk under way.
struct Walk<'a> {
    source: &'a mut dyn Source,
    line: usize,
    numbers: Vec<u16>,
}

impl Walk<'_> {
    /// Takes the next line and turns its numbers into something, which fails if count or range is wrong.
    fn take<X>(&mut self, key: &str, fit: impl Fn(&[u32]) -> Option<X>) -> Result<X, Refusal> {
        let line = self.line;
        let numbers = self.source.line(key).ok_or_else(|| self.source.fault(line))?;
        let fitted = fit(&numbers).ok_or(Refusal::Range { line })?;
        self.numbers.extend(counted(&numbers));
        self.line += 1;
        Ok(fitted)
    }

    /// Takes a line of one number within a range.
    fn one(&mut self, key: &str, range: RangeInclusive<u32>) -> Result<u32, Refusal> {
        self.take(key, |numbers| match numbers {
            [number] if range.contains(number) => Some(*number),
            _ => None,
        })
    }

    /// Takes the lines through the last rule.
    fn grammar(&mut self) -> Result<Grammar, Refusal> {
        let terms = self.one("terms", limits::TERMS)? as u16;
        let nonterms = self.one("nonterms", limits::NONTERMS)? as u16;
        let count = self.one("rules", limits::RULES)?;
        let mut grammar = Grammar { terms, nonterms, rules: Vec::new() };
        for _ in 0..count {
            let rule = self.take("rule", |numbers| rule(&grammar, numbers))?;
            grammar.rules.push(rule);
        }
        Ok(grammar)
    }

    /// Takes the lines of one state.
    fn state(&mut self, grammar: &Grammar, m: u32) -> Result<State, Refusal> {
        let (items, goes) = self.take("state", |numbers| match numbers {
            [k, g] if limits::ITEMS.contains(k) && limits::GOES.contains(g) => Some((*k, *g)),
            _ => None,
        })?;
        let mut state = State { items: Vec::new(), goes: Vec::new() };
        for _ in 0..items {
            let item = self.take("item", |numbers| item(grammar, numbers))?;
            state.items.push(item);
        }
        for _ in 0..goes {
            let last = state.goes.last().map(|&(symbol, _)| symbol);
            let go = self.take("go", |numbers| go(grammar, m, last, numbers))?;
            state.goes.push(go);
        }
        Ok(state)
    }
}

/// Walks through all lines of a source.
pub fn walk(source: &mut dyn Source) -> Result<Walked, Refusal> {
    let mut walk = Walk { source, line: 0, numbers: Vec::new() };
    let grammar = walk.grammar()?;
    let m = walk.one("states", limits::STATES)?;
    let mut states = Vec::new();
    for _ in 0..m {
        states.push(walk.state(&grammar, m)?);
    }
    if !walk.source.empty() {
        return Err(walk.source.fault(walk.line));
    }
    Ok(Walked { table: Table { grammar, states }, numbers: walk.numbers, lines: walk.line })
}

/// A rule from its numbers: a nonterminal, then 1 to 8 symbols without the end mark.
fn rule(grammar: &Grammar, numbers: &[u32]) -> Option<Rule> {
    let (&left, right) = numbers.split_first()?;
    let left = small(left).filter(|&x| grammar.is_nonterminal(x))?;
    let right: Vec<u16> = right.iter().map(|&x| symbol(grammar, x)).collect::<Option<_>>()?;
    limits::RIGHT.contains(&right.len()).then_some(Rule { left, right })
}

/// An item from its numbers: a rule, a place of the dot, and at least one look-ahead, strictly rising.
fn item(grammar: &Grammar, numbers: &[u32]) -> Option<Item> {
    let [rule, dot, set @ ..] = numbers else { return None };
    let (rule, dot) = (*rule as usize, *dot as usize);
    let known = rule <= grammar.accept() && dot <= grammar.right(rule).len();
    let rising = set.windows(2).all(|pair| pair[0] < pair[1]);
    let within = set.iter().all(|&t| t <= grammar.end() as u32);
    let set = set.iter().map(|&t| t as u16).collect();
    (known && rising && within && numbers.len() > 2).then_some(Item { rule, dot, set })
}

/// A go line from its numbers: a symbol that is not the end mark, above the last one's, and a state.
fn go(grammar: &Grammar, m: u32, last: Option<u16>, numbers: &[u32]) -> Option<(u16, usize)> {
    let &[x, s] = numbers else { return None };
    let x = symbol(grammar, x)?;
    (last.is_none_or(|l| l < x) && s < m).then_some((x, s as usize))
}

/// A symbol that is not the end mark.
fn symbol(grammar: &Grammar, number: u32) -> Option<u16> {
    small(number).filter(|&x| grammar.is_kind(x) || grammar.is_nonterminal(x))
}

/// A number of 16 bits.
fn small(number: u32) -> Option<u16> {
    u16::try_from(number).ok()
}
