//! The judge: dense tables of actions, then token by token.
use super::check::checked;
use super::forest::Forest;
use super::table::{Table, NONE};
use crate::answer::{too_many, Judgement, Refusal};
use crate::limits;

/// The actions of a table.
pub struct Actions {
    symbols: usize,
    /// By state and symbol: the go target, or NONE.
    goes: Vec<u8>,
    /// By kind and state: the rule to reduce by.
    rules: Vec<u8>,
    /// By kind: the states that reduce on it.
    reduce: Vec<u128>,
    /// By symbol: the states that go lines on it lead to.
    long: Vec<u128>,
}

impl Actions {
    pub fn of(table: &Table) -> Actions {
        let (symbols, m, kinds) = (table.symbols(), table.states.len(), table.terms as usize);
        let mut goes = vec![NONE; m * symbols];
        let mut rules = vec![NONE; m * kinds];
        let mut reduce = vec![0u128; kinds];
        let mut long = vec![0u128; symbols];
        let kind_set = (1u64 << kinds) - 1;
        for s in 0..m {
            for go in table.goes(s) {
                goes[s * symbols + go.symbol as usize] = go.target;
                long[go.symbol as usize] |= 1 << go.target;
            }
            for item in table.items(s).iter().filter(|i| i.after == NONE) {
                let mut set = item.set & kind_set;
                while set != 0 {
                    let t = set.trailing_zeros() as usize;
                    set &= set - 1;
                    rules[t * m + s] = item.rule;
                    reduce[t] |= 1 << s;
                }
            }
        }
        Actions { symbols, goes, rules, reduce, long }
    }

    /// The go target of a state on a symbol, or NONE.
    #[inline]
    pub fn go(&self, state: u8, symbol: u8) -> u8 {
        self.goes[state as usize * self.symbols + symbol as usize]
    }
}

/// The reduce phase on a token. Gives its steps.
fn reduce_phase(table: &Table, actions: &Actions, forest: &mut Forest, t: u8) -> u64 {
    let reduce = actions.reduce[t as usize];
    let rules = &actions.rules[t as usize * table.states.len()..];
    let mut made = 0u32;
    let mut steps = 0;
    loop {
        let roots = forest.roots & reduce;
        if roots == 0 {
            return steps;
        }
        let state = roots.trailing_zeros() as u8;
        let rule = &table.rules[rules[state as usize] as usize];
        let bit = 1u32 << (rule.left - table.terms - 1);
        if forest.reduce(actions, state, rule.length, rule.left) && made & bit == 0 {
            made |= bit;
            forest.add(actions.long[rule.left as usize]);
        }
        steps += 1;
    }
}

/// Judges a tail of kinds in a room of zeros that is long enough.
fn run(table: &Table, actions: &Actions, tail: &[u16], room: &mut [u32]) -> Judgement {
    let mut forest = Forest::new(room);
    let mut steps = 0;
    for (index, &t) in tail.iter().enumerate() {
        let t = t as u8;
        if index == 0 {
            forest.add(actions.long[t as usize]);
        } else {
            steps += reduce_phase(table, actions, &mut forest, t);
            forest.shift(actions, t);
        }
        if forest.roots == 0 {
            return Judgement { answer: 1, value: index as u64, steps };
        }
    }
    Judgement { answer: 0, value: tail.len() as u64, steps }
}

/// The refusals, then the judgement.
fn judged(numbers: &[u16], tail: &[u16], room: &mut [u32]) -> Result<Judgement, Refusal> {
    let table = checked(numbers)?;
    if tail.len() > limits::TAIL {
        return Err(too_many());
    }
    if let Some(index) = tail.iter().position(|&t| t >= table.terms as u16) {
        return Err(Refusal::Token { index });
    }
    let words = limits::words(table.states.len(), tail.len());
    let room = room.get_mut(..words).ok_or(Refusal::Room { words })?;
    let judgement = run(&table, &Actions::of(&table), tail, room);
    room.fill(0);
    Ok(judgement)
}

/// Judges a tail with a table as numbers and a room.
pub fn judge(numbers: &[u16], tail: &[u16], room: &mut [u32]) -> Judgement {
    judged(numbers, tail, room).unwrap_or_else(Judgement::from)
}
