//! What comes back: answer, value and steps, and the refusals by name.
use crate::limits;
use std::fmt;

/// The three numbers of a judgement.
#[derive(Clone, Copy, Debug, PartialEq, Eq)]
pub struct Judgement {
    pub answer: u64,
    pub value: u64,
    pub steps: u64,
}

/// Why nothing was judged. One name for each row of document 01's table from 10 on.
#[derive(Clone, Copy, Debug, PartialEq, Eq)]
pub enum Refusal {
    /// 10: too many bytes or numbers.
    TooLarge,
    /// 11: a line is missing, extra, without its LF, or has a wrong key or number form.
    Form { line: usize },
    /// 12: a count of numbers or a range is wrong.
    Range { line: usize },
    /// 13: the reader's slice is too short.
    Slice { needed: usize },
    /// 20: not reduced.
    NotReduced { symbol: u16 },
    /// 21: a unit ring.
    Ring { symbol: u16 },
    /// 22: a condition is broken; which one, and at which state, is known but not told.
    Broken { condition: usize, state: usize },
    /// 30: too many tokens.
    Tokens { most: usize },
    /// 31: a token not below T.
    Token { index: usize },
    /// 32: too little room.
    Room { words: usize },
}

impl Refusal {
    /// Answer and value by document 01's table.
    pub fn numbers(self) -> (u64, u64) {
        match self {
            Refusal::TooLarge => (10, 0),
            Refusal::Form { line } => (11, line as u64),
            Refusal::Range { line } => (12, line as u64),
            Refusal::Slice { needed } => (13, needed as u64),
            Refusal::NotReduced { symbol } => (20, symbol as u64),
            Refusal::Ring { symbol } => (21, symbol as u64),
            Refusal::Broken { .. } => (22, 0),
            Refusal::Tokens { most } => (30, most as u64),
            Refusal::Token { index } => (31, index as u64),
            Refusal::Room { words } => (32, words as u64),
        }
    }
}

impl From<Refusal> for Judgement {
    fn from(refusal: Refusal) -> Judgement {
        let (answer, value) = refusal.numbers();
        Judgement { answer, value, steps: 0 }
    }
}

/// The three lines that a program prints.
impl fmt::Display for Judgement {
    fn fmt(&self, out: &mut fmt::Formatter) -> fmt::Result {
        writeln!(out, "answer={}", self.answer)?;
        writeln!(out, "value={}", self.value)?;
        writeln!(out, "steps={}", self.steps)
    }
}

/// Demand 3's bound on the steps: n tokens, m states, N nonterminals.
pub fn most_steps(n: usize, m: usize, nonterms: usize) -> u64 {
    (n * m * (2 + nonterms * (m + 1))) as u64
}

/// The bound on the steps where no right side is a single symbol.
pub fn most_steps_flat(n: usize, m: usize) -> u64 {
    (2 * m * n) as u64
}

/// Demand 3's bound on the nodes between two steps.
pub fn most_nodes(n: usize, m: usize) -> usize {
    m * (n + 1)
}

/// The refusal of a tail with too many tokens for the library.
pub fn too_many() -> Refusal {
    Refusal::Tokens { most: limits::TAIL }
}
