//! The ranges of the lines, for a reader and for a table as numbers.
use crate::limits;

/// What the lines so far say of those that follow.
pub struct Ranges {
    pub terms: u16,
    pub nonterms: u16,
    pub rules: u16,
    pub states: u16,
    /// The length of each rule's right side, the accept rule's too.
    pub lengths: [u8; RULES],
    /// How many rule lines were met.
    met: usize,
}

/// Places for every rule and the accept rule.
pub const RULES: usize = *limits::RULES.end() as usize + 1;

/// Whether a line has one number within a range.
fn one(line: &[u16], range: std::ops::RangeInclusive<u32>) -> bool {
    line.len() == 1 && range.contains(&(line[0] as u32))
}

impl Ranges {
    pub fn new() -> Ranges {
        Ranges { terms: 0, nonterms: 0, rules: 0, states: 0, lengths: [0; RULES], met: 0 }
    }

    /// A symbol that is not the end mark.
    #[inline]
    fn symbol(&self, x: u16) -> bool {
        x <= self.terms + self.nonterms && x != self.terms
    }

    pub fn terms(&mut self, line: &[u16]) -> bool {
        self.terms = *line.first().unwrap_or(&0);
        one(line, limits::TERMS)
    }

    pub fn nonterms(&mut self, line: &[u16]) -> bool {
        self.nonterms = *line.first().unwrap_or(&0);
        one(line, limits::NONTERMS)
    }

    pub fn rules(&mut self, line: &[u16]) -> bool {
        self.rules = *line.first().unwrap_or(&0);
        one(line, limits::RULES)
    }

    pub fn rule(&mut self, line: &[u16]) -> bool {
        let Some((&left, right)) = line.split_first() else { return false };
        let fits = limits::RIGHT.contains(&right.len())
            && left > self.terms
            && left <= self.terms + self.nonterms
            && right.iter().all(|&x| self.symbol(x));
        if fits {
            self.lengths[self.met] = right.len() as u8;
            self.met += 1;
            self.lengths[self.met] = 1;
        }
        fits
    }

    pub fn states(&mut self, line: &[u16]) -> bool {
        self.states = *line.first().unwrap_or(&0);
        one(line, limits::STATES)
    }

    #[inline]
    pub fn state(&self, line: &[u16]) -> bool {
        line.len() == 2 && limits::ITEMS.contains(&(line[0] as u32)) && limits::GOES.contains(&(line[1] as u32))
    }

    #[inline]
    pub fn item(&self, line: &[u16]) -> bool {
        let [rule, dot, set @ ..] = line else { return false };
        let Some(&last) = set.last() else { return false };
        *rule <= self.rules
            && *dot <= self.lengths[*rule as usize] as u16
            && last <= self.terms
            && set.windows(2).all(|pair| pair[0] < pair[1])
    }

    /// A go line; the one before it in the state had this symbol plus 1, or 0 if there was none.
    #[inline]
    pub fn go(&self, line: &[u16], floor: u16) -> bool {
        line.len() == 2 && self.symbol(line[0]) && line[0] >= floor && line[1] < self.states
    }
}

impl Default for Ranges {
    fn default() -> Ranges {
        Ranges::new()
    }
}
