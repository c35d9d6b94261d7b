//! Sentences and tails by chance.
use crate::chance::Chance;
use crate::table::Grammar;
use std::collections::BTreeMap;

/// For each nonterminal of a reduced grammar its shortest string's length and the rule to begin it with.
fn shortest(grammar: &Grammar) -> BTreeMap<u16, (usize, usize)> {
    let mut best: BTreeMap<u16, (usize, usize)> = BTreeMap::new();
    loop {
        let before = best.clone();
        for (k, rule) in grammar.rules.iter().enumerate() {
            let length = |x: &u16| if grammar.is_kind(*x) { Some(1) } else { best.get(x).map(|b| b.0) };
            let Some(sum) = rule.right.iter().map(length).sum::<Option<usize>>() else { continue };
            if best.get(&rule.left).is_none_or(|b| sum < b.0) {
                best.insert(rule.left, (sum, k));
            }
        }
        if best == before {
            return best;
        }
    }
}

/// A sentence of a reduced grammar without unit rings. It grows freely up to about a length and is then ended shortly.
pub fn sentence(grammar: &Grammar, chance: &mut Chance, about: usize) -> Vec<u16> {
    let shortest = shortest(grammar);
    let mut waiting = vec![grammar.start()];
    let mut tokens = Vec::new();
    let mut choices = 0;
    while let Some(symbol) = waiting.pop() {
        if grammar.is_kind(symbol) {
            tokens.push(symbol);
            continue;
        }
        let rules: Vec<usize> = grammar.rules_of(symbol).collect();
        let free = tokens.len() + waiting.len() < about && choices < 4 * about;
        let rule = if free { *chance.pick(&rules) } else { shortest[&symbol].1 };
        choices += 1;
        waiting.extend(grammar.rules[rule].right.iter().rev());
    }
    tokens
}

/// A part of a sentence, of at most this many tokens.
pub fn part(grammar: &Grammar, chance: &mut Chance, most: usize) -> Vec<u16> {
    let whole = sentence(grammar, chance, 2 * most);
    let from = chance.below(whole.len() + 1);
    let to = chance.between(from, whole.len().min(from + most));
    whole[from..to].to_vec()
}

/// A tail of at most this many tokens: a part of a sentence, the same with a change, or any tokens.
pub fn tail(grammar: &Grammar, chance: &mut Chance, most: usize) -> Vec<u16> {
    let kinds = grammar.terms as usize;
    match chance.below(6) {
        0 => (0..chance.below(most + 1)).map(|_| chance.below(kinds) as u16).collect(),
        1 | 2 => {
            let mut tail = part(grammar, chance, most);
            spoil(&mut tail, kinds, chance);
            tail.truncate(most);
            tail
        }
        _ => part(grammar, chance, most),
    }
}

/// Changes one token, drops one, puts one in, or turns two about.
fn spoil(tail: &mut Vec<u16>, kinds: usize, chance: &mut Chance) {
    let token = chance.below(kinds) as u16;
    let at = chance.below(tail.len() + 1);
    match chance.below(4) {
        0 if at < tail.len() => tail[at] = token,
        1 if at < tail.len() => drop(tail.remove(at)),
        2 if at + 1 < tail.len() => tail.swap(at, at + 1),
        _ => tail.insert(at, token),
    }
}

/// Tokens of a tail line as text of so many bytes, at least one.
pub fn filling(bytes: usize) -> String {
    let first = if bytes.is_multiple_of(2) { "10" } else { "0" };
    format!("{first}{}", " 0".repeat((bytes - first.len()) / 2))
}
