//! Small grammars: some by name, and random ones that are reduced and have no unit ring.
use crate::chance::Chance;
use crate::table::{Grammar, Rule};

/// A grammar from rules, each its left side and then its right side.
pub fn grammar(terms: u16, nonterms: u16, rules: &[&[u16]]) -> Grammar {
    let rule = |numbers: &&[u16]| Rule { left: numbers[0], right: numbers[1..].to_vec() };
    Grammar { terms, nonterms, rules: rules.iter().map(rule).collect() }
}

/// The box grammar of document 01.
pub fn boxes() -> Grammar {
    grammar(3, 3, &[&[4, 0, 5, 1], &[5, 5, 6], &[5, 6], &[6, 2], &[6, 4]])
}

/// Sums of products with brackets: 0 is plus, 1 is times, 2 opens, 3 closes, 4 is a name.
pub fn arithmetic() -> Grammar {
    let rules: [&[u16]; 6] = [&[6, 6, 0, 7], &[6, 7], &[7, 7, 1, 8], &[7, 8], &[8, 2, 6, 3], &[8, 4]];
    grammar(5, 3, &rules)
}

/// Two kinds of brackets around a thing, side by side or nested: 0 1 the first, 2 3 the second, 4 the thing.
pub fn brackets() -> Grammar {
    grammar(5, 2, &[&[6, 6, 7], &[6, 7], &[7, 0, 6, 1], &[7, 2, 6, 3], &[7, 4]])
}

/// A list of one kind: the fewest states with tails of any length.
pub fn list() -> Grammar {
    grammar(1, 1, &[&[2, 2, 0], &[2, 0]])
}

/// Rows of things in two kinds of brackets, one read from the left, the other from the right: 0 1 the first, 2 3 the second,
/// 4 a thing. A row without its bracket has many readings.
pub fn rows() -> Grammar {
    let rules: [&[u16]; 8] = [&[6, 0, 7, 1], &[6, 2, 8, 3], &[7, 7, 9], &[7, 9], &[8, 9, 8], &[8, 9], &[9, 4], &[9, 6]];
    grammar(5, 4, &rules)
}

/// Places and values: LALR(1) but not SLR. 0 is the assignment's sign, 1 points, 2 is a name.
pub fn assignment() -> Grammar {
    grammar(3, 3, &[&[4, 5, 0, 6], &[4, 6], &[5, 1, 6], &[5, 2], &[6, 5]])
}

/// What stands before decides: LR(1) but not LALR(1).
pub fn crossed() -> Grammar {
    let rules: [&[u16]; 6] = [&[6, 0, 7, 3], &[6, 1, 8, 3], &[6, 0, 8, 4], &[6, 1, 7, 4], &[7, 2], &[8, 2]];
    grammar(5, 3, &rules)
}

/// Pairs, whose second part may be a pair again: a long reduction meets a normal one to the same state.
pub fn pairs() -> Grammar {
    grammar(2, 2, &[&[3, 4, 4], &[4, 1], &[4, 0, 4, 3]])
}

/// A list of things with marks before them: which of two roots is reduced first changes the steps.
pub fn prefixed() -> Grammar {
    grammar(2, 2, &[&[3, 3, 4], &[3, 1], &[4, 0], &[4, 1, 4]])
}

/// Two things or more: two trees with one root have different lower parts.
pub fn twos() -> Grammar {
    grammar(1, 2, &[&[2, 3, 3], &[2, 2, 3], &[3, 0]])
}

/// Two kinds of nested things by turns, both opened by 0; only one of them is closed, by 1; 2 is a thing. Two readings of opened things, one
/// node apart, meet when the next 1 comes: merging then goes down to the lowest node.
pub fn turns() -> Grammar {
    grammar(3, 2, &[&[4, 0, 5], &[4, 2], &[5, 0, 4, 1], &[5, 2]])
}

/// The grammars by name, all of them LR(1).
pub fn named() -> Vec<(&'static str, Grammar)> {
    vec![
        ("boxes", boxes()),
        ("arithmetic", arithmetic()),
        ("brackets", brackets()),
        ("list", list()),
        ("rows", rows()),
        ("assignment", assignment()),
        ("crossed", crossed()),
        ("pairs", pairs()),
        ("prefixed", prefixed()),
        ("twos", twos()),
        ("turns", turns()),
    ]
}

/// The report of a host: 0 1 2 open the host, a chassis, a board, 3 4 5 close them, 6 says that a serial number follows, 7 is
/// one, 8 is the factory placeholder. A host holds chassis and boards, a chassis holds boards; each has its own number at its
/// end, and only a board's may be the placeholder.
pub fn hosts() -> Grammar {
    let host: [&[u16]; 5] = [&[10, 0, 11, 16, 7, 3], &[11, 11, 12], &[11, 12], &[12, 13], &[12, 15]];
    let chassis: [&[u16]; 3] = [&[13, 1, 14, 16, 7, 4], &[14, 14, 15], &[14, 15]];
    let board: [&[u16]; 4] = [&[15, 2, 16, 17, 5], &[16, 6], &[17, 7], &[17, 8]];
    grammar(9, 8, &[&host[..], &chassis[..], &board[..]].concat())
}

/// A list of lists of one kind, with more than one reading: no table of it is free of conflicts.
pub fn doubled() -> Grammar {
    grammar(1, 1, &[&[2, 2, 2], &[2, 0]])
}

/// Further grammars by name, for the folder of examples.
pub fn shown() -> Vec<(&'static str, Grammar)> {
    vec![("hosts", hosts()), ("doubled", doubled())]
}

/// 63 kinds, 32 nonterminals, 64 rules; its tables have 128 states. Each nonterminal leads to the next one or ends.
pub fn largest() -> Grammar {
    let (terms, last) = (63, 95);
    let mut rules: Vec<Vec<u16>> = Vec::new();
    for a in terms + 1..=last {
        let kind = (a - terms - 1) % 31;
        rules.push(if a < last { vec![a, 2 * kind, a + 1] } else { vec![a, 2 * kind, 62] });
        rules.push(if a < last - 1 { vec![a, 2 * kind + 1, 62] } else { vec![a, 2 * kind + 1] });
    }
    grammar(terms, last - terms, &rules.iter().map(Vec::as_slice).collect::<Vec<_>>())
}

/// A list of 58 kinds of things and of lists in brackets: its SLR sheet has nearly 60,000 bytes.
pub fn wide() -> Grammar {
    let things: Vec<Vec<u16>> = (0..58).map(|kind| vec![63, kind]).collect();
    let mut rules: Vec<&[u16]> = vec![&[62, 62, 63], &[62, 63], &[63, 58, 62, 59]];
    rules.extend(things.iter().map(Vec::as_slice));
    grammar(61, 2, &rules)
}

/// The thing of the sixfold grammar.
pub const SIXFOLD_THING: u16 = 12;

/// Lists of things in six kinds of brackets, each read from the right: a row of things outside its bracket has six readings, each
/// a stack as deep as the row is long.
pub fn sixfold() -> Grammar {
    let (start, thing) = (14, 15);
    let mut rules: Vec<Vec<u16>> = vec![vec![thing, SIXFOLD_THING], vec![thing, start]];
    for kind in 0..6 {
        let list = 16 + kind;
        rules.push(vec![start, 2 * kind, list, 2 * kind + 1]);
        rules.extend([vec![list, thing, list], vec![list, thing]]);
    }
    grammar(13, 8, &rules.iter().map(Vec::as_slice).collect::<Vec<_>>())
}

/// Large grammars by name.
pub fn large() -> Vec<(&'static str, Grammar)> {
    vec![("largest", largest()), ("wide", wide())]
}

/// How large random grammars are, and whether each right side begins with a kind that its left side's other rules do not begin
/// with. Such grammars are LR(1), and a tail has many readings if they share few kinds.
#[derive(Clone, Copy, Debug)]
pub struct Scale {
    pub terms: usize,
    pub nonterms: usize,
    pub rules_each: usize,
    pub right: usize,
    pub fronted: bool,
}

/// Small grammars.
pub const SMALL: Scale = Scale { terms: 5, nonterms: 4, rules_each: 3, right: 4, fronted: false };
/// Small grammars with many readings.
pub const DENSE: Scale = Scale { terms: 3, nonterms: 4, rules_each: 3, right: 6, fronted: true };
/// Larger ones.
pub const LARGER: Scale = Scale { terms: 12, nonterms: 9, rules_each: 3, right: 8, fronted: false };

/// A random grammar that is reduced and has no unit ring.
pub fn random(chance: &mut Chance, scale: Scale) -> Grammar {
    loop {
        let proposed = propose(chance, scale);
        if proposed.sound() {
            return proposed;
        }
    }
}

/// A grammar as it comes.
fn propose(chance: &mut Chance, scale: Scale) -> Grammar {
    let terms = chance.between(1, scale.terms) as u16;
    let nonterms = chance.between(1, scale.nonterms) as u16;
    let mut rules = Vec::new();
    for left in terms + 1..=terms + nonterms {
        let most = if scale.fronted { scale.rules_each.min(terms as usize) } else { scale.rules_each };
        let front = chance.below(terms as usize) as u16;
        for k in 0..chance.between(1, most) as u16 {
            let mut right = right_side(chance, terms, nonterms, scale.right);
            if scale.fronted {
                right[0] = (front + k) % terms;
            }
            rules.push(Rule { left, right });
        }
    }
    if chance.once_in(4) {
        let (a, b) = (chance.below(rules.len()), chance.below(rules.len()));
        rules.swap(a, b);
    }
    Grammar { terms, nonterms, rules }
}

/// A right side: mostly short, kinds and nonterminals in like numbers.
fn right_side(chance: &mut Chance, terms: u16, nonterms: u16, most: usize) -> Vec<u16> {
    let length = chance.between(1, most).min(chance.between(1, most));
    let mut symbol = || match chance.below(20) {
        0..=10 => chance.below(terms as usize) as u16,
        _ => terms + 1 + chance.below(nonterms as usize) as u16,
    };
    (0..length).map(|_| symbol()).collect()
}
