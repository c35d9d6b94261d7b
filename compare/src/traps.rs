//! Forests with mistakes: those that document 01 warns of, and one more. They are wrong on purpose. A tail on which one of them
//! judges otherwise than the right forest shows more than other tails do.
use crate::answer::Judgement;
use crate::forest::{Forest, Trees};
use crate::judge::Machine;
use crate::shared_past::SharedPast;
use std::collections::{BTreeMap, BTreeSet};

/// Where one of two trees ends, the other's lower part is kept.
const KEEPS_LOWER: u8 = 0;
/// Of two lower parts one is kept.
const KEEPS_ONE: u8 = 1;
/// The highest root is taken first.
const HIGHEST: u8 = 2;
/// A path with exactly as many nodes as the right side has symbols is called normal.
const EXACT: u8 = 3;

/// Trees by value with a mistake.
#[derive(Default)]
struct Wrong<const MISTAKE: u8>(BTreeMap<usize, Wrong<MISTAKE>>);

impl<const MISTAKE: u8> Wrong<MISTAKE> {
    /// Merges what stands below two nodes of equal state.
    fn merge(mut self, other: Self) -> Self {
        let ends = self.0.is_empty() || other.0.is_empty();
        match MISTAKE {
            KEEPS_LOWER => self.join(other),
            _ if ends => self.0.clear(),
            KEEPS_ONE => (),
            _ => self.join(other),
        }
        self
    }

    /// Adds one tree.
    fn plant(&mut self, root: usize, tree: Self) {
        let merged = match self.0.remove(&root) {
            Some(old) => old.merge(tree),
            None => tree,
        };
        self.0.insert(root, merged);
    }
}

impl<const MISTAKE: u8> Forest for Wrong<MISTAKE> {
    fn single(states: &BTreeSet<usize>) -> Self {
        Wrong(states.iter().map(|&s| (s, Wrong::default())).collect())
    }

    fn roots(&self) -> Vec<usize> {
        let rising = self.0.keys().copied();
        if MISTAKE == HIGHEST {
            rising.rev().collect()
        } else {
            rising.collect()
        }
    }

    fn take(&mut self, root: usize) -> Self {
        Wrong(self.0.remove_entry(&root).into_iter().collect())
    }

    fn below(self, depth: usize) -> (Self, bool) {
        if depth == 0 {
            return (self, false);
        }
        let mut kept = Wrong::default();
        let mut short = false;
        for kids in self.0.into_values() {
            if kids.0.is_empty() {
                short |= MISTAKE != EXACT || depth > 1;
                continue;
            }
            let (trees, sooner) = kids.below(depth - 1);
            short |= sooner;
            kept.join(trees);
        }
        (kept, short)
    }

    fn raise(self, above: &dyn Fn(usize) -> Option<usize>) -> Self {
        let mut raised = Wrong::default();
        for (root, tree) in self.0 {
            if let Some(new) = above(root) {
                raised.plant(new, Wrong(BTreeMap::from([(root, tree)])));
            }
        }
        raised
    }

    fn join(&mut self, other: Self) {
        for (root, tree) in other.0 {
            self.plant(root, tree);
        }
    }

    fn nodes(&self) -> usize {
        self.0.values().map(|kids| 1 + kids.nodes()).sum()
    }
}

/// Judges a tail of kinds with a mistake.
pub type Mistaken = fn(&Machine, &[u16]) -> Judgement;

/// The mistakes by name.
const MISTAKES: [(&str, Mistaken); 4] = [
    ("keeps a lower part", |machine, tail| machine.run::<Wrong<KEEPS_LOWER>>(tail, &mut |_| ())),
    ("keeps one lower part of two", |machine, tail| machine.run::<Wrong<KEEPS_ONE>>(tail, &mut |_| ())),
    ("takes the highest root", |machine, tail| machine.run::<Wrong<HIGHEST>>(tail, &mut |_| ())),
    ("calls an exact path normal", |machine, tail| machine.run::<Wrong<EXACT>>(tail, &mut |_| ())),
];

/// The mistakes by short names, with one more that is not looked for in tails by chance.
pub fn by_name(name: &str) -> Option<Mistaken> {
    match name {
        "keeps-lower" => Some(MISTAKES[0].1),
        "keeps-one" => Some(MISTAKES[1].1),
        "highest" => Some(MISTAKES[2].1),
        "exact" => Some(MISTAKES[3].1),
        "shared-past" => Some(|machine, tail| machine.run::<SharedPast>(tail, &mut |_| ())),
        _ => None,
    }
}

/// The names of the mistakes that show on a tail of kinds: the judgement is not the right one.
pub fn shown(machine: &Machine, tail: &[u16]) -> Vec<&'static str> {
    let right = machine.run::<Trees>(tail, &mut |_| ());
    let wrong = MISTAKES.iter().filter(|(_, judged)| judged(machine, tail) != right);
    wrong.map(|(name, _)| *name).collect()
}
