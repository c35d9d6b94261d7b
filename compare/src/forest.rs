//! What a forest has to be able to do, and the first way to hold one: trees by value.
use std::collections::{BTreeMap, BTreeSet};

/// A forest of stacks. Trees with equal root states are always merged.
pub trait Forest: Sized {
    /// Whether it may hold paths that no go lines make: only a forest that is wrong on purpose does.
    const WRONG: bool = false;
    /// One-node trees.
    fn single(states: &BTreeSet<usize>) -> Self;
    /// The root states.
    fn roots(&self) -> Vec<usize>;
    /// Takes out the tree with this root.
    fn take(&mut self, root: usize) -> Self;
    /// The subtrees at node depth + 1 of the paths down, and whether some path ends sooner.
    fn below(self, depth: usize) -> (Self, bool);
    /// Gives each tree a new root that depends on the old one; a tree for which there is none goes.
    fn raise(self, above: &dyn Fn(usize) -> Option<usize>) -> Self;
    /// Adds the trees of another forest, merging.
    fn join(&mut self, other: Self);
    /// The count of nodes.
    fn nodes(&self) -> usize;
}

/// Trees by value: the root states, each with the trees below it. A tree with nothing below it is one node.
#[derive(Clone, Debug, Default, PartialEq, Eq)]
pub struct Trees(BTreeMap<usize, Trees>);

impl Trees {
    /// Merges what stands below two nodes of equal state: nothing if nothing stands below one of them.
    fn merge(mut self, other: Trees) -> Trees {
        if self.0.is_empty() || other.0.is_empty() {
            return Trees::default();
        }
        self.join(other);
        self
    }

    /// Adds one tree.
    fn plant(&mut self, root: usize, tree: Trees) {
        let merged = match self.0.remove(&root) {
            Some(old) => old.merge(tree),
            None => tree,
        };
        self.0.insert(root, merged);
    }
}

impl Forest for Trees {
    fn single(states: &BTreeSet<usize>) -> Trees {
        Trees(states.iter().map(|&s| (s, Trees::default())).collect())
    }

    fn roots(&self) -> Vec<usize> {
        self.0.keys().copied().collect()
    }

    fn take(&mut self, root: usize) -> Trees {
        Trees(self.0.remove_entry(&root).into_iter().collect())
    }

    fn below(self, depth: usize) -> (Trees, bool) {
        if depth == 0 {
            return (self, false);
        }
        let mut kept = Trees::default();
        let mut short = false;
        for (_, kids) in self.0 {
            if kids.0.is_empty() {
                short = true;
                continue;
            }
            let (trees, sooner) = kids.below(depth - 1);
            short |= sooner;
            kept.join(trees);
        }
        (kept, short)
    }

    fn raise(self, above: &dyn Fn(usize) -> Option<usize>) -> Trees {
        let mut raised = Trees::default();
        for (root, tree) in self.0 {
            if let Some(new) = above(root) {
                raised.plant(new, Trees(BTreeMap::from([(root, tree)])));
            }
        }
        raised
    }

    fn join(&mut self, other: Trees) {
        for (root, tree) in other.0 {
            self.plant(root, tree);
        }
    }

    fn nodes(&self) -> usize {
        self.0.values().map(|kids| 1 + kids.nodes()).sum()
    }
}
