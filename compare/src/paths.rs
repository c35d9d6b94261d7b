//! The second way to hold a forest: the set of its paths, each from a root down to a last node. Where one path is the front of
//! another, the shorter one stays: below its last node everything is open.
use crate::forest::Forest;
use std::collections::BTreeSet;

/// The paths of a forest. None is a proper front of another.
#[derive(Clone, Debug, Default, PartialEq, Eq)]
pub struct Paths(BTreeSet<Vec<usize>>);

impl Paths {
    /// The forest that some paths make, merged. A path without states is none.
    pub fn of(paths: &[Vec<usize>]) -> Paths {
        Paths::settled(paths.iter().filter(|path| !path.is_empty()).cloned().collect())
    }

    /// The paths in order.
    pub fn list(&self) -> impl Iterator<Item = &[usize]> {
        self.0.iter().map(Vec::as_slice)
    }

    /// Drops every path of which another one is a proper front.
    fn settled(paths: BTreeSet<Vec<usize>>) -> Paths {
        let open = |path: &Vec<usize>| (1..path.len()).any(|k| paths.contains(&path[..k]));
        Paths(paths.iter().filter(|path| !open(path)).cloned().collect())
    }
}

impl Forest for Paths {
    fn single(states: &BTreeSet<usize>) -> Paths {
        Paths(states.iter().map(|&s| vec![s]).collect())
    }

    fn roots(&self) -> Vec<usize> {
        let roots: BTreeSet<usize> = self.0.iter().map(|path| path[0]).collect();
        roots.into_iter().collect()
    }

    fn take(&mut self, root: usize) -> Paths {
        let (tree, others) = std::mem::take(&mut self.0).into_iter().partition(|path| path[0] == root);
        self.0 = others;
        Paths(tree)
    }

    fn below(self, depth: usize) -> (Paths, bool) {
        let short = self.0.iter().any(|path| path.len() <= depth);
        let kept = self.0.iter().filter_map(|path| path.get(depth..)).filter(|rest| !rest.is_empty());
        (Paths::settled(kept.map(<[usize]>::to_vec).collect()), short)
    }

    fn raise(self, above: &dyn Fn(usize) -> Option<usize>) -> Paths {
        let raised = |path: &Vec<usize>| above(path[0]).map(|new| [&[new], &path[..]].concat());
        Paths::settled(self.0.iter().filter_map(raised).collect())
    }

    fn join(&mut self, other: Paths) {
        let mut all = std::mem::take(&mut self.0);
        all.extend(other.0);
        *self = Paths::settled(all);
    }

    fn nodes(&self) -> usize {
        let fronts = self.0.iter().flat_map(|path| (1..=path.len()).map(move |k| &path[..k]));
        fronts.collect::<BTreeSet<_>>().len()
    }
}
