//! A forest that is wrong on purpose: readings that are alike at the top share one past. There is one place for each state. Every
//! reading that ever had this state on top left its past there, and each of them is taken to stand on all of these pasts.
//!
//! The mistakes of `traps` add no reading: at worst they stop tails that are pieces. This one loses none and gives a reading a
//! past that was never its own, so it lets tails pass that are no pieces.
use crate::forest::Forest;
use std::collections::{BTreeMap, BTreeSet};

/// The tops, and what stands below each state: other states, or nothing that is known.
#[derive(Clone, Default)]
pub struct SharedPast {
    tops: BTreeSet<usize>,
    below: BTreeMap<usize, BTreeSet<Option<usize>>>,
    /// The tops that were taken in this phase, each with the count of all pasts at that time.
    taken: BTreeMap<usize, usize>,
}

impl Forest for SharedPast {
    const WRONG: bool = true;

    fn single(states: &BTreeSet<usize>) -> SharedPast {
        let below = states.iter().map(|&s| (s, BTreeSet::from([None]))).collect();
        SharedPast { tops: states.clone(), below, taken: BTreeMap::new() }
    }

    fn roots(&self) -> Vec<usize> {
        self.tops.iter().copied().collect()
    }

    fn take(&mut self, root: usize) -> SharedPast {
        let tops = self.tops.take(&root).into_iter().collect();
        self.taken.insert(root, self.nodes());
        SharedPast { tops, below: self.below.clone(), taken: BTreeMap::new() }
    }

    fn below(self, depth: usize) -> (SharedPast, bool) {
        let mut level: BTreeSet<Option<usize>> = self.tops.iter().map(|&top| Some(top)).collect();
        let mut short = false;
        for _ in 0..depth {
            level = level.iter().flatten().flat_map(|state| self.below[state].clone()).collect();
            short |= level.remove(&None);
        }
        (SharedPast { tops: level.into_iter().flatten().collect(), ..self }, short)
    }

    fn raise(mut self, above: &dyn Fn(usize) -> Option<usize>) -> SharedPast {
        self.taken.clear();
        for root in std::mem::take(&mut self.tops) {
            if let Some(new) = above(root) {
                self.tops.insert(new);
                self.below.entry(new).or_default().insert(Some(root));
            }
        }
        self
    }

    /// A top that was taken comes back only if some past is new since then, so that every phase ends.
    fn join(&mut self, other: SharedPast) {
        for (state, pasts) in other.below {
            self.below.entry(state).or_default().extend(pasts);
        }
        let pasts = self.nodes();
        self.tops.extend(other.tops.iter().filter(|top| self.taken.get(top) != Some(&pasts)));
    }

    fn nodes(&self) -> usize {
        self.below.values().map(BTreeSet::len).sum()
    }
}
