//! The forest in the room. A node has four words: its state, its first child, the next child of its parent, and one that is not used.
//! Children rise by state. Node 0 is none. Trees that go are given back whole and taken apart when nodes are needed.
use super::judge::Actions;
use super::table::NONE;

/// Words of a node.
const WORDS: usize = 4;
const STATE: usize = 0;
const CHILD: usize = 1;
const NEXT: usize = 2;
/// Places for every state.
const STATES: usize = 128;

pub struct Forest<'a> {
    room: &'a mut [u32],
    /// The first node that was never used.
    fresh: u32,
    /// Trees that were given back, linked by their next.
    spare: u32,
    /// The root of each state, where the set of roots has it. A shift phase goes from one of the two to the other.
    root: [[u32; STATES]; 2],
    /// Which of the two.
    side: usize,
    /// The states that are roots.
    pub roots: u128,
}

impl<'a> Forest<'a> {
    pub fn new(room: &'a mut [u32]) -> Forest<'a> {
        Forest { room, fresh: 1, spare: 0, root: [[0; STATES]; 2], side: 0, roots: 0 }
    }

    #[inline]
    fn get(&self, node: u32, word: usize) -> u32 {
        self.room[node as usize * WORDS + word]
    }

    #[inline]
    fn set(&mut self, node: u32, word: usize, value: u32) {
        self.room[node as usize * WORDS + word] = value;
    }

    /// A node of a state with one child or none.
    #[inline]
    fn node(&mut self, state: u8, child: u32) -> u32 {
        let node = match self.spare {
            0 => {
                self.fresh += 1;
                self.fresh - 1
            }
            node => {
                self.spare = self.get(node, NEXT);
                let child = self.get(node, CHILD);
                self.give_all(child);
                node
            }
        };
        self.set(node, STATE, state as u32);
        self.set(node, CHILD, child);
        self.set(node, NEXT, 0);
        node
    }

    /// Gives a tree back.
    #[inline]
    fn give(&mut self, node: u32) {
        let spare = self.spare;
        self.set(node, NEXT, spare);
        self.spare = node;
    }

    /// Gives trees back that are linked by their next.
    fn give_all(&mut self, first: u32) {
        let mut node = first;
        while node != 0 {
            let next = self.get(node, NEXT);
            self.give(node);
            node = next;
        }
    }

    /// Adds a tree of a state to the forest.
    #[inline]
    fn plant(&mut self, state: u8, tree: u32) {
        let bit = 1u128 << state;
        if self.roots & bit == 0 {
            self.roots |= bit;
            self.root[self.side][state as usize] = tree;
        } else {
            self.merge(self.root[self.side][state as usize], tree);
        }
    }

    /// Adds a one-node tree for each state of a set.
    pub fn add(&mut self, states: u128) {
        let mut left = states;
        while left != 0 {
            let state = left.trailing_zeros() as u8;
            left &= left - 1;
            let tree = self.node(state, 0);
            self.plant(state, tree);
        }
    }

    /// Merges the second node into the first, of equal state.
    fn merge(&mut self, one: u32, other: u32) {
        let (mut a, mut b) = (self.get(one, CHILD), self.get(other, CHILD));
        if a == 0 || b == 0 {
            self.give_all(a);
            self.set(one, CHILD, 0);
            self.give(other);
            return;
        }
        self.set(other, CHILD, 0);
        self.give(other);
        let (mut last, mut word) = (one, CHILD);
        while a != 0 && b != 0 {
            let (state_a, state_b) = (self.get(a, STATE), self.get(b, STATE));
            let taken = if state_b < state_a { b } else { a };
            if state_b <= state_a {
                let next = self.get(b, NEXT);
                if state_a == state_b {
                    self.merge(a, b);
                }
                b = next;
            }
            if state_a <= state_b {
                a = self.get(a, NEXT);
            }
            self.set(last, word, taken);
            (last, word) = (taken, NEXT);
        }
        self.set(last, word, if a != 0 { a } else { b });
    }

    /// Reduces the tree of a root by a rule of so many symbols to a left side. Says whether some path ends too soon.
    pub fn reduce(&mut self, actions: &Actions, state: u8, length: u8, left: u8) -> bool {
        self.roots &= !(1u128 << state);
        self.descend(actions, self.root[self.side][state as usize], length, left)
    }

    /// Goes down so many nodes, plants what is there under its go target, and gives the rest back.
    fn descend(&mut self, actions: &Actions, node: u32, depth: u8, left: u8) -> bool {
        let mut child = self.get(node, CHILD);
        let mut short = child == 0;
        self.set(node, CHILD, 0);
        self.give(node);
        while child != 0 {
            let next = self.get(child, NEXT);
            if depth == 1 {
                self.set(child, NEXT, 0);
                let target = actions.go(self.get(child, STATE) as u8, left);
                let tree = self.node(target, child);
                self.plant(target, tree);
            } else {
                short |= self.descend(actions, child, depth - 1, left);
            }
            child = next;
        }
        short
    }

    /// The shift phase on a token.
    pub fn shift(&mut self, actions: &Actions, t: u8) {
        let mut left = std::mem::take(&mut self.roots);
        let old = self.side;
        self.side = 1 - old;
        while left != 0 {
            let state = left.trailing_zeros() as u8;
            left &= left - 1;
            let tree = self.root[old][state as usize];
            match actions.go(state, t) {
                NONE => self.give(tree),
                target => {
                    let above = self.node(target, tree);
                    self.plant(target, above);
                }
            }
        }
    }
}
