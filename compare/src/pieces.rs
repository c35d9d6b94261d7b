//! Whether a tail is a piece, from the rules of a reduced grammar alone: which symbols derive each stretch of the tail, which derive
//! a string that begins or ends with a stretch, and which contain one. No table is used.
use crate::table::Grammar;
use std::collections::BTreeSet;

/// A set of symbols.
type Symbols = BTreeSet<u16>;

/// A tail with what is known of its stretches.
pub struct Stretches<'a> {
    grammar: &'a Grammar,
    tail: &'a [u16],
    /// `exact[i][j]`: the symbols that derive the tokens from i up to j, j left out.
    exact: Vec<Vec<Symbols>>,
    /// `ending[j]`: the symbols that derive a string that ends with the tokens up to j.
    ending: Vec<Symbols>,
}

/// The least set of symbols that has these tokens and each left side whose right side passes the test under the set.
fn least(grammar: &Grammar, tokens: Symbols, test: impl Fn(&[u16], &Symbols) -> bool) -> Symbols {
    let mut set = tokens;
    loop {
        let passing = grammar.rules.iter().filter(|rule| test(&rule.right, &set));
        let more: Symbols = passing.map(|rule| rule.left).filter(|left| !set.contains(left)).collect();
        if more.is_empty() {
            return set;
        }
        set.extend(more);
    }
}

impl<'a> Stretches<'a> {
    /// Works out the stretches of a tail.
    pub fn of(grammar: &'a Grammar, tail: &'a [u16]) -> Stretches<'a> {
        let n = tail.len();
        let mut known = Stretches { grammar, tail, exact: vec![vec![Symbols::new(); n + 1]; n + 1], ending: vec![] };
        for length in 1..=n {
            for i in 0..=n - length {
                known.exact[i][i + length] = known.derive(i, i + length);
            }
        }
        for j in 0..=n {
            let ending = known.end(j);
            known.ending.push(ending);
        }
        known
    }

    /// The token of a stretch of one, as a set.
    fn token(&self, i: usize, j: usize) -> Symbols {
        if i + 1 == j {
            Symbols::from([self.tail[i]])
        } else {
            Symbols::new()
        }
    }

    /// Whether a symbol derives a stretch, where the set at hand answers for the stretch under work.
    fn derives(&self, symbol: u16, (i, j): (usize, usize), work: ((usize, usize), &Symbols)) -> bool {
        if (i, j) == work.0 {
            work.1.contains(&symbol)
        } else {
            self.exact[i][j].contains(&symbol)
        }
    }

    /// The places that symbols reach from a place, not beyond a last one, when each derives a stretch of its own.
    fn reach(&self, from: usize, last: usize, symbols: &[u16], work: ((usize, usize), &Symbols)) -> BTreeSet<usize> {
        symbols.iter().fold(BTreeSet::from([from]), |places, &symbol| {
            let ahead = |i: usize| (i + 1..=last).map(move |j| (i, j));
            let stretches = places.into_iter().flat_map(ahead);
            stretches.filter(|&at| self.derives(symbol, at, work)).map(|(_, j)| j).collect()
        })
    }

    /// The same once all stretches are worked out.
    fn reached(&self, from: usize, last: usize, symbols: &[u16]) -> BTreeSet<usize> {
        self.reach(from, last, symbols, ((0, 0), &Symbols::new()))
    }

    /// The symbols that derive the stretch from i to j; shorter stretches are known.
    fn derive(&self, i: usize, j: usize) -> Symbols {
        let whole = |right: &[u16], set: &Symbols| self.reach(i, j, right, ((i, j), set)).contains(&j);
        least(self.grammar, self.token(i, j), whole)
    }

    /// The symbols that derive a string that ends with the tokens up to j; lower places are known. Some symbol of the right side
    /// ends with the tokens up to a place, and those after it derive the rest.
    fn end(&self, j: usize) -> Symbols {
        let fits = |right: &[u16], set: &Symbols, k: usize, place: usize| {
            let known = if place == j { set } else { &self.ending[place] };
            known.contains(&right[k]) && self.reached(place, j, &right[k + 1..]).contains(&j)
        };
        let ends = |right: &[u16], set: &Symbols| (0..right.len()).any(|k| (1..=j).any(|place| fits(right, set, k, place)));
        if j == 0 {
            Symbols::new()
        } else {
            least(self.grammar, self.token(0, j), ends)
        }
    }

    /// For each place i below a last one: the symbols that derive a string that begins with the tokens from i to the last. Some
    /// symbols of the right side derive the tokens up to a place, and the next one begins with the rest.
    fn begin(&self, last: usize) -> Vec<Symbols> {
        let mut begin = vec![Symbols::new(); last];
        for i in (0..last).rev() {
            let known = |place: usize, symbol: &u16, set: &Symbols| {
                place < last && (if place == i { set } else { &begin[place] }).contains(symbol)
            };
            let begins = |right: &[u16], set: &Symbols| {
                let parts = (0..right.len()).map(|k| (self.reached(i, last, &right[..k]), &right[k]));
                parts.into_iter().any(|(places, next)| places.into_iter().any(|place| known(place, next, set)))
            };
            begin[i] = least(self.grammar, self.token(i, last), begins);
        }
        begin
    }

    /// The symbols that derive a string that contains the tokens up to a last place.
    fn contain(&self, last: usize) -> Symbols {
        let begin = self.begin(last);
        let across = |right: &[u16], k: usize, l: usize| {
            let ends = (1..last).filter(|&j| self.ending[j].contains(&right[k]));
            let places: BTreeSet<usize> = ends.flat_map(|j| self.reached(j, last, &right[k + 1..l])).collect();
            places.into_iter().any(|place| place < last && begin[place].contains(&right[l]))
        };
        let contains = |right: &[u16], set: &Symbols| {
            let inside = right.iter().any(|x| set.contains(x));
            inside || (0..right.len()).any(|k| (k + 1..right.len()).any(|l| across(right, k, l)))
        };
        least(self.grammar, self.token(0, last), contains)
    }

    /// Whether the front of this many tokens is a piece.
    pub fn front(&self, tokens: usize) -> bool {
        tokens == 0 || self.contain(tokens).contains(&self.grammar.start())
    }
}

/// Whether a tail is a piece.
pub fn piece(grammar: &Grammar, tail: &[u16]) -> bool {
    Stretches::of(grammar, tail).front(tail.len())
}

/// The index of the first token whose arrival makes the front no piece. None: the tail is a piece.
pub fn stop(grammar: &Grammar, tail: &[u16]) -> Option<usize> {
    let stretches = Stretches::of(grammar, tail);
    (0..tail.len()).find(|&index| !stretches.front(index + 1))
}

/// The tokens that can begin a symbol, by the stretches.
pub fn beginners(grammar: &Grammar, symbol: u16) -> BTreeSet<u16> {
    (0..grammar.terms).filter(|&t| Stretches::of(grammar, &[t]).begin(1)[0].contains(&symbol)).collect()
}
