//! Pairs of forests, each given by paths, and the print of their join. The join is made of paths alone: all paths of both, less those of which
//! another one is a proper front.
use crate::chance::Chance;
use crate::forest::Forest;
use crate::limits;
use crate::paths::Paths;

/// How many places are lent for the print.
#[derive(Clone, Copy, Debug, PartialEq, Eq)]
pub enum Lent {
    OneLess,
    Just,
    More,
}

/// Two forests. A path is its states from the root down; a path without states says nothing.
#[derive(Clone, Debug)]
pub struct Pair {
    pub lent: Lent,
    pub first: Vec<Vec<usize>>,
    pub second: Vec<Vec<usize>>,
}

/// The highest state that an entry of 16 bits can say.
const HIGHEST: usize = 65_534;

/// The places that are lent beyond those asked for.
const MORE: usize = 3;

/// The pairs by chance.
const RANDOM: usize = 200;

/// The letter of a state.
fn letter(state: usize) -> char {
    match u8::try_from(state) {
        Ok(low) => (b'a' + low) as char,
        Err(_) => 'Z',
    }
}

/// The paths as letters, with a space between two.
fn letters(paths: &[Vec<usize>]) -> String {
    let words: Vec<String> = paths.iter().map(|path| path.iter().map(|&state| letter(state)).collect()).collect();
    words.join(" ")
}

/// The paths that some letters say.
fn of_letters(text: &str) -> Vec<Vec<usize>> {
    let state = |c: char| if c == 'Z' { HIGHEST } else { c as usize - 'a' as usize };
    text.split(' ').map(|word| word.chars().map(state).collect()).collect()
}

/// The print of a forest: for each root its state and 1, then the print of its children; after the last tree a 0. The paths stand in order, so
/// from one to the next some lists of trees end, and the nodes follow that the two do not share.
pub fn print(forest: &Paths) -> Vec<usize> {
    let mut words = Vec::new();
    let mut last: &[usize] = &[];
    for path in forest.list() {
        let shared = path.iter().zip(last).take_while(|(a, b)| a == b).count();
        words.resize(words.len() + last.len() - shared, 0);
        words.extend(path[shared..].iter().map(|state| state + 1));
        last = path;
    }
    words.resize(words.len() + last.len() + 1, 0);
    words
}

impl Pair {
    /// A pair of letters with a bar between the two.
    fn of(lent: Lent, text: &str) -> Pair {
        let (first, second) = text.split_once('|').expect("a bar");
        Pair { lent, first: of_letters(first), second: of_letters(second) }
    }

    /// A pair by chance: few states, and paths that often begin like an earlier one of either forest.
    fn random(chance: &mut Chance) -> Pair {
        let low = chance.below(22);
        let mut states: Vec<usize> = (low..low + chance.between(1, 4)).collect();
        if chance.once_in(8) {
            states.push(HIGHEST);
        }
        let depth = chance.between(1, 7);
        let mut known: Vec<Vec<usize>> = vec![Vec::new()];
        let mut forest = |chance: &mut Chance| -> Vec<Vec<usize>> {
            let count = chance.between(0, 9);
            let paths = (0..count).map(|_| {
                let like = chance.pick(&known).clone();
                let mut path = like[..chance.between(0, like.len())].to_vec();
                let length = if chance.once_in(6) { chance.between(path.len(), depth) } else { depth };
                path.resize_with(length, || *chance.pick(&states));
                known.push(path.clone());
                path
            });
            paths.collect()
        };
        let (first, second) = (forest(chance), forest(chance));
        let lent = if chance.once_in(12) { Lent::OneLess } else { *chance.pick(&[Lent::Just, Lent::More]) };
        Pair { lent, first, second }
    }

    /// The counts of entries: the letters and the spaces.
    fn entries(&self) -> [usize; 2] {
        [&self.first, &self.second].map(|paths| letters(paths).len())
    }

    /// The two forests' join, by paths.
    pub fn join(&self) -> Paths {
        let mut forest = Paths::of(&self.first);
        forest.join(Paths::of(&self.second));
        forest
    }

    /// The line of the pair.
    pub fn text(&self) -> String {
        let sign = match self.lent {
            Lent::OneLess => '-',
            Lent::Just => '=',
            Lent::More => '+',
        };
        format!("{sign}{}|{}\n", letters(&self.first), letters(&self.second))
    }

    /// The line that is to be printed: whether the two are joined, the print, and how many places after it stay.
    pub fn expected(&self) -> String {
        let entries = self.entries();
        let asked = 2 * (entries[0] + entries[1]) + 1;
        let places = match self.lent {
            Lent::OneLess => asked - 1,
            Lent::Just => asked,
            Lent::More => asked + MORE,
        };
        if places < asked || entries.iter().any(|&count| count > limits::TAIL) {
            return format!("refused  {places}\n");
        }
        let words = print(&self.join());
        let shown: String = words.iter().map(|&word| word.checked_sub(1).map_or('.', letter)).collect();
        format!("joined {shown} {}\n", places - words.len())
    }
}

/// Pairs that are stated: empty forests, a node without children against one with some, and the lists' ends.
const STATED: &str = "\
|,a|,|a,a|a,ab|a,a|ab,ab ac|a,a|ab ac,abc|ab,ab|abc,abc abd|abe ab,a c e|b d f,b d f|a c e,a b c|a b c,b|a c,a c|b,\
abx aby|abz acx,abc acd b|abd ace c, a|b ,  |  ,Za Zb|Zb Z,aZ ab|ab aZ c";

/// Two chains of equal states but for the lowest nodes, which are these; of so many nodes each.
fn chains(first: (usize, &str), second: (usize, &str)) -> Pair {
    let chain = |(count, last): (usize, &str)| "a".repeat(count - last.len()) + last;
    Pair::of(Lent::Just, &format!("{}|{}", chain(first), chain(second)))
}

/// All pairs: those stated, the deepest, those with an entry too many, then those by chance.
pub fn pairs() -> Vec<Pair> {
    let most = limits::TAIL;
    let deep = [
        chains((most, "b"), (most, "c")),
        chains((most, "b"), (most, "b")),
        chains((most, ""), (most - 1, "")),
        chains((most - 2, ""), (most, "c")),
        chains((most + 1, ""), (1, "")),
        chains((1, ""), (most + 1, "")),
    ];
    let lents = [Lent::Just, Lent::OneLess, Lent::More];
    let stated = STATED.split(',').flat_map(|text| lents.map(|lent| Pair::of(lent, text)));
    let random = (0..RANDOM).map(|k| Pair::random(&mut Chance::of_case(1, k as u64)));
    stated.chain(deep).chain(random).collect()
}
