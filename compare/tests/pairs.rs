//! The pairs of forests: paths against trees, and the lines that the program `forest_runs` reads and has to print.
use compare::forest::{Forest, Trees};
use compare::pairs::{pairs, print, Pair};
use std::collections::BTreeSet;

/// Trees are as deep as paths are long.
const STACK: usize = 1 << 28;

/// The tree that a path is: its lowest node, and root after root above it.
fn tree(path: &[usize]) -> Trees {
    let Some((&last, above)) = path.split_last() else { return Trees::default() };
    above.iter().rev().fold(Trees::single(&BTreeSet::from([last])), |tree, &root| tree.raise(&|_| Some(root)))
}

/// The forest of some paths.
fn trees(paths: &[Vec<usize>]) -> Trees {
    let mut forest = Trees::default();
    paths.iter().for_each(|path| forest.join(tree(path)));
    forest
}

/// Adds the print of trees side by side.
fn print_trees(mut forest: Trees, words: &mut Vec<usize>) {
    for root in forest.roots() {
        words.push(root + 1);
        print_trees(forest.take(root).below(1).0, words);
    }
    words.push(0);
}

/// Says whether trees give the print that paths give.
fn agree(pair: &Pair) -> bool {
    let mut forest = trees(&pair.first);
    forest.join(trees(&pair.second));
    let mut words = Vec::new();
    print_trees(forest, &mut words);
    words == print(&pair.join())
}

#[test]
fn trees_print_as_paths_do() {
    let work = std::thread::Builder::new().stack_size(STACK).spawn(|| pairs().iter().all(agree));
    assert!(work.expect("a thread").join().expect("no panic"));
}

/// Whether some node below the roots is in both forests.
fn shares_below(pair: &Pair, depth: usize) -> bool {
    pair.first.iter().any(|a| pair.second.iter().any(|b| a.len() >= depth && b.len() >= depth && a[..depth] == b[..depth]))
}

#[test]
fn many_pairs_share_several_levels() {
    let pairs = pairs();
    let sharing = |depth: usize| pairs.iter().filter(|pair| shares_below(pair, depth)).count();
    assert!(sharing(1) >= 100, "{}", sharing(1));
    assert!(sharing(3) >= 30, "{}", sharing(3));
}

#[test]
fn the_program_has_these_lines() {
    let folder = concat!(env!("CARGO_MANIFEST_DIR"), "/../crates/forest_runs/");
    let file = |name: &str| std::fs::read_to_string(format!("{folder}{name}")).expect("a file");
    assert!(file("stdin") == pairs().iter().map(Pair::text).collect::<String>());
    assert!(file("stdout") == pairs().iter().map(Pair::expected).collect::<String>());
}
