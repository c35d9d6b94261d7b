//! Tables that break one of the seven conditions, alone where that can be.
use super::Vector;
use crate::edit::edit;
use crate::grammars::{arithmetic, assignment, crossed, grammar};
use crate::make::{make, Sort};
use crate::marked::{p10, p11, p12, BOX, TINY};
use crate::table::Grammar;

/// A box sheet with changes.
fn boxed(name: &str, changes: &[(usize, &str, &str)], broken: &[usize]) -> Vector {
    Vector::breaks(name, &edit(BOX, changes), broken)
}

/// A smallest sheet with changes.
fn tiny(name: &str, changes: &[(usize, &str, &str)], broken: &[usize]) -> Vector {
    Vector::breaks(name, &edit(TINY, changes), broken)
}

/// A made table with a conflict.
fn conflict(name: &str, grammar: &Grammar, sort: Sort) -> Vector {
    let table = make(grammar, sort).expect("within the ranges");
    Vector { broken: vec![7], ..Vector::made(name, &table, 22, 0) }
}

/// A made table with one look-ahead more at an item of a state.
fn gained(name: &str, grammar: &Grammar, (state, rule, dot): (usize, usize, usize), t: u16) -> Vector {
    let mut table = make(grammar, Sort::Lalr).expect("within the ranges");
    let items = &mut table.states[state].items;
    items.iter_mut().find(|i| (i.rule, i.dot) == (rule, dot)).expect("an item").set.insert(t);
    Vector { broken: vec![7], ..Vector::made(name, &table, 22, 0) }
}

fn marked() -> Vec<Vector> {
    vec![Vector::breaks("P10", &p10(), &[5, 6]), Vector::breaks("P11", &p11(), &[5]), Vector::breaks("P12", &p12(), &[1])]
}

fn one() -> Vec<Vector> {
    let accept = |name, set0: &str, set2: &str| {
        let (first, last) = (format!("item=5 0{set0}"), format!("item=5 1{set2}"));
        boxed(name, &[(10, "item=5 0 3", &first), (27, "item=5 1 3", &last)], &[1])
    };
    let kernel_less = "item=1 2 0 1 2 / state=1 1 / item=0 0 0 1 2 3 / go=0 1";
    vec![
        accept("1: the accept rule with a kind more in both states", " 0 3", " 0 3"),
        accept("1: the accept rule with another kind in both states", " 0", " 0"),
        accept("1: the accept rule with all kinds in its last state", " 3", " 0 1 2 3"),
        boxed(
            "1: an item with its dot above 0 in state 0",
            &[(9, "state=2 2", "state=3 2"), (11, "item=0 0 0 1 2 3", "item=0 0 0 1 2 3 / item=3 1 1 2")],
            &[1],
        ),
        boxed(
            "1: state 0's first item is not the accept rule",
            &[(10, "item=5 0 3", "item=0 0 0 1 2 3"), (11, "item=0 0 0 1 2 3", "item=5 0 3")],
            &[1, 3],
        ),
        tiny("1: state 0 begins with the accept rule's dot at 1", &[(6, "item=1 0 1", "item=1 1 1")], &[1, 3, 5]),
        boxed("1: a state with no dot above 0", &[(8, "states=9", "states=10"), (48, "item=1 2 0 1 2", kernel_less)], &[1, 3, 6]),
        tiny("1: the accept rule with kind 0 alone at last", &[(13, "item=1 1 1", "item=1 1 0")], &[1, 5]),
    ]
}

fn two() -> Vec<Vector> {
    vec![
        boxed(
            "2: an item with dot 0 twice",
            &[(14, "state=6 5", "state=7 5"), (16, "item=1 0 0 1 2", "item=1 0 0 1 2 / item=1 0 0 1 2")],
            &[2],
        ),
        boxed(
            "2: an item with dot 0 twice, far apart",
            &[(14, "state=6 5", "state=7 5"), (20, "item=0 0 0 1 2 3", "item=0 0 0 1 2 3 / item=1 0 0 1 2")],
            &[2],
        ),
        boxed(
            "2: an item with its dot inside twice",
            &[(14, "state=6 5", "state=7 5"), (15, "item=0 1 0 1 2 3", "item=0 1 0 1 2 3 / item=0 1 0 1 2 3")],
            &[2],
        ),
        boxed(
            "2: an item with dot 0 twice with two sets",
            &[(14, "state=6 5", "state=7 5"), (16, "item=1 0 0 1 2", "item=1 0 0 1 2 / item=1 0 1")],
            &[2],
        ),
        boxed(
            "2: an item with its dot inside twice with two sets",
            &[(14, "state=6 5", "state=7 5"), (15, "item=0 1 0 1 2 3", "item=0 1 0 1 2 3 / item=0 1 3")],
            &[2, 5],
        ),
        boxed(
            "2: a complete item twice",
            &[(28, "state=1 0", "state=2 0"), (29, "item=3 1 0 1 2", "item=3 1 0 1 2 / item=3 1 0 1 2")],
            &[2, 7],
        ),
        tiny(
            "2: the accept rule twice in state 0",
            &[(5, "state=2 2", "state=3 2"), (6, "item=1 0 1", "item=1 0 1 / item=1 0 1")],
            &[2, 3],
        ),
    ]
}

/// State 0 with rule 1 and what it asks for; only rule 1 itself, or nothing, is its reason.
fn own_reason(name: &str, first: &str, items: &str, broken: &[usize]) -> Vector {
    let closure = "item=1 1 0 1 2 / item=3 0 0 1 2 / item=4 0 0 1 2 / item=0 0 0 1 2 3";
    let goes = "go=0 1 / go=2 3 / go=4 4 / go=6 8";
    let added = format!("item=1 2 0 1 2 / state=4 4 / {closure} / {goes}");
    let changes = [
        (8, "states=9", "states=10"),
        (9, "state=2 2", first),
        (11, "item=0 0 0 1 2 3", items),
        (12, "go=0 1", "go=0 1 / go=2 3"),
        (13, "go=4 2", "go=4 2 / go=5 9 / go=6 6"),
        (26, "state=1 0", "state=2 0"),
        (27, "item=5 1 3", "item=5 1 3 / item=4 1 0 1 2"),
        (48, "item=1 2 0 1 2", &added),
    ];
    boxed(name, &changes, broken)
}

fn three() -> Vec<Vector> {
    let rest = "item=2 0 0 1 2 / item=3 0 0 1 2 / item=4 0 0 1 2";
    let once = format!("item=0 0 0 1 2 3 / item=1 0 0 1 2 / {rest}");
    let twice = format!("item=0 0 0 1 2 3 / item=1 0 0 1 2 / item=1 0 0 1 2 / {rest}");
    vec![
        boxed(
            "3: an item before its reason",
            &[(17, "item=2 0 0 1 2", "item=3 0 0 1 2"), (18, "item=3 0 0 1 2", "item=2 0 0 1 2")],
            &[3],
        ),
        boxed(
            "3: a reason that comes last",
            &[(19, "item=4 0 0 1 2", "item=0 0 0 1 2 3"), (20, "item=0 0 0 1 2 3", "item=4 0 0 1 2")],
            &[3],
        ),
        boxed(
            "3: an item without any reason",
            &[
                (9, "state=2 2", "state=3 3"),
                (11, "item=0 0 0 1 2 3", "item=0 0 0 1 2 3 / item=3 0 0 1 2"),
                (12, "go=0 1", "go=0 1 / go=2 3"),
            ],
            &[3],
        ),
        own_reason("3: an item that is its own reason", "state=6 5", &once, &[3]),
        own_reason("3: an item listed twice as its own reason", "state=7 5", &twice, &[2, 3]),
    ]
}

fn three_accept() -> Vec<Vector> {
    vec![
        boxed(
            "3: the accept rule with dot 0 in other states",
            &[
                (14, "state=6 5", "state=7 5"),
                (20, "item=0 0 0 1 2 3", "item=0 0 0 1 2 3 / item=5 0 3"),
                (30, "state=1 0", "state=2 0"),
                (31, "item=4 1 0 1 2", "item=4 1 0 1 2 / item=5 1 3"),
                (32, "state=5 5", "state=6 5"),
                (37, "item=0 0 0 1 2 3", "item=0 0 0 1 2 3 / item=5 0 3"),
            ],
            &[3],
        ),
        boxed(
            "3: the accept rule with dot 0 in another state, not moved on",
            &[(26, "state=1 0", "state=2 0"), (27, "item=5 1 3", "item=5 1 3 / item=5 0 3")],
            &[3, 4, 5],
        ),
    ]
}

fn four() -> Vec<Vector> {
    vec![
        boxed("4: a rule is missing", &[(32, "state=5 5", "state=4 4"), (35, "item=3 0 0 1 2", ""), (40, "go=2 3", "")], &[4]),
        boxed("4: a set one token short of the item's own set", &[(18, "item=3 0 0 1 2", "item=3 0 0 1")], &[4]),
        boxed("4: a set one token short of what begins the next symbol", &[(17, "item=2 0 0 1 2", "item=2 0 1 2")], &[4]),
        boxed("4: a set without the kind that is next", &[(16, "item=1 0 0 1 2", "item=1 0 0 2")], &[4]),
        boxed("4: the start's rule without the end mark", &[(11, "item=0 0 0 1 2 3", "item=0 0 0 1 2")], &[4]),
        boxed("4: a set one token short in a later state", &[(36, "item=4 0 0 1 2", "item=4 0 1 2")], &[4]),
        tiny("4: the start's rule with another set", &[(7, "item=0 0 1", "item=0 0 0"), (11, "item=0 1 1", "item=0 1 0")], &[4]),
        boxed(
            "4: a rule is missing in state 0",
            &[(9, "state=2 2", "state=1 1"), (11, "item=0 0 0 1 2 3", ""), (12, "go=0 1", "")],
            &[4, 6],
        ),
    ]
}

/// State 5 without one of its items and what it asks for, and without state 8.
const WITHOUT_EIGHT: [(usize, &str, &str); 12] = [
    (8, "states=9", "states=8"),
    (32, "state=5 5", "state=1 1"),
    (34, "item=1 1 0 1 2", ""),
    (35, "item=3 0 0 1 2", ""),
    (36, "item=4 0 0 1 2", ""),
    (37, "item=0 0 0 1 2 3", ""),
    (38, "go=0 1", ""),
    (40, "go=2 3", ""),
    (41, "go=4 4", ""),
    (42, "go=6 8", ""),
    (47, "state=1 0", ""),
    (48, "item=1 2 0 1 2", ""),
];

fn five() -> Vec<Vector> {
    vec![
        boxed("5: a go line on a kind is missing", &[(32, "state=5 5", "state=5 4"), (40, "go=2 3", "")], &[5]),
        boxed("5: a go line on a nonterminal is missing", &[(32, "state=5 5", "state=5 4"), (41, "go=4 4", "")], &[5]),
        boxed(
            "5: a go line on a kind too many",
            &[(26, "state=1 0", "state=1 1"), (27, "item=5 1 3", "item=5 1 3 / go=2 3")],
            &[5],
        ),
        boxed(
            "5: a go line on a nonterminal too many",
            &[(28, "state=1 0", "state=1 1"), (29, "item=3 1 0 1 2", "item=3 1 0 1 2 / go=5 5")],
            &[5],
        ),
        boxed("5: a go line to another state", &[(40, "go=2 3", "go=2 6")], &[5]),
        boxed("5: a go line to state 0", &[(40, "go=2 3", "go=2 0")], &[5]),
        boxed(
            "5: a go line to a state with an extra item",
            &[(28, "state=1 0", "state=2 0"), (29, "item=3 1 0 1 2", "item=3 1 0 1 2 / item=2 1 3")],
            &[5],
        ),
        boxed("5: a target that lacks an item", &WITHOUT_EIGHT, &[5]),
        boxed("5: a target's set one token short", &[(33, "item=0 2 0 1 2 3", "item=0 2 0 1 2")], &[5]),
        boxed("5: a last item's set without the end mark", &[(46, "item=0 3 0 1 2 3", "item=0 3 0 1 2")], &[5]),
        tiny("5: two go lines with their targets exchanged", &[(8, "go=0 1", "go=0 2"), (9, "go=2 2", "go=2 1")], &[5]),
    ]
}

fn six() -> Vec<Vector> {
    let first = "item=0 1 0 1 2 3 / item=1 0 0 1 2 / item=2 0 0 1 2 / item=3 0 0 1 2 / item=4 0 0 1 2 / item=0 0 0 1 2 3";
    let fifth = "item=0 2 0 1 2 3 / item=1 1 0 1 2 / item=3 0 0 1 2 / item=4 0 0 1 2 / item=0 0 0 1 2 3";
    let alone = format!("item=1 2 0 1 2 / state=6 5 / {first} / go=0 9 / go=2 3 / go=4 4 / go=5 5 / go=6 6");
    let pair = format!(
        "item=1 2 0 1 2 / state=6 5 / {first} / go=0 1 / go=2 3 / go=4 4 / go=5 10 / go=6 6 \
         / state=5 5 / {fifth} / go=0 9 / go=1 7 / go=2 3 / go=4 4 / go=6 8"
    );
    let swapped = format!("item=2 1 0 1 2 / state=5 5 / {fifth} / go=0 1 / go=1 5 / go=2 3 / go=4 4 / go=6 8");
    let added = "item=1 2 0 1 2 / state=1 0 / item=3 1 0 1 2";
    let more = |name, states, added: &str| boxed(name, &[(8, "states=9", states), (48, "item=1 2 0 1 2", added)], &[6]);
    let five: Vec<(usize, &str, &str)> = BOX.lines().enumerate().take(43).skip(32).map(|(k, line)| (k, line, "")).collect();
    let mut exchange = five;
    exchange[0].2 = "state=1 0 / item=0 3 0 1 2 3";
    exchange.extend([
        (24, "go=5 5", "go=5 7"),
        (44, "item=2 1 0 1 2", &swapped),
        (45, "state=1 0", ""),
        (46, "item=0 3 0 1 2 3", ""),
    ]);
    vec![
        more("6: a state that nobody leads to", "states=10", added),
        more("6: a state that only itself leads to", "states=10", &alone),
        more("6: two states that only lead to each other", "states=11", &pair),
        boxed("6: a state that only a higher state leads to", &exchange, &[6]),
        tiny(
            "6: the second of two last states",
            &[(4, "states=3", "states=4"), (13, "item=1 1 1", "item=1 1 1 / state=1 0 / item=1 1 1")],
            &[6],
        ),
    ]
}

fn seven() -> Vec<Vector> {
    let sums = grammar(2, 1, &[&[3, 3, 0, 3], &[3, 1]]);
    let twins = grammar(2, 3, &[&[3, 4, 1], &[3, 5, 1], &[4, 0], &[5, 0]]);
    let ends = grammar(1, 3, &[&[2, 3], &[2, 4], &[3, 0], &[4, 0]]);
    let repeated = grammar(1, 1, &[&[2, 0], &[2, 0]]);
    let again = grammar(2, 2, &[&[3, 0], &[3, 4, 1], &[4, 3]]);
    vec![
        conflict("7: shift and reduce on a kind", &sums, Sort::Slr),
        conflict("7: shift and reduce on a kind, canonical", &sums, Sort::Canonical),
        conflict("7: two reductions on a kind", &twins, Sort::Lalr),
        conflict("7: two reductions on the end mark", &ends, Sort::Lalr),
        conflict("7: a rule listed twice", &repeated, Sort::Slr),
        conflict("7: assignment, SLR", &assignment(), Sort::Slr),
        conflict("7: crossed, LALR", &crossed(), Sort::Lalr),
        gained("7: a set that gained a kind that is shifted", &arithmetic(), (4, 1, 1), 1),
        gained("7: the accept rule and a reduction on the end mark", &again, (2, 2, 1), 2),
    ]
}

pub fn vectors() -> Vec<Vector> {
    [marked(), one(), two(), three(), three_accept(), four(), five(), six(), seven()].into_iter().flatten().collect()
}
