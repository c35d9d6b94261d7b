//! Tables whose lines do not fit, end early or run on, and tables that are too large.
use super::Vector;
use crate::edit::{edit, raw};
use crate::limits;
use crate::marked::{BOX, TINY};

/// The first lines of the smallest sheet, as numbers.
fn front(lines: usize) -> Vec<u16> {
    let text: String = TINY.lines().take(lines).map(|line| format!("{line}\n")).collect();
    raw(&text)
}

/// The smallest sheet cut before each of its lines, and inside each.
fn early() -> Vec<Vector> {
    let keys: Vec<&str> = TINY.lines().map(|line| line.split_once('=').expect("a key").0).collect();
    let mut vectors = Vec::new();
    for (k, key) in keys.iter().enumerate() {
        let line = k as u64;
        vectors.push(Vector::of(&format!("12: ends before line {k}, {key}"), front(k), 12, line));
        let mut cut = front(k + 1);
        cut.pop();
        vectors.push(Vector::of(&format!("12: ends inside line {k}, {key}"), cut, 12, line));
    }
    vectors
}

/// A smallest sheet with one line changed, refused at a line.
fn tiny(name: &str, k: usize, old: &str, new: &str, line: u64) -> Vector {
    Vector::sheet(&format!("12: {name}"), &edit(TINY, &[(k, old, new)]), 12, line)
}

/// Counts of numbers that are wrong.
fn counts() -> Vec<Vector> {
    vec![
        tiny("terms without a number", 0, "terms=1", "terms=", 0),
        tiny("terms with two numbers", 0, "terms=1", "terms=1 1", 0),
        tiny("nonterms with two numbers", 1, "nonterms=1", "nonterms=1 1", 1),
        tiny("rules without a number", 2, "rules=1", "rules=", 2),
        tiny("a rule without a number", 3, "rule=2 0", "rule=", 3),
        tiny("a rule without a right side", 3, "rule=2 0", "rule=2", 3),
        tiny("a rule with nine symbols", 3, "rule=2 0", "rule=2 0 0 0 0 0 0 0 0 0", 3),
        tiny("states with two numbers", 4, "states=3", "states=3 0", 4),
        tiny("a state line with one number", 5, "state=2 2", "state=2", 5),
        tiny("a state line with three numbers", 5, "state=2 2", "state=2 2 0", 5),
        tiny("an item without a set", 7, "item=0 0 1", "item=0 0", 7),
        tiny("an item with one number", 7, "item=0 0 1", "item=0", 7),
        tiny("an item without numbers", 7, "item=0 0 1", "item=", 7),
        tiny("a go line with one number", 8, "go=0 1", "go=0", 8),
        tiny("a go line with three numbers", 8, "go=0 1", "go=0 1 0", 8),
    ]
}

/// Numbers out of range before the states.
fn grammar_ranges() -> Vec<Vector> {
    vec![
        tiny("no kinds", 0, "terms=1", "terms=0", 0),
        tiny("64 kinds", 0, "terms=1", "terms=64", 0),
        tiny("65,535 kinds", 0, "terms=1", "terms=65535", 0),
        tiny("no nonterminals", 1, "nonterms=1", "nonterms=0", 1),
        tiny("33 nonterminals", 1, "nonterms=1", "nonterms=33", 1),
        tiny("no rules", 2, "rules=1", "rules=0", 2),
        tiny("65 rules", 2, "rules=1", "rules=65", 2),
        tiny("a kind on a left side", 3, "rule=2 0", "rule=0 0", 3),
        tiny("the end mark on a left side", 3, "rule=2 0", "rule=1 0", 3),
        tiny("a left side above all symbols", 3, "rule=2 0", "rule=3 0", 3),
        tiny("the end mark on a right side", 3, "rule=2 0", "rule=2 1", 3),
        tiny("a right side's symbol above all symbols", 3, "rule=2 0", "rule=2 0 3", 3),
        tiny("no states", 4, "states=3", "states=0", 4),
        tiny("129 states", 4, "states=3", "states=129", 4),
    ]
}

/// Numbers out of range in the states.
fn state_ranges() -> Vec<Vector> {
    vec![
        tiny("no items", 5, "state=2 2", "state=0 2", 5),
        tiny("201 items called for", 5, "state=2 2", "state=201 2", 5),
        tiny("97 go lines", 5, "state=2 2", "state=2 97", 5),
        tiny("96 go lines are in range, but the next line is none", 5, "state=2 2", "state=2 96", 10),
        tiny("a rule above the accept rule", 7, "item=0 0 1", "item=2 0 1", 7),
        tiny("a dot above the right side's length", 7, "item=0 0 1", "item=0 2 1", 7),
        tiny("the accept rule's dot at 2", 6, "item=1 0 1", "item=1 2 1", 6),
        tiny("a look-ahead above the end mark", 7, "item=0 0 1", "item=0 0 2", 7),
        tiny("a set that falls", 7, "item=0 0 1", "item=0 0 1 0", 7),
        tiny("a set with a member twice", 7, "item=0 0 1", "item=0 0 1 1", 7),
        tiny("a set that rises above the end mark", 7, "item=0 0 1", "item=0 0 0 1 2", 7),
        tiny("a go line on the end mark", 8, "go=0 1", "go=1 1", 8),
        tiny("a go line on a symbol above all", 9, "go=2 2", "go=3 2", 9),
        tiny("a go line to state m", 9, "go=2 2", "go=2 3", 9),
        tiny("a go line on the same symbol again", 9, "go=2 2", "go=0 2", 9),
        Vector::sheet("12: go lines that fall", &edit(TINY, &[(8, "go=0 1", "go=2 1"), (9, "go=2 2", "go=0 2")]), 12, 9),
        tiny("a count of items one too small", 5, "state=2 2", "state=1 2", 7),
        tiny("a count of items one too large", 5, "state=2 2", "state=3 2", 8),
        tiny("a count of states one too large", 4, "states=3", "states=4", 14),
        tiny("a count of states one too small", 4, "states=3", "states=2", 9),
        Vector::sheet(
            "12: the last line, and the grammar is not reduced",
            &edit(TINY, &[(1, "nonterms=1", "nonterms=2"), (13, "item=1 1 1", "item=1 1 2")]),
            12,
            13,
        ),
    ]
}

/// Tables that run on, or are large.
fn large() -> Vec<Vector> {
    let tiny = || Vector::of("", raw(TINY), 12, 14);
    let named = |vector: Vector, name: &str| Vector { name: name.to_string(), ..vector };
    let over = |vector: Vector| Vector { answer: 10, value: 0, ..vector };
    let nothing = |value: u64| Vector::of("", Vec::new(), 12, value);
    let again = Vector::of("12: the table twice", [raw(TINY), raw(TINY)].concat(), 12, 14);
    let two_hundred = |items: usize| {
        let copies = vec!["item=0 1 1"; items].join(" / ");
        edit(TINY, &[(10, "state=1 0", &format!("state={items} 0")), (11, "item=0 1 1", &copies)])
    };
    let many = Vector { broken: vec![2, 7], ..Vector::sheet("22: 200 items", &two_hundred(200), 22, 0) };
    vec![
        named(tiny().filled(raw(TINY).len() + 1, 0), "12: a line without numbers too many"),
        named(tiny().filled(raw(TINY).len() + 1, 7), "12: a number too many"),
        named(tiny().filled(raw(TINY).len() + 2, 1), "12: a line too many"),
        again,
        Vector::of("12: the box table and a line", [raw(BOX), vec![1, 0]].concat(), 12, 49),
        many,
        Vector::sheet("12: 201 items", &two_hundred(201), 12, 10),
        named(tiny().filled(limits::TABLE, 0), "12: 60,000 numbers"),
        named(over(tiny()).filled(limits::TABLE + 1, 0), "10: 60,001 numbers"),
        named(nothing(0).filled(limits::TABLE, 0), "12: 60,000 times 0"),
        named(nothing(3).filled(limits::TABLE, 1), "12: 60,000 times 1"),
        named(nothing(0).filled(limits::TABLE, 65_535), "12: 60,000 times 65,535"),
        named(over(nothing(0)).filled(limits::TABLE + 1, 65_535), "10: 60,001 times 65,535"),
        named(over(nothing(0)).filled(65_535, 1), "10: 65,535 times 1"),
    ]
}

pub fn vectors() -> Vec<Vector> {
    [early(), counts(), grammar_ranges(), state_ranges(), large()].into_iter().flatten().collect()
}
