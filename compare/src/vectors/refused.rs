//! Tables whose grammar is not reduced or has a unit ring. Their states are those of the smallest sheet, which fit every time.
use super::Vector;

/// A table of a grammar's lines, with states that fit where kind 0 and a first rule are there.
fn of(name: &str, terms: u16, nonterms: u16, rules: &[&str], (answer, value): (u64, u64)) -> Vector {
    let lines: String = rules.iter().map(|rule| format!("rule={rule}\n")).collect();
    let accept = rules.len();
    let head = format!("terms={terms}\nnonterms={nonterms}\nrules={accept}\n{lines}states=1\n");
    Vector::sheet(name, &format!("{head}state=1 0\nitem={accept} 0 {terms}\n"), answer, value)
}

/// Not reduced.
fn reduced() -> Vec<Vector> {
    vec![
        of("20: a nonterminal without rules", 1, 2, &["2 0"], (20, 3)),
        of("20: the start derives no tokens", 1, 1, &["2 2 0"], (20, 2)),
        of("20: a nonterminal that derives no tokens", 1, 2, &["2 0", "2 3", "3 3 0"], (20, 3)),
        of("20: two nonterminals that wait for each other", 1, 3, &["2 0", "2 3", "3 4 0", "4 3 0"], (20, 3)),
        of("20: a nonterminal that is not reached", 1, 2, &["2 0", "3 0"], (20, 3)),
        of("20: two that reach each other only", 1, 3, &["2 0", "3 0 4", "4 0 3", "4 0"], (20, 3)),
        of("20: the lower is not reached, the higher derives no tokens", 1, 3, &["2 0", "2 4", "3 0", "4 4 0"], (20, 3)),
        of("20: the lower derives no tokens, the higher is not reached", 1, 3, &["2 0", "2 3", "3 3 0", "4 0"], (20, 3)),
        of("20: only the highest of three", 1, 3, &["2 0", "2 3", "3 0 3", "3 0", "4 0"], (20, 4)),
        of("20: reached only through one that derives no tokens", 1, 3, &["2 0", "2 3", "3 3 4", "4 0"], (20, 3)),
        of("20: the start is not productive, its part is", 1, 2, &["2 3 2", "3 0"], (20, 2)),
        of("20: also a unit ring", 1, 2, &["2 0", "2 2", "3 0"], (20, 3)),
        of("20: a unit ring alone derives no tokens", 1, 2, &["2 3", "3 2"], (20, 2)),
    ]
}

/// Unit rings.
fn rings() -> Vec<Vector> {
    vec![
        of("21: a ring of one", 1, 1, &["2 0", "2 2"], (21, 2)),
        of("21: a ring of one, not the start", 1, 2, &["2 0 3", "3 3", "3 0"], (21, 3)),
        of("21: a ring of two", 1, 2, &["2 3", "3 2", "3 0"], (21, 2)),
        of("21: a ring of two, higher first", 1, 3, &["2 0 3", "3 0", "3 0 4", "3 4", "4 3"], (21, 3)),
        of("21: a ring of three", 1, 4, &["2 0 3", "5 3", "4 5", "3 4", "3 0"], (21, 3)),
        of("21: a nonterminal that only leads to a ring", 1, 3, &["2 3", "3 4", "4 3", "4 0"], (21, 3)),
        of("21: two rings", 1, 4, &["2 3 5", "4 4", "3 4", "4 0", "5 5", "5 0"], (21, 4)),
        of("21: a ring, and conditions broken too", 2, 2, &["3 4", "3 0", "4 3", "4 1"], (21, 3)),
    ]
}

pub fn vectors() -> Vec<Vector> {
    let almost = of("22: no ring, for a kind stands in it", 1, 2, &["2 3", "3 2 0", "3 0"], (22, 0));
    let kinds = of("22: a single kind is no ring", 1, 1, &["2 0"], (22, 0));
    let also = [Vector { broken: vec![4, 5], ..almost }, Vector { broken: vec![4, 5], ..kinds }];
    reduced().into_iter().chain(rings()).chain(also).collect()
}
