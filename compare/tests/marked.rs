//! The outcomes that are stated beforehand.
use compare::boxed::{outcome, SMALL};
use compare::grammars::boxes;
use compare::make::{make, Sort};
use compare::marked::{all, BOX};

#[test]
fn the_stated_outcomes() {
    for case in all() {
        assert_eq!(outcome(&case.input, SMALL), case.outcome, "{}", case.name);
    }
}

#[test]
fn the_maker_writes_the_sheet_of_document_01() {
    let made = make(&boxes(), Sort::Slr).expect("within the ranges");
    assert_eq!(String::from_utf8(made.sheet()).unwrap(), BOX);
}

#[test]
fn the_size_of_the_edge_case() {
    let sizes: Vec<usize> = all().iter().filter(|c| c.name.starts_with("6:")).map(|c| c.input.len()).collect();
    assert_eq!(sizes, [16_000, 16_001]);
}
