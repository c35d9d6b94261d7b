//! The stated sharp tails are sharp: the mistake that each is for shows on it.
use compare::grammars::{boxes, pairs, prefixed, twos};
use compare::judge::Machine;
use compare::make::{make, Sort};
use compare::table::Grammar;
use compare::traps::shown;

fn names(grammar: &Grammar, tail: &[u16]) -> Vec<&'static str> {
    shown(&Machine::of(&make(grammar, Sort::Slr).expect("within the ranges")), tail)
}

#[test]
fn mistakes_show() {
    assert!(names(&boxes(), &[0, 2, 1, 0]).contains(&"calls an exact path normal"));
    assert!(names(&pairs(), &[1, 1, 1, 1]).contains(&"keeps a lower part"));
    assert!(names(&prefixed(), &[1, 0, 0]).contains(&"takes the highest root"));
    assert!(names(&twos(), &[0, 0, 0]).contains(&"keeps one lower part of two"));
}
