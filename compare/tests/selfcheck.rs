//! The self-checks on some random grammars, and the stated bounds of the small box.
use compare::boxed::{outcome, SMALL};
use compare::cases::case;
use compare::selfcheck::selfcheck;

#[test]
fn random_grammars() {
    assert!(selfcheck(120, 11));
}

#[test]
fn the_box_never_gives_13_and_judges_at_most_339_tokens() {
    for number in 0..400 {
        let told = outcome(&case(5, number, None, SMALL).input, SMALL);
        assert_ne!(told.answer, 13);
        assert!(told.answer > 1 || told.value <= 339);
    }
}
