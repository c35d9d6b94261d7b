//! The parts made for speed beside the plain ones.
use compare::boxed::{fast_outcome, outcome, Sizes, SMALL};
use compare::cases::case;
use compare::check::told;
use compare::extremes::extremes;
use compare::fast;
use compare::judge::judge;
use compare::marked::{all, BOX};
use compare::sheet::{read, read_into};
use compare::vectors;

#[test]
fn the_stated_outcomes() {
    for case in all() {
        assert_eq!(fast_outcome(&case.input, SMALL), case.outcome, "{}", case.name);
    }
}

#[test]
fn the_vectors() {
    for vector in vectors::table().into_iter().chain(vectors::large()) {
        assert_eq!(fast::check(&vector.table()), told(&vector.table()), "{}", vector.name);
    }
}

#[test]
fn cases_by_chance() {
    for number in 0..1_500 {
        let input = case(21, number, None, SMALL).input;
        assert_eq!(fast_outcome(&input, SMALL), outcome(&input, SMALL), "case {number}");
    }
}

#[test]
fn inputs_at_the_edge() {
    let little = Sizes { tokens: 60, room: 2_000, ..SMALL };
    for input in extremes(little) {
        assert_eq!(fast_outcome(&input, little), outcome(&input, little));
    }
}

#[test]
fn slices() {
    let numbers = read(BOX.as_bytes()).expect("a good sheet").numbers;
    for size in [0, numbers.len() - 1, numbers.len(), numbers.len() + 5] {
        let (mut one, mut other) = (vec![7; size], vec![7; size]);
        assert_eq!(fast::read_into(BOX.as_bytes(), &mut one), read_into(BOX.as_bytes(), &mut other));
        assert_eq!(one, other);
    }
    for tail in [vec![], vec![2, 1], vec![0, 1], vec![2, 3], vec![0, 2, 1, 0]] {
        for size in [0, 143, 144, 287, 288, 500] {
            let (mut one, mut other) = (vec![9; size], vec![9; size]);
            assert_eq!(fast::judge(&numbers, &tail, &mut one), judge(&numbers, &tail, &mut other));
            assert_eq!(one, other);
        }
    }
}
