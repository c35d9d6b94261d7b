//! The vectors' stated answers beside the check's.
use compare::answer::Refusal;
use compare::check::{check, told};
use compare::conditions::broken;
use compare::numbers;
use compare::vectors;
use compare::vectors::Vector;
use std::collections::BTreeSet;

/// All vectors, the large ones too.
fn all() -> Vec<Vector> {
    vectors::table().into_iter().chain(vectors::large()).collect()
}

#[test]
fn the_stated_answers() {
    let wrong = all().into_iter().filter_map(|vector| {
        let told = told(&vector.table());
        let same = (told.answer, told.value) == (vector.answer, vector.value);
        (!same)
            .then(|| format!("{}: stated {} {}, told {} {}", vector.name, vector.answer, vector.value, told.answer, told.value))
    });
    assert_eq!(wrong.collect::<Vec<_>>(), [""; 0]);
}

#[test]
fn the_stated_conditions() {
    let wrong = all().into_iter().filter(|vector| vector.answer == 22).filter_map(|vector| {
        let Ok(walked) = numbers::read(&vector.table()) else { return Some(format!("{}: does not fit", vector.name)) };
        let conditions: BTreeSet<usize> = broken(&walked.table).iter().map(|&(condition, _)| condition).collect();
        let conditions: Vec<usize> = conditions.into_iter().collect();
        let first = match check(&vector.table()) {
            Err(Refusal::Broken { condition, .. }) => Some(condition),
            _ => None,
        };
        let same = conditions == vector.broken && first == conditions.first().copied();
        (!same).then(|| format!("{}: stated {:?}, broken {conditions:?}", vector.name, vector.broken))
    });
    assert_eq!(wrong.collect::<Vec<_>>(), [""; 0]);
}

#[test]
fn names_tell_the_vectors_apart() {
    let vectors = vectors::table();
    let names: BTreeSet<&str> = vectors.iter().map(|vector| vector.name.as_str()).collect();
    assert_eq!(names.len(), vectors.len());
    assert!(vectors.len() >= 60);
}

#[test]
fn each_condition_is_broken_alone() {
    let vectors = vectors::table();
    for condition in 1..=7 {
        let alone = vectors.iter().filter(|vector| vector.broken == [condition]).count();
        assert!(alone >= 4, "condition {condition}: {alone}");
    }
}

#[test]
fn the_text_says_the_tables() {
    let vectors = all();
    let text = vectors::text(&vectors);
    for (line, vector) in text.lines().zip(&vectors) {
        let numbers: Vec<u32> = line.split(' ').map(|word| word.parse().expect("a number")).collect();
        let (length, fill) = (numbers[1] as usize, numbers[2] as u16);
        let mut table: Vec<u16> = numbers[3..].iter().map(|&number| number as u16).collect();
        table.resize(length, fill);
        assert_eq!(table, vector.table(), "{}", vector.name);
    }
}
