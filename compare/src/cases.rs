//! The inputs of a comparison. Each is made from the seed and its own number alone.
use crate::boxed::Sizes;
use crate::chance::Chance;
use crate::damage::{bytes, damage};
use crate::extremes::most;
use crate::grammars::{self, named, random};
use crate::judge::Machine;
use crate::make::{conflicting, tables, Sort};
use crate::mutate::{loosen, mutate};
use crate::table::{Grammar, Table};
use crate::tails::{filling, sentence, tail};
use crate::traps::shown;

/// What was done to an input.
#[derive(Clone, Copy, Debug, PartialEq, Eq, PartialOrd, Ord)]
pub enum Story {
    /// A made table and a tail.
    Good,
    /// A table with something changed, or with a conflict.
    Mutated,
    /// A sheet that is damaged.
    Damaged,
    /// Bytes of chance.
    Bytes,
    /// A made table and a tail on which a seldom mistake would show.
    Sharp,
}

/// All stories with their names.
pub const STORIES: [(&str, Story); 5] = [
    ("good", Story::Good),
    ("mutated", Story::Mutated),
    ("damaged", Story::Damaged),
    ("bytes", Story::Bytes),
    ("sharp", Story::Sharp),
];

/// An input with its story.
pub struct Case {
    pub story: Story,
    pub input: Vec<u8>,
}

/// A case of a seed for a program of these sizes; of a given story if one is given.
pub fn case(seed: u64, number: u64, story: Option<Story>, sizes: Sizes) -> Case {
    let mut chance = Chance::of_case(seed, number);
    let drawn = match chance.below(40) {
        0..=16 => Story::Good,
        17..=26 => Story::Mutated,
        27..=36 => Story::Damaged,
        37..=38 => Story::Bytes,
        _ => Story::Sharp,
    };
    let story = story.unwrap_or(drawn);
    Case { story, input: input(story, &mut chance, sizes) }
}

/// An input of a story.
fn input(story: Story, chance: &mut Chance, sizes: Sizes) -> Vec<u8> {
    match story {
        Story::Bytes => return bytes(chance),
        Story::Sharp => return sharp(chance, sizes),
        _ => (),
    }
    let (_, mut table) = some_table(chance);
    if story == Story::Mutated && chance.once_in(8) {
        table = conflicting(&some_grammar(chance)).pop().map_or(table, |(_, conflicting)| conflicting);
    } else if story == Story::Mutated || (story == Story::Damaged && chance.once_in(4)) {
        change(&mut table, chance);
    }
    let mut input = table.sheet();
    input.extend(match chance.once_in(100) {
        true => wide_tail(input.len(), chance, sizes),
        false => some_tail(&table, chance, sizes),
    });
    if story == Story::Damaged {
        for _ in 0..chance.between(1, 3).min(chance.between(1, 3)) {
            damage(&mut input, chance);
        }
    }
    input
}

/// A table and a tail on which one of the mistakes shows that show seldom; after some searching, any table and tail.
fn sharp(chance: &mut Chance, sizes: Sizes) -> Vec<u8> {
    let seldom = |names: Vec<&str>| names.contains(&"keeps a lower part") || names.contains(&"takes the highest root");
    let mut found = (Vec::new(), Vec::new());
    for _ in 0..80 {
        let Some((_, table)) = tables(&random(chance, grammars::DENSE)).pop() else { continue };
        let machine = Machine::of(&table);
        let most = most(table.states.len(), sizes).min(24);
        let tails: Vec<Vec<u16>> = (0..16).map(|_| tail(&table.grammar, chance, most)).collect();
        let best = tails.iter().find(|tail| seldom(shown(&machine, tail)));
        found = (table.sheet(), best.unwrap_or(&tails[0]).clone());
        if best.is_some() {
            break;
        }
    }
    let (sheet, tail) = found;
    [sheet, line(tail.into_iter().map(u32::from))].concat()
}

/// A tail line.
fn line(tokens: impl IntoIterator<Item = u32>) -> Vec<u8> {
    let words: Vec<String> = tokens.into_iter().map(|t| t.to_string()).collect();
    format!("tail={}\n", words.join(" ")).into_bytes()
}

/// A table that is free of conflicts.
pub fn some_table(chance: &mut Chance) -> (Sort, Table) {
    loop {
        let grammar = some_grammar(chance);
        let tables = tables(&grammar);
        if !tables.is_empty() {
            return chance.pick(&tables).clone();
        }
    }
}

/// A grammar: seldom one by name, seldom a larger one, mostly a small one.
pub fn some_grammar(chance: &mut Chance) -> Grammar {
    match chance.below(16) {
        0 => chance.pick(&named()).1.clone(),
        1 => random(chance, grammars::LARGER),
        2..=6 => random(chance, grammars::DENSE),
        _ => random(chance, grammars::SMALL),
    }
}

/// Changes a table once to three times, or loosens its sets.
pub fn change(table: &mut Table, chance: &mut Chance) {
    if chance.once_in(5) {
        return loosen(table, chance);
    }
    for _ in 0..chance.between(1, 3).min(chance.between(1, 3)) {
        mutate(table, chance);
    }
}

/// A tail line that brings the input to about the most bytes.
fn wide_tail(before: usize, chance: &mut Chance, sizes: Sizes) -> Vec<u8> {
    let bytes = chance.between(sizes.bytes - 1, sizes.bytes + 1);
    let digits = bytes.saturating_sub(before + "tail=\n".len()).max(1);
    format!("tail={}\n", filling(digits)).into_bytes()
}

/// A tail line. The grammar may have been changed, so only a sound one is asked for sentences.
fn some_tail(table: &Table, chance: &mut Chance, sizes: Sizes) -> Vec<u8> {
    let grammar = &table.grammar;
    let formed = grammar
        .rules
        .iter()
        .all(|r| grammar.is_nonterminal(r.left) && r.right.iter().all(|&x| grammar.is_kind(x) || grammar.is_nonterminal(x)));
    let tokens: Vec<u32> = if formed && grammar.sound() {
        good_tail(grammar, chance, sizes.tokens)
    } else {
        (0..chance.below(6)).map(|_| chance.below(grammar.terms as usize) as u32).collect()
    };
    line(tokens)
}

/// The numbers of a tail line: mostly a short tail, at times a long one, too long a one, or one with a number out of range.
fn good_tail(grammar: &Grammar, chance: &mut Chance, most: usize) -> Vec<u32> {
    let tokens: Vec<u16> = match chance.below(24) {
        0 => sentence(grammar, chance, most / 2).into_iter().take(most + 20).collect(),
        1 => tail(grammar, chance, most / 4),
        2 => (0..chance.between(most - 20, most + 20)).map(|_| chance.below(grammar.terms as usize) as u16).collect(),
        3..=8 => tail(grammar, chance, 30),
        _ => tail(grammar, chance, 10),
    };
    let mut tokens: Vec<u32> = tokens.into_iter().map(u32::from).collect();
    if chance.once_in(20) && !tokens.is_empty() {
        let at = chance.below(tokens.len());
        tokens[at] = *chance.pick(&[grammar.terms as u32, grammar.terms as u32 + 1, 65_535, 65_536, 99_999]);
    }
    tokens
}
