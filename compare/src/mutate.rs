//! Tables with one thing changed. Most no longer pass; some still do.
use crate::chance::Chance;
use crate::table::{Item, Kinds, Rule, State, Table};

/// Changes one thing of a table.
pub fn mutate(table: &mut Table, chance: &mut Chance) {
    match chance.below(18) {
        0..=2 => more_set(table, chance),
        3..=4 => less_set(table, chance),
        5..=6 => other_item(table, chance),
        7 => drop_item(table, chance),
        8 => double_item(table, chance),
        9 => swap_items(table, chance),
        10..=11 => other_target(table, chance),
        12 => drop_go(table, chance),
        13 => add_go(table, chance),
        14 => states(table, chance),
        15 => other_rule(table, chance),
        16 => more_rules(table, chance),
        _ => table.grammar.nonterms += 1,
    }
}

/// Enlarges sets here and there, the accept rule's left as they are.
pub fn loosen(table: &mut Table, chance: &mut Chance) {
    let accept = table.grammar.accept();
    let kinds = table.grammar.end() as usize + 1;
    for item in table.states.iter_mut().flat_map(|s| &mut s.items).filter(|i| i.rule != accept) {
        if chance.once_in(6) {
            item.set.insert(chance.below(kinds) as u16);
        }
    }
}

/// Some state.
fn state<'a>(table: &'a mut Table, chance: &mut Chance) -> &'a mut State {
    let s = chance.below(table.states.len());
    &mut table.states[s]
}

/// Some item.
fn item<'a>(table: &'a mut Table, chance: &mut Chance) -> &'a mut Item {
    let items = &mut state(table, chance).items;
    let at = chance.below(items.len());
    &mut items[at]
}

fn more_set(table: &mut Table, chance: &mut Chance) {
    let t = chance.below(table.grammar.end() as usize + 1) as u16;
    item(table, chance).set.insert(t);
}

fn less_set(table: &mut Table, chance: &mut Chance) {
    let set = &mut item(table, chance).set;
    let members: Vec<u16> = set.iter().copied().collect();
    if !members.is_empty() {
        set.remove(chance.pick(&members));
    }
}

/// Another rule or another dot; the dot may be one beyond the right side.
fn other_item(table: &mut Table, chance: &mut Chance) {
    let rule = chance.below(table.grammar.accept() + 1);
    let change_rule = chance.once_in(2);
    let dot = chance.below(4);
    let item = item(table, chance);
    if change_rule {
        item.rule = rule;
    } else {
        item.dot = dot;
    }
}

fn drop_item(table: &mut Table, chance: &mut Chance) {
    let items = &mut state(table, chance).items;
    if items.len() > 1 {
        items.remove(chance.below(items.len()));
    }
}

/// The same item again, or one with a set of its own, in some place.
fn double_item(table: &mut Table, chance: &mut Chance) {
    let kinds = table.grammar.end() as usize + 1;
    let mut copy = item(table, chance).clone();
    if chance.once_in(2) {
        copy.set = Kinds::from([chance.below(kinds) as u16]);
    }
    let items = &mut state(table, chance).items;
    items.insert(chance.below(items.len() + 1), copy);
}

fn swap_items(table: &mut Table, chance: &mut Chance) {
    let items = &mut state(table, chance).items;
    let (a, b) = (chance.below(items.len()), chance.below(items.len()));
    items.swap(a, b);
}

fn other_target(table: &mut Table, chance: &mut Chance) {
    let target = chance.below(table.states.len());
    let goes = &mut state(table, chance).goes;
    if !goes.is_empty() {
        let at = chance.below(goes.len());
        goes[at].1 = target;
    }
}

fn drop_go(table: &mut Table, chance: &mut Chance) {
    let goes = &mut state(table, chance).goes;
    if !goes.is_empty() {
        goes.remove(chance.below(goes.len()));
    }
}

/// A go line on some symbol in its place, the end mark too at times.
fn add_go(table: &mut Table, chance: &mut Chance) {
    let symbol = chance.below((table.grammar.terms + table.grammar.nonterms) as usize + 1) as u16;
    let target = chance.below(table.states.len());
    let goes = &mut state(table, chance).goes;
    goes.retain(|go| go.0 != symbol);
    goes.push((symbol, target));
    goes.sort();
}

/// Two states change places with or without their numbers, one is dropped, or one is doubled at the end.
fn states(table: &mut Table, chance: &mut Chance) {
    let m = table.states.len();
    let (a, b) = (chance.below(m), chance.below(m));
    match chance.below(4) {
        0 => table.states.swap(a, b),
        1 if m > 1 => drop(table.states.pop()),
        2 => table.states.push(table.states[a].clone()),
        _ => {
            table.states.swap(a, b);
            let name = |s: usize| {
                if s == a {
                    b
                } else if s == b {
                    a
                } else {
                    s
                }
            };
            table.states.iter_mut().flat_map(|s| &mut s.goes).for_each(|go| go.1 = name(go.1));
        }
    }
}

/// One symbol of a rule made another.
fn other_rule(table: &mut Table, chance: &mut Chance) {
    let symbol = chance.below((table.grammar.terms + table.grammar.nonterms) as usize + 1) as u16;
    let k = chance.below(table.grammar.rules.len());
    let rule = &mut table.grammar.rules[k];
    match chance.below(rule.right.len() + 1) {
        0 => rule.left = symbol,
        place => rule.right[place - 1] = symbol,
    }
}

/// A rule added at the end, with a nonterminal of its own at times. The accept rule's number rises with it.
fn more_rules(table: &mut Table, chance: &mut Chance) {
    let accept = table.grammar.accept();
    table.states.iter_mut().flat_map(|s| &mut s.items).filter(|i| i.rule == accept).for_each(|i| i.rule += 1);
    if chance.once_in(3) {
        table.grammar.nonterms += 1;
    }
    let nonterms = table.grammar.nonterms as usize;
    let mut nonterminal = || table.grammar.start() + chance.below(nonterms) as u16;
    let (left, single) = (nonterminal(), nonterminal());
    let kind = chance.below(table.grammar.terms as usize) as u16;
    let right = chance.pick(&[vec![single], vec![kind], vec![single, kind]]).clone();
    table.grammar.rules.push(Rule { left, right });
}
