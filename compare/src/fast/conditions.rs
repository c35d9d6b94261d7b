//! The seven conditions over all states, without a search inside a search.
use super::grammar::Grammar;
use super::ranges::RULES;
use super::table::{Item, Table, NONE, RIGHT};
use crate::limits;

/// Places for every rule and dot.
const CORES: usize = RULES * (RIGHT + 1);
/// Places for every state.
const STATES: usize = *limits::STATES.end() as usize;

/// What is known of the state at hand: each item by rule and dot, with the state's mark where it is fresh.
struct Work {
    mark: [u16; CORES],
    place: [u8; CORES],
}

/// The number of a rule and a dot.
#[inline]
fn core(rule: u8, dot: u8) -> usize {
    rule as usize * (RIGHT + 1) + dot as usize
}

/// Whether all seven conditions hold.
pub fn hold(table: &Table, grammar: &Grammar) -> bool {
    let mut work = Work { mark: [0; CORES], place: [0; CORES] };
    let kernels: Vec<u32> = (0..table.states.len()).map(|s| table.items(s).iter().filter(|i| i.dot > 0).count() as u32).collect();
    let mut led = [false; STATES];
    led[0] = true;
    for s in 0..table.states.len() {
        let holds = starts(table, s, kernels[s])
            && work.reasons(table, s)
            && work.closes(table, grammar, s)
            && work.moves(table, s, &kernels)
            && free(table, s);
        if !holds || !led[s] {
            return false;
        }
        for go in table.goes(s) {
            led[go.target as usize] |= go.target as usize > s;
        }
    }
    true
}

/// Condition 1.
fn starts(table: &Table, s: usize, kernel: u32) -> bool {
    let items = table.items(s);
    let accept = table.accept();
    let end = 1u64 << table.terms;
    let place = match s {
        0 => items[0].rule == accept && kernel == 0,
        _ => kernel > 0,
    };
    place && items.iter().all(|i| i.rule != accept || i.set == end)
}

impl Work {
    /// Conditions 2 and 3, and the items of the state by rule and dot.
    fn reasons(&mut self, table: &Table, s: usize) -> bool {
        let fresh = s as u16 + 1;
        let mut asked = 0u32;
        for (place, item) in table.items(s).iter().enumerate() {
            let at = core(item.rule, item.dot);
            if self.mark[at] == fresh {
                return false;
            }
            self.mark[at] = fresh;
            self.place[at] = place as u8;
            let reason = table.nonterminal(table.rules[item.rule as usize].left).is_some_and(|a| asked >> a & 1 == 1);
            if item.dot == 0 && !reason && (s, place) != (0, 0) {
                return false;
            }
            if let Some(b) = table.nonterminal(item.after) {
                asked |= 1 << b;
            }
        }
        true
    }

    /// The item of the state with this rule and dot.
    #[inline]
    fn find<'a>(&self, items: &'a [Item], s: usize, rule: u8, dot: u8) -> Option<&'a Item> {
        let at = core(rule, dot);
        (self.mark[at] == s as u16 + 1).then(|| &items[self.place[at] as usize])
    }

    /// Condition 4: what all items ask of each nonterminal's rules, then each rule once.
    fn closes(&self, table: &Table, grammar: &Grammar, s: usize) -> bool {
        let items = table.items(s);
        let mut asked = [0u64; 32];
        for item in items {
            let Some(b) = table.nonterminal(item.after) else { continue };
            let rule = &table.rules[item.rule as usize];
            let next = item.dot as usize + 1;
            asked[b] |= if next < rule.length as usize { grammar.begin(table, rule.right[next]) } else { item.set };
        }
        let listed = &table.rules[..table.rules.len() - 1];
        listed.iter().enumerate().all(|(r, rule)| {
            let asked = asked[table.nonterminal(rule.left).expect("a left side")];
            asked == 0 || self.find(items, s, r as u8, 0).is_some_and(|i| i.set & asked == asked)
        })
    }

    /// Condition 5: each item of a target comes from one here, and there are as many as items with the symbol after the dot.
    fn moves(&self, table: &Table, s: usize, kernels: &[u32]) -> bool {
        let items = table.items(s);
        let mut asked = [0u32; NONE as usize + 1];
        let mut symbols = 0;
        for item in items.iter().filter(|i| i.after != NONE) {
            symbols += (asked[item.after as usize] == 0) as usize;
            asked[item.after as usize] += 1;
        }
        let goes = table.goes(s);
        symbols == goes.len()
            && goes.iter().all(|go| {
                let comes = |new: &Item| {
                    let old = self.find(items, s, new.rule, new.dot - 1);
                    old.is_some_and(|old| old.after == go.symbol && old.set & !new.set == 0)
                };
                asked[go.symbol as usize] > 0
                    && asked[go.symbol as usize] == kernels[go.target as usize]
                    && table.items(go.target as usize).iter().filter(|i| i.dot > 0).all(comes)
            })
    }
}

/// Condition 7.
fn free(table: &Table, s: usize) -> bool {
    let kinds = table.goes(s).iter().filter(|go| go.symbol < table.terms);
    let mut taken = kinds.fold(0u64, |set, go| set | 1 << go.symbol);
    table.items(s).iter().filter(|i| i.after == NONE).all(|i| {
        let clear = taken & i.set == 0;
        taken |= i.set;
        clear
    })
}
