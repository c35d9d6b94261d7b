//! Productive, reachable, rings and first tokens, with sets of nonterminals as 32-bit numbers.
use super::table::Table;

/// Places for every nonterminal.
const NONTERMS: usize = 32;

/// What is known of the grammar.
pub struct Grammar {
    /// The lowest nonterminal that is not productive or not reachable.
    pub faulty: Option<u16>,
    /// The lowest nonterminal on a unit ring.
    pub ringed: Option<u16>,
    /// The tokens that can begin each nonterminal.
    pub first: [u64; NONTERMS],
}

/// A relation between nonterminals, closed: also what is met through others.
fn closed(mut relation: [u32; NONTERMS], count: usize) -> [u32; NONTERMS] {
    for middle in 0..count {
        for from in 0..count {
            if relation[from] >> middle & 1 == 1 {
                relation[from] |= relation[middle];
            }
        }
    }
    relation
}

/// The lowest member of a set of nonterminals, as a symbol.
fn lowest(table: &Table, set: u32) -> Option<u16> {
    (set != 0).then(|| table.terms as u16 + 1 + set.trailing_zeros() as u16)
}

impl Grammar {
    pub fn of(table: &Table) -> Grammar {
        let count = table.nonterms as usize;
        let all = u32::MAX >> (NONTERMS - count);
        let listed = &table.rules[..table.rules.len() - 1];
        let (mut uses, mut units, mut leads) = ([0u32; NONTERMS], [0u32; NONTERMS], [0u32; NONTERMS]);
        let mut first = [0u64; NONTERMS];
        let mut needs = Vec::with_capacity(listed.len());
        for rule in listed {
            let left = table.nonterminal(rule.left).expect("a left side");
            let right = &rule.right[..rule.length as usize];
            let bit = |symbol: u8| table.nonterminal(symbol).map_or(0, |a| 1u32 << a);
            let used = right.iter().fold(0, |set, &symbol| set | bit(symbol));
            uses[left] |= used;
            leads[left] |= bit(right[0]);
            needs.push((left, used));
            if right.len() == 1 {
                units[left] |= used;
            }
            if right[0] < table.terms {
                first[left] |= 1 << right[0];
            }
        }
        let sound = productive(&needs) & (closed(uses, count)[0] | 1);
        let rings = closed(units, count);
        let ringed = (0..count).filter(|&a| rings[a] >> a & 1 == 1).fold(0, |set, a| set | 1 << a);
        let leads = closed(leads, count);
        let own = first;
        for (a, set) in first.iter_mut().enumerate().take(count) {
            *set |= (0..count).filter(|&b| leads[a] >> b & 1 == 1).fold(0, |set, b| set | own[b]);
        }
        Grammar { faulty: lowest(table, all & !sound), ringed: lowest(table, ringed), first }
    }

    /// The tokens that can begin a symbol.
    #[inline]
    pub fn begin(&self, table: &Table, symbol: u8) -> u64 {
        match table.nonterminal(symbol) {
            Some(a) => self.first[a],
            None => 1 << symbol,
        }
    }
}

/// The nonterminals that derive tokens, from rules given as left side and nonterminals of the right side.
fn productive(needs: &[(usize, u32)]) -> u32 {
    let mut found = 0u32;
    loop {
        let before = found;
        for &(left, used) in needs {
            if used & !found == 0 {
                found |= 1 << left;
            }
        }
        if found == before {
            return found;
        }
    }
}
