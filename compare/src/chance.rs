//! Chance from a seed: the same seed gives the same numbers everywhere.

/// A source of numbers (the generator known as SplitMix64).
#[derive(Clone, Debug)]
pub struct Chance {
    state: u64,
}

/// What the state grows by.
const STRIDE: u64 = 0x9E37_79B9_7F4A_7C15;

impl Chance {
    /// The source of a seed.
    pub fn new(seed: u64) -> Chance {
        Chance { state: seed }
    }

    /// The source of one case of a seed.
    pub fn of_case(seed: u64, case: u64) -> Chance {
        let mut mixed = Chance::new(seed);
        let first = mixed.number();
        Chance::new(first ^ case.wrapping_mul(STRIDE).rotate_left(17))
    }

    /// The next number.
    pub fn number(&mut self) -> u64 {
        self.state = self.state.wrapping_add(STRIDE);
        let z = (self.state ^ (self.state >> 30)).wrapping_mul(0xBF58_476D_1CE4_E5B9);
        let z = (z ^ (z >> 27)).wrapping_mul(0x94D0_49BB_1331_11EB);
        z ^ (z >> 31)
    }

    /// A number below a bound, which is above 0.
    pub fn below(&mut self, bound: usize) -> usize {
        (self.number() % bound as u64) as usize
    }

    /// A number from a low to a high one, both included.
    pub fn between(&mut self, low: usize, high: usize) -> usize {
        low + self.below(high - low + 1)
    }

    /// Yes once in so many times.
    pub fn once_in(&mut self, times: usize) -> bool {
        self.below(times) == 0
    }

    /// One of some things, of which there is at least one.
    pub fn pick<'a, X>(&mut self, things: &'a [X]) -> &'a X {
        &things[self.below(things.len())]
    }
}
