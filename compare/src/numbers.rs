//! A table handed over as numbers: numbers to lines.
use crate::answer::Refusal;
use crate::layout::{walk, Source, Walked};
use crate::limits;

/// The numbers that are not read yet.
struct Numbers<'a> {
    rest: &'a [u16],
}

impl Source for Numbers<'_> {
    fn line(&mut self, _key: &str) -> Option<Vec<u32>> {
        let (&count, rest) = self.rest.split_first()?;
        let line = rest.get(..count as usize)?;
        self.rest = &rest[count as usize..];
        Some(line.iter().map(|&x| x as u32).collect())
    }

    fn empty(&self) -> bool {
        self.rest.is_empty()
    }

    fn fault(&self, line: usize) -> Refusal {
        Refusal::Range { line }
    }
}

/// Reads a table from its numbers: 10 if there are too many, 12 where its lines don't fit, end early or run on.
pub fn read(numbers: &[u16]) -> Result<Walked, Refusal> {
    if numbers.len() > limits::TABLE {
        return Err(Refusal::TooLarge);
    }
    walk(&mut Numbers { rest: numbers })
}
