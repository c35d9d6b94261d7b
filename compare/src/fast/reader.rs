//! The reader: one pass over the bytes.
use super::ranges::Ranges;
use crate::answer::{Judgement, Refusal};
use crate::limits;
use crate::sheet::LF;

/// A reader under way: the bytes, the place, the line's number and the numbers so far.
struct Reader<'a> {
    bytes: &'a [u8],
    at: usize,
    line: usize,
    numbers: Vec<u16>,
}

impl Reader<'_> {
    /// Reads a line with this key (`=` included) behind a place for its count. Gives where its numbers begin, and whether all of
    /// them have 16 bits. None: a wrong key or form, or no LF.
    #[inline]
    fn numbers(&mut self, key: &[u8]) -> Option<(usize, bool)> {
        let bytes = self.bytes;
        let mut at = self.at;
        if !bytes[at..].starts_with(key) {
            return None;
        }
        at += key.len();
        self.numbers.push(0);
        let start = self.numbers.len();
        let mut small = true;
        let mut ended = *bytes.get(at)? == LF;
        while !ended {
            let mut number = digit(*bytes.get(at)?)?;
            at += 1;
            if number > 0 {
                let most = at + limits::DIGITS.end() - 1;
                while at < most {
                    let Some(next) = digit(*bytes.get(at)?) else { break };
                    number = number * 10 + next;
                    at += 1;
                }
            }
            small &= number <= u16::MAX as u32;
            self.numbers.push(number as u16);
            ended = match *bytes.get(at)? {
                b' ' => {
                    at += 1;
                    false
                }
                LF => true,
                _ => return None,
            };
        }
        self.at = at + 1;
        Some((start, small))
    }

    /// Reads a line and tests its numbers. Gives them.
    #[inline]
    fn take(&mut self, key: &[u8], fits: impl FnOnce(&[u16]) -> bool) -> Result<&[u16], Refusal> {
        let line = self.line;
        let (start, small) = self.numbers(key).ok_or(Refusal::Form { line })?;
        if !small || !fits(&self.numbers[start..]) {
            return Err(Refusal::Range { line });
        }
        self.numbers[start - 1] = (self.numbers.len() - start) as u16;
        self.line += 1;
        Ok(&self.numbers[start..])
    }

    /// Reads the lines of one state.
    fn state(&mut self, ranges: &Ranges) -> Result<(), Refusal> {
        let line = self.take(b"state=", |line| ranges.state(line))?;
        let (items, goes) = (line[0], line[1]);
        for _ in 0..items {
            self.take(b"item=", |line| ranges.item(line))?;
        }
        let mut floor = 0;
        for _ in 0..goes {
            floor = self.take(b"go=", |line| ranges.go(line, floor))?[0] + 1;
        }
        Ok(())
    }

    /// Reads all lines.
    fn sheet(&mut self) -> Result<(), Refusal> {
        let mut ranges = Ranges::new();
        self.take(b"terms=", |line| ranges.terms(line))?;
        self.take(b"nonterms=", |line| ranges.nonterms(line))?;
        self.take(b"rules=", |line| ranges.rules(line))?;
        for _ in 0..ranges.rules {
            self.take(b"rule=", |line| ranges.rule(line))?;
        }
        self.take(b"states=", |line| ranges.states(line))?;
        for _ in 0..ranges.states {
            self.state(&ranges)?;
        }
        if self.at < self.bytes.len() {
            return Err(Refusal::Form { line: self.line });
        }
        Ok(())
    }
}

/// The value of a digit.
#[inline]
fn digit(byte: u8) -> Option<u32> {
    let value = byte.wrapping_sub(b'0');
    (value < 10).then_some(value as u32)
}

/// Reads a sheet. Gives the numbers and the count of lines.
pub fn read(sheet: &[u8]) -> Result<(Vec<u16>, usize), Refusal> {
    if sheet.len() > limits::SHEET {
        return Err(Refusal::TooLarge);
    }
    let numbers = Vec::with_capacity(sheet.len() / 2 + 1);
    let mut reader = Reader { bytes: sheet, at: 0, line: 0, numbers };
    reader.sheet()?;
    Ok((reader.numbers, reader.line))
}

/// Reads a sheet into a slice.
pub fn read_into(sheet: &[u8], slice: &mut [u16]) -> Judgement {
    let (numbers, _) = match read(sheet) {
        Ok(read) => read,
        Err(refusal) => return refusal.into(),
    };
    let needed = numbers.len();
    match slice.get_mut(..needed) {
        Some(front) => front.copy_from_slice(&numbers),
        None => return Refusal::Slice { needed }.into(),
    }
    Judgement { answer: 0, value: needed as u64, steps: 0 }
}
