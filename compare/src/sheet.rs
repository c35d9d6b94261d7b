//! The reader of sheets: bytes to lines, line by line.
use crate::answer::{Judgement, Refusal};
use crate::layout::{walk, Source, Walked};
use crate::limits;

/// The byte that ends a line.
pub const LF: u8 = b'\n';

/// The bytes of a sheet that are not read yet.
struct Bytes<'a> {
    rest: &'a [u8],
}

impl Source for Bytes<'_> {
    fn line(&mut self, key: &str) -> Option<Vec<u32>> {
        let end = self.rest.iter().position(|&b| b == LF)?;
        let (text, rest) = self.rest.split_at(end);
        self.rest = &rest[1..];
        values(text, key)
    }

    fn empty(&self) -> bool {
        self.rest.is_empty()
    }

    fn fault(&self, line: usize) -> Refusal {
        Refusal::Form { line }
    }
}

/// The numbers of a line `key=value` without its LF. None: wrong key or number form.
pub fn values(text: &[u8], key: &str) -> Option<Vec<u32>> {
    let value = text.strip_prefix(key.as_bytes())?.strip_prefix(b"=")?;
    if value.is_empty() {
        return Some(Vec::new());
    }
    value.split(|&b| b == b' ').map(number).collect()
}

/// A number in its right form: 1 to 5 digits, no leading zero except 0 itself.
fn number(word: &[u8]) -> Option<u32> {
    let digits = limits::DIGITS.contains(&word.len()) && word.iter().all(u8::is_ascii_digit);
    let padded = word.len() > 1 && word[0] == b'0';
    (digits && !padded).then(|| word.iter().fold(0, |n, &d| n * 10 + (d - b'0') as u32))
}

/// Reads a sheet.
pub fn read(sheet: &[u8]) -> Result<Walked, Refusal> {
    if sheet.len() > limits::SHEET {
        return Err(Refusal::TooLarge);
    }
    walk(&mut Bytes { rest: sheet })
}

/// Reads a sheet into a slice: 0 with the count of numbers, or a refusal that leaves the slice as it was.
pub fn read_into(sheet: &[u8], slice: &mut [u16]) -> Judgement {
    let read = read(sheet).and_then(|walked| {
        let needed = walked.numbers.len();
        let front = slice.get_mut(..needed).ok_or(Refusal::Slice { needed })?;
        front.copy_from_slice(&walked.numbers);
        Ok(needed)
    });
    match read {
        Ok(count) => Judgement { answer: 0, value: count as u64, steps: 0 },
        Err(refusal) => refusal.into(),
    }
}
