//! The judging program's outcome for any byte string.
use crate::answer::{Judgement, Refusal};
use crate::check;
use crate::fast;
use crate::judge::{judge, Machine};
use crate::sheet::{self, LF};
use crate::traps::Mistaken;

/// What a judging program can hold.
#[derive(Clone, Copy, Debug)]
pub struct Sizes {
    /// Bytes of its input.
    pub bytes: usize,
    /// Numbers of its table.
    pub numbers: usize,
    /// Tokens of its tail.
    pub tokens: usize,
    /// Words of its room.
    pub room: usize,
}

/// The small box.
pub const SMALL: Sizes = Sizes { bytes: 16_000, numbers: 8_000, tokens: 400, room: 8_192 };

/// The numbers of a sheet and the count of its lines.
type Read = Result<(Vec<u16>, usize), Refusal>;

/// What a program is made of.
struct Parts {
    read: fn(&[u8]) -> Read,
    check: fn(&[u16]) -> Result<(), Refusal>,
    judge: fn(&[u16], &[u16], &mut [u32]) -> Judgement,
}

/// The plain parts.
const PLAIN: Parts = Parts {
    read: |sheet| sheet::read(sheet).map(|walked| (walked.numbers, walked.lines)),
    check: |numbers| check::check(numbers).map(drop),
    judge,
};

/// The parts made for speed.
const FAST: Parts =
    Parts { read: fast::reader::read, check: |numbers| fast::check::checked(numbers).map(drop), judge: fast::judge };

/// The three numbers that a program of these sizes prints.
pub fn outcome(input: &[u8], sizes: Sizes) -> Judgement {
    judged(input, sizes, &PLAIN).unwrap_or_else(Judgement::from)
}

/// The same with the parts made for speed.
pub fn fast_outcome(input: &[u8], sizes: Sizes) -> Judgement {
    judged(input, sizes, &FAST).unwrap_or_else(Judgement::from)
}

/// The same with a mistake in the forest.
pub fn mistaken_outcome(input: &[u8], sizes: Sizes, mistaken: Mistaken) -> Judgement {
    let right = outcome(input, sizes);
    if right.answer > 1 {
        return right;
    }
    let (sheet, last) = input.split_at(last_line(input));
    let read = sheet::read(sheet).expect("a sheet that was judged by");
    let tail = tail_line(last, read.lines).expect("a tail that was judged");
    mistaken(&Machine::of(&read.table), &tail)
}

/// Reads the sheet, then the tail line, then judges.
fn judged(input: &[u8], sizes: Sizes, parts: &Parts) -> Result<Judgement, Refusal> {
    if input.len() > sizes.bytes {
        return Err(Refusal::TooLarge);
    }
    let (sheet, last) = input.split_at(last_line(input));
    let (numbers, lines) = (parts.read)(sheet)?;
    let needed = numbers.len();
    if needed > sizes.numbers {
        return Err(Refusal::Slice { needed });
    }
    let tail = tail_line(last, lines)?;
    (parts.check)(&numbers)?;
    if tail.len() > sizes.tokens {
        return Err(Refusal::Tokens { most: sizes.tokens });
    }
    Ok((parts.judge)(&numbers, &tail, &mut vec![0; sizes.room]))
}

/// Where the last line begins: after the last LF that is not the last byte.
fn last_line(input: &[u8]) -> usize {
    let text = input.strip_suffix(&[LF]).unwrap_or(input);
    text.iter().rposition(|&b| b == LF).map_or(0, |at| at + 1)
}

/// The tokens of the tail line, which has this number.
fn tail_line(text: &[u8], line: usize) -> Result<Vec<u16>, Refusal> {
    let text = text.strip_suffix(&[LF]).ok_or(Refusal::Form { line })?;
    let numbers = sheet::values(text, "tail").ok_or(Refusal::Form { line })?;
    let tokens = numbers.iter().map(|&number| u16::try_from(number).ok()).collect::<Option<_>>();
    tokens.ok_or(Refusal::Range { line })
}
