//! Damaged inputs: bytes, numbers and lines changed, and byte strings of chance.
use crate::chance::Chance;
use crate::sheet::LF;

/// Damages an input in one place.
pub fn damage(input: &mut Vec<u8>, chance: &mut Chance) {
    match chance.below(9) {
        0 => change_byte(input, chance),
        1 => input.insert(chance.below(input.len() + 1), byte(chance)),
        2 => drop_byte(input, chance),
        3 => input.truncate(chance.below(input.len() + 1)),
        4..=5 => lines(input, chance),
        _ => numbers(input, chance),
    }
}

/// A byte, mostly one that sheets have.
fn byte(chance: &mut Chance) -> u8 {
    const USUAL: &[u8] = b"0123456789 =\n\r\t\0tersmnonulgaid-+x";
    if chance.once_in(4) {
        chance.below(256) as u8
    } else {
        *chance.pick(USUAL)
    }
}

fn change_byte(input: &mut [u8], chance: &mut Chance) {
    if !input.is_empty() {
        let at = chance.below(input.len());
        input[at] = byte(chance);
    }
}

fn drop_byte(input: &mut Vec<u8>, chance: &mut Chance) {
    if !input.is_empty() {
        input.remove(chance.below(input.len()));
    }
}

/// Drops, doubles, swaps or moves lines.
fn lines(input: &mut Vec<u8>, chance: &mut Chance) {
    let mut lines: Vec<Vec<u8>> = input.split_inclusive(|&b| b == LF).map(<[u8]>::to_vec).collect();
    if lines.is_empty() {
        return;
    }
    let (a, b) = (chance.below(lines.len()), chance.below(lines.len()));
    match chance.below(5) {
        0 => drop(lines.remove(a)),
        1 => lines.insert(b, lines[a].clone()),
        2 => lines.swap(a, b),
        3 => lines.insert(a, vec![LF]),
        _ => {
            let line = lines.remove(a);
            lines.insert(b.min(lines.len()), line);
        }
    }
    *input = lines.concat();
}

/// Changes the numbers of one line.
fn numbers(input: &mut Vec<u8>, chance: &mut Chance) {
    let mut lines: Vec<Vec<u8>> = input.split(|&b| b == LF).map(<[u8]>::to_vec).collect();
    let at = chance.below(lines.len());
    let text = String::from_utf8_lossy(&lines[at]).into_owned();
    let Some((key, value)) = text.split_once('=') else { return };
    let mut words: Vec<String> = value.split(' ').map(str::to_string).collect();
    let place = chance.below(words.len());
    match chance.below(8) {
        0 => drop(words.remove(place)),
        1 => words.insert(place, number(chance)),
        2 => words[place] = number(chance),
        3 => words[place].insert(0, '0'),
        4 => words.push(String::new()),
        5 => words.swap(0, place),
        _ => words[place] = neighbour(&words[place], chance),
    }
    lines[at] = format!("{key}={}", words.join(" ")).into_bytes();
    *input = lines.join(&LF);
}

/// A number of any size, mostly small, at times too large for its place or its form.
fn number(chance: &mut Chance) -> String {
    let bound = *chance.pick(&[4, 10, 70, 140, 220, 70_000, 100_000, 1_000_000]);
    chance.below(bound).to_string()
}

/// A number one above or below; anything else stays.
fn neighbour(word: &str, chance: &mut Chance) -> String {
    match word.parse::<u64>() {
        Ok(n) if chance.once_in(2) => (n + 1).to_string(),
        Ok(n) => n.saturating_sub(1).to_string(),
        Err(_) => word.to_string(),
    }
}

/// A byte string of chance: any bytes, or bytes that sheets have.
pub fn bytes(chance: &mut Chance) -> Vec<u8> {
    let most = *chance.pick(&[4, 40, 400]);
    let length = chance.below(most);
    let any = chance.once_in(2);
    (0..length).map(|_| if any { chance.below(256) as u8 } else { byte(chance) }).collect()
}
