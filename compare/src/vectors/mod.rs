//! Tables as numbers with the check's answer, stated by hand.
mod broken;
mod full;
mod lines;
mod passing;
mod refused;

use crate::edit::raw;
use crate::table::Table;

/// A table as numbers with its stated answer.
pub struct Vector {
    pub name: String,
    /// The sheet with these lines, where there is one.
    pub sheet: Option<Vec<u8>>,
    /// The first numbers.
    pub numbers: Vec<u16>,
    /// The count of all numbers.
    pub length: usize,
    /// What every number after the first ones is.
    pub fill: u16,
    pub answer: u64,
    pub value: u64,
    /// For answer 22: every condition that is broken, rising.
    pub broken: Vec<usize>,
}

impl Vector {
    /// A vector of numbers as they stand.
    fn of(name: &str, numbers: Vec<u16>, answer: u64, value: u64) -> Vector {
        let length = numbers.len();
        Vector { name: name.to_string(), sheet: None, numbers, length, fill: 0, answer, value, broken: Vec::new() }
    }

    /// A vector of a made table.
    fn made(name: &str, table: &Table, answer: u64, value: u64) -> Vector {
        Vector { sheet: Some(table.sheet()), ..Vector::of(name, table.numbers(), answer, value) }
    }

    /// A vector of a sheet's lines.
    fn sheet(name: &str, sheet: &str, answer: u64, value: u64) -> Vector {
        Vector { sheet: Some(sheet.into()), ..Vector::of(name, raw(sheet), answer, value) }
    }

    /// A vector of a sheet that breaks these conditions and no other.
    fn breaks(name: &str, sheet: &str, broken: &[usize]) -> Vector {
        Vector { broken: broken.to_vec(), ..Vector::sheet(name, sheet, 22, 0) }
    }

    /// The same with numbers added up to a length.
    fn filled(self, length: usize, fill: u16) -> Vector {
        Vector { length, fill, ..self }
    }

    /// All numbers of the table.
    pub fn table(&self) -> Vec<u16> {
        let rest = std::iter::repeat_n(self.fill, self.length - self.numbers.len());
        self.numbers.iter().copied().chain(rest).collect()
    }
}

/// All vectors for the table check.
pub fn table() -> Vec<Vector> {
    [passing::vectors(), broken::vectors(), refused::vectors(), lines::vectors()].into_iter().flatten().collect()
}

/// Vectors for the table check of about as many numbers as a table may have.
pub fn large() -> Vec<Vector> {
    full::vectors()
}

/// The vectors as text, one line each: its number, the count of all numbers, the number that fills up, then the first numbers.
pub fn text(vectors: &[Vector]) -> String {
    let line = |(k, vector): (usize, &Vector)| {
        let words: String = vector.numbers.iter().map(|number| format!(" {number}")).collect();
        format!("{k} {} {}{words}\n", vector.length, vector.fill)
    };
    vectors.iter().enumerate().map(line).collect()
}

/// The stated answers as text, one line each: the vector's number, answer, value.
pub fn expected(vectors: &[Vector]) -> String {
    let line = |(k, vector): (usize, &Vector)| format!("{k} {} {}\n", vector.answer, vector.value);
    vectors.iter().enumerate().map(line).collect()
}

/// The vectors' names as text, with the conditions that are broken.
pub fn names(vectors: &[Vector]) -> String {
    let line = |(k, vector): (usize, &Vector)| {
        let broken: String = vector.broken.iter().map(|condition| format!(" {condition}")).collect();
        let note = if broken.is_empty() { String::new() } else { format!(" (breaks{broken})") };
        format!("{k} {}: {} {}{note}\n", vector.name, vector.answer, vector.value)
    };
    vectors.iter().enumerate().map(line).collect()
}
