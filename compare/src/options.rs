//! The words after a command: pairs `--name value`, and plain words.
use std::collections::BTreeMap;
use std::str::FromStr;

/// What was asked for.
pub struct Options {
    plain: Vec<String>,
    pairs: BTreeMap<String, String>,
}

impl Options {
    /// Takes the words apart. Names of this list stand alone, all others have a value.
    pub fn of(words: &[String], alone: &[&str]) -> Result<Options, String> {
        let mut options = Options { plain: Vec::new(), pairs: BTreeMap::new() };
        let mut words = words.iter();
        while let Some(word) = words.next() {
            let Some(name) = word.strip_prefix("--") else {
                options.plain.push(word.clone());
                continue;
            };
            let value = match alone.contains(&name) {
                true => String::new(),
                false => words.next().ok_or_else(|| format!("--{name} needs a value"))?.clone(),
            };
            options.pairs.insert(name.to_string(), value);
        }
        Ok(options)
    }

    /// A plain word.
    pub fn word(&self, place: usize) -> Option<&str> {
        self.plain.get(place).map(String::as_str)
    }

    /// Whether a name was given.
    pub fn has(&self, name: &str) -> bool {
        self.pairs.contains_key(name)
    }

    /// The text of a name.
    pub fn text(&self, name: &str) -> Option<&str> {
        self.pairs.get(name).map(String::as_str)
    }

    /// The number of a name, or what it is when it is not given.
    pub fn number<X: FromStr>(&self, name: &str, otherwise: X) -> Result<X, String> {
        match self.text(name) {
            None => Ok(otherwise),
            Some(text) => text.parse().map_err(|_| format!("--{name} {text}: not a number")),
        }
    }

    /// Fails if a name was given that is not in the list.
    pub fn only(&self, names: &[&str]) -> Result<(), String> {
        match self.pairs.keys().find(|name| !names.contains(&name.as_str())) {
            Some(name) => Err(format!("--{name} is not known here")),
            None => Ok(()),
        }
    }
}
