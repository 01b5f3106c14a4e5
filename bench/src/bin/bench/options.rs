//! The words after a command: options with their values, and the rest.

use crate::outcome::{usage, Failure};

pub struct Options<'a> {
    words: Vec<&'a str>,
}

impl<'a> Options<'a> {
    pub fn of(words: &[&'a str]) -> Options<'a> {
        Options { words: words.to_vec() }
    }

    /// Is the option there? It is taken out.
    pub fn flag(&mut self, name: &str) -> bool {
        let count = self.words.len();
        self.words.retain(|word| *word != name);
        self.words.len() < count
    }

    /// The words after an option, if it is there; both are taken out.
    pub fn values<const N: usize>(&mut self, name: &str) -> Result<Option<[&'a str; N]>, Failure> {
        let Some(at) = self.words.iter().position(|word| *word == name) else { return Ok(None) };
        let values = self.words.get(at + 1..at + 1 + N).and_then(|words| words.try_into().ok());
        let Some(values) = values else {
            let lacks =
                if N == 1 { "lacks its value".to_string() } else { format!("takes {N} numbers") };
            return usage(format!("{name} {lacks}"));
        };
        self.words.drain(at..at + 1 + N);
        Ok(Some(values))
    }

    pub fn value(&mut self, name: &str) -> Result<Option<&'a str>, Failure> {
        Ok(self.values::<1>(name)?.map(|[value]| value))
    }

    /// Numbers after an option.
    pub fn numbers<const N: usize>(&mut self, name: &str) -> Result<Option<[u16; N]>, Failure> {
        let Some(words) = self.values::<N>(name)? else { return Ok(None) };
        let mut numbers = [0; N];
        for (number, word) in numbers.iter_mut().zip(words) {
            *number =
                word.parse().or_else(|_| usage(format!("{name}: '{word}' is not a number")))?;
        }
        Ok(Some(numbers))
    }

    /// What is left, none of it an option; `takes` says what the command knows.
    pub fn rest(self, takes: &str) -> Result<Vec<&'a str>, Failure> {
        match self.words.iter().find(|word| word.starts_with('-') && **word != "-") {
            Some(_) => usage(takes),
            None => Ok(self.words),
        }
    }
}
