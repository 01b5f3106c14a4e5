//! What a command line asks to be compared.

use std::path::{Path, PathBuf};

use super::{Form, Source, DEFAULT_SEED};
use crate::launch::proved;

pub struct Wanted {
    pub program: PathBuf,
    count: usize,
    seed: u64,
    named: Vec<PathBuf>,
}

impl Wanted {
    /// Reads options, each at most once counted (the last one stands), and the
    /// names of files.
    pub fn read<F: Form>(args: &[&str]) -> Result<Wanted, String> {
        let mut wanted = Wanted {
            program: proved(F::PROGRAM),
            count: F::DEFAULT_COUNT,
            seed: DEFAULT_SEED,
            named: Vec::new(),
        };
        let mut words = args.iter();
        while let Some(word) = words.next() {
            if !word.starts_with("--") {
                wanted.named.push(PathBuf::from(word));
                continue;
            }
            let value = words.next();
            let value = || value.copied().ok_or_else(|| format!("{word} lacks its value"));
            match *word {
                option if option == F::OPTION => wanted.count = number(word, value()?)?,
                "--seed" => wanted.seed = number(word, value()?)?,
                // A bare name is a file here, not a command to look for.
                "--program" => wanted.program = Path::new(".").join(value()?),
                _ => return Err(format!("compare does not know {word}")),
            }
        }
        Ok(wanted)
    }

    pub fn named(&self) -> &[PathBuf] {
        &self.named
    }

    /// The named files, or random ones if none is named.
    pub fn sources<F: Form>(&self) -> Vec<Source> {
        if self.named.is_empty() {
            return F::files(self.count, self.seed).into_iter().map(Source::Made).collect();
        }
        self.named.iter().cloned().map(Source::Named).collect()
    }
}

fn number<T: std::str::FromStr>(word: &str, digits: &str) -> Result<T, String> {
    digits.parse().map_err(|_| format!("{word} is '{digits}', not a number"))
}
