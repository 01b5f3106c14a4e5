//! A difference as text and as a picture.

use std::fmt::Write;
use std::fs;
use std::path::{Path, PathBuf};

use super::{Difference, Form, Found, Report};
use crate::scratch::write;

/// More pieces than this are not printed all, but only the last few.
const MOST_SHOWN: usize = 400;
const LAST_SHOWN: usize = 20;
/// Characters of a line that are printed; a line of a sheet has fewer.
const LONGEST_SHOWN: usize = 500;

/// The text, and the files that go with it.
pub struct Shown {
    pub text: String,
    pub picture: PathBuf,
    pub pieces: PathBuf,
}

impl<F: Form> Report<F> {
    /// What was compared, as a tally.
    pub fn told(&self) -> String {
        let end = if self.found.is_some() { "a difference" } else { "no difference" };
        let others: Vec<String> =
            self.other_ends.iter().map(|(word, count)| format!("{count} {word}")).collect();
        let others =
            if others.is_empty() { String::new() } else { format!(" ({})", others.join(", ")) };
        format!("files {}{others}, {end}\n{}", self.files, self.tally)
    }
}

impl<F: Form> Found<F> {
    /// Shows the difference; the picture and the pieces go to a folder.
    pub fn show(&self, folder: &Path) -> Result<Shown, String> {
        fs::create_dir_all(folder)
            .map_err(|error| format!("cannot make {}: {error}", folder.display()))?;
        let name = format!("difference-{}", self.source);
        let picture = folder.join(format!("{name}.svg"));
        let pieces = folder.join(format!("{name}.{}", F::ENDING));
        write(&pieces, &self.shrunk)?;
        write(&picture, self.picture().as_bytes())?;
        let mut text = self.text();
        let _ = writeln!(text, "picture {}", picture.display());
        let _ = writeln!(text, "{} {}", F::PIECES, pieces.display());
        Ok(Shown { text, picture, pieces })
    }

    /// How many pieces were left by shrinking.
    pub fn shrunk_pieces(&self) -> usize {
        F::split(&self.shrunk).len()
    }

    fn text(&self) -> String {
        format!(
            "difference in {}, {} {}\n{}the fewest {} that show a difference: {}\n\n{}\n{}",
            self.source,
            self.pieces,
            F::PIECES,
            self.whole.text(),
            F::PIECES,
            self.shrunk_pieces(),
            self.pieces_text(),
            self.least.text()
        )
    }

    /// The pieces as text; of very many only the last.
    fn pieces_text(&self) -> String {
        let pieces = F::split(&self.shrunk);
        if pieces.len() <= MOST_SHOWN {
            return F::text(&self.shrunk);
        }
        let left_out = pieces.len() - LAST_SHOWN;
        let rest = F::text(&pieces[left_out..].concat());
        format!("# {left_out} {} before these are in the file below\n{rest}", F::PIECES)
    }

    /// The board before the piece that differs, or after the whole file.
    fn picture(&self) -> String {
        let pieces = F::split(&self.shrunk);
        let at = F::piece_of_line(&pieces, self.least.line).unwrap_or(pieces.len());
        F::scene(&pieces[..at], pieces.get(at).copied(), &self.least).svg()
    }
}

impl Difference {
    fn text(&self) -> String {
        let line = |line: &Option<String>| match line {
            None => "no such line".to_string(),
            Some(line) => match line.strip_suffix('\n') {
                Some(line) => shortened(line),
                None => format!("{} and no line end", shortened(line)),
            },
        };
        let fault = self.fault.as_ref().map(|what| format!("the program {what}\n"));
        format!(
            "line {}\n  second router: {}\n  program:       {}\n{}",
            self.line,
            line(&self.own),
            line(&self.other),
            fault.unwrap_or_default()
        )
    }
}

/// A line of any length, so that it can be read.
fn shortened(line: &str) -> String {
    match line.char_indices().nth(LONGEST_SHOWN) {
        None => line.to_string(),
        Some((end, _)) => format!("{}... ({} bytes)", &line[..end], line.len()),
    }
}
