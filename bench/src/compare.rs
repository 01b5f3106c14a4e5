//! Compares the sheets of a program with the second router's, byte for byte.
//!
//! Three forms of files are compared, `Records`, `Drawn` and `Crowding`; what
//! differs between them is said by the trait `Form`, and all else is here once.

mod crowding;
mod drawn;
mod form;
mod plan;
mod records;
mod rival;
mod show;
mod shrink;
mod wanted;

use std::collections::BTreeMap;
use std::fs;
use std::marker::PhantomData;
use std::path::PathBuf;
use std::time::Duration;

pub use crowding::Crowding;
pub use drawn::Drawn;
pub use form::{Form, Printed};
pub use plan::Made;
pub use records::Records;
pub use rival::{Rival, Run};
pub use show::Shown;
pub use shrink::shrink;
pub use wanted::Wanted;

pub const DEFAULT_SEED: u64 = 1;
/// How long a difference is shrunk at most.
const PATIENCE: Duration = Duration::from_secs(60);

/// A file to compare.
pub enum Source {
    Made(Made),
    Named(PathBuf),
}

impl Source {
    /// A name that can be a file's.
    pub fn name(&self) -> String {
        match self {
            Source::Made(made) => made.name(),
            Source::Named(path) => {
                let stem = path.file_stem().unwrap_or(path.as_os_str());
                stem.to_string_lossy().into_owned()
            }
        }
    }

    fn file(&self) -> Result<Vec<u8>, String> {
        match self {
            Source::Made(made) => Ok(made.file()),
            Source::Named(path) => {
                fs::read(path).map_err(|error| format!("cannot read {}: {error}", path.display()))
            }
        }
    }
}

/// How two sheets of one file differ.
pub struct Difference {
    /// From 1, the first line that differs.
    line: usize,
    /// That line of either; `None` where a sheet has ended before.
    own: Option<String>,
    other: Option<String>,
    /// What else is wrong with the program.
    fault: Option<String>,
}

/// A difference, the file that showed it and the fewest pieces that do.
pub struct Found<F> {
    source: String,
    pieces: usize,
    whole: Difference,
    shrunk: Vec<u8>,
    least: Difference,
    form: PhantomData<F>,
}

/// What was compared, up to the first difference.
pub struct Report<F: Form = Records> {
    pub files: usize,
    /// How many of the files end otherwise than in `end`, by their last word.
    pub other_ends: BTreeMap<&'static str, usize>,
    pub tally: F::Tally,
    pub found: Option<Found<F>>,
}

impl<F: Form> Default for Report<F> {
    fn default() -> Report<F> {
        let (tally, other_ends) = (F::Tally::default(), BTreeMap::new());
        Report { files: 0, other_ends, tally, found: None }
    }
}

/// How far a comparison is.
pub enum Step<'a, F: Form> {
    Compared(&'a Report<F>),
    /// A difference was found in this file and is being shrunk.
    Shrinking(&'a str),
}

/// Compares the program's sheets with the second router's until one differs.
pub fn compare<F: Form>(
    rival: &Rival,
    sources: &[Source],
    mut progress: impl FnMut(Step<F>),
) -> Result<Report<F>, String> {
    let mut report = Report::default();
    for source in sources {
        let file = source.file()?;
        let (printed, difference) = difference::<F>(rival, &file)?;
        report.files += 1;
        if let Some(word) = printed.other_end {
            *report.other_ends.entry(word).or_default() += 1;
        }
        F::add(&mut report.tally, &printed.tally);
        if let Some(whole) = difference {
            progress(Step::Shrinking(&source.name()));
            report.found = Some(found(rival, source.name(), &file, whole)?);
            break;
        }
        progress(Step::Compared(&report));
    }
    Ok(report)
}

/// What the second router prints for a file, and the first difference of the
/// program's sheet from it.
fn difference<F: Form>(
    rival: &Rival,
    file: &[u8],
) -> Result<(Printed<F::Tally>, Option<Difference>), String> {
    let printed = F::print(file);
    let run = rival.run(file, F::split(file).len())?;
    if run.sheet == printed.sheet && run.fault.is_none() {
        return Ok((printed, None));
    }
    let (own, other) = (lines(&printed.sheet), lines(&run.sheet));
    let same = own.iter().zip(&other).take_while(|(own, other)| own == other).count();
    let line =
        |lines: &[&[u8]]| lines.get(same).map(|line| String::from_utf8_lossy(line).into_owned());
    let difference =
        Difference { line: same + 1, own: line(&own), other: line(&other), fault: run.fault };
    Ok((printed, Some(difference)))
}

/// The lines of a sheet, each with its line end if it has one.
fn lines(sheet: &[u8]) -> Vec<&[u8]> {
    sheet.split_inclusive(|&byte| byte == b'\n').collect()
}

fn found<F: Form>(
    rival: &Rival,
    source: String,
    file: &[u8],
    whole: Difference,
) -> Result<Found<F>, String> {
    let pieces = F::split(file);
    let first = F::piece_of_line(&pieces, whole.line).map(|index| index + 1);
    // A run that fails while shrinking shows nothing.
    let differs = |file: &[u8]| matches!(difference::<F>(rival, file), Ok((_, Some(_))));
    let shrunk = shrink::<F>(file, first, PATIENCE, differs);
    let (_, least) = difference::<F>(rival, &shrunk)?;
    let least = least.ok_or_else(|| {
        format!("{source}: the program differs in one run and not in the next on the same file")
    })?;
    Ok(Found { source, pieces: pieces.len(), whole, shrunk, least, form: PhantomData })
}
