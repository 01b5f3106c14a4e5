//! What comes in: files and standard input, and words for those that are not what was
//! wanted.

use std::fs::{self, File};
use std::io::{self, Chain, Cursor, IsTerminal, Read, Stdin};

use bench::looks::Looks;
use bench::story::Script;
use bench::text::{self, Line};

use crate::outcome::{bad_lines, unread, warn, Failure};

/// Enough of a file to see what it looks like.
const HEAD_BYTES: u64 = 4096;

/// What a command wants to read.
#[derive(Clone, Copy)]
pub enum Wanted {
    Records,
    Pieces,
    Text,
}

/// The bytes of a file, or of standard input if it is `-` or not named, with its name.
pub fn read(path: Option<&str>) -> Result<(String, Vec<u8>), Failure> {
    match path {
        None | Some("-") => Ok((STANDARD.to_string(), read_standard()?)),
        Some(path) => Ok((path.to_string(), read_file(path)?)),
    }
}

const STANDARD: &str = "standard input";

pub fn read_standard() -> Result<Vec<u8>, Failure> {
    tell_terminal();
    let mut bytes = Vec::new();
    io::stdin().read_to_end(&mut bytes).map_err(unread)?;
    Ok(bytes)
}

/// One who has named no file may not know that it is waited for.
fn tell_terminal() {
    if io::stdin().is_terminal() {
        warn("reading from the terminal; Ctrl-D ends it");
    }
}

pub fn read_file(path: &str) -> Result<Vec<u8>, Failure> {
    check_file(path)?;
    fs::read(path).map_err(|error| cannot_read(path, &error))
}

fn check_file(path: &str) -> Result<(), Failure> {
    match fs::metadata(path) {
        Err(error) if error.kind() == io::ErrorKind::NotFound => {
            Err(Failure::Told(format!("cannot read {path}: there is no such file")))
        }
        Err(error) => Err(cannot_read(path, &error)),
        Ok(about) if about.is_dir() => {
            Err(Failure::Told(format!("cannot read {path}: it is a folder, not a file")))
        }
        Ok(_) => Ok(()),
    }
}

fn cannot_read(path: &str, error: &io::Error) -> Failure {
    Failure::Told(format!("cannot read {path}: {error}"))
}

/// Standard input, after a look at its beginning.
pub struct Stream {
    pub input: Chain<Cursor<Vec<u8>>, Stdin>,
    empty: bool,
}

pub fn stream(wanted: Wanted) -> Result<Stream, Failure> {
    tell_terminal();
    let mut head = Vec::new();
    io::stdin().take(HEAD_BYTES).read_to_end(&mut head).map_err(unread)?;
    let empty = head.is_empty();
    if !empty {
        check_looks(STANDARD, &head, wanted)?;
    }
    Ok(Stream { input: Cursor::new(head).chain(io::stdin()), empty })
}

/// Says that there was nothing, once all is done.
pub fn tell_empty(empty: bool) {
    if empty {
        warn(&format!("{STANDARD} is empty"));
    }
}

impl Stream {
    pub fn is_empty(&self) -> bool {
        self.empty
    }
}

/// Sees that a named file is what is wanted. A pipe can be read only once, so it is not
/// looked into.
pub fn check_named(path: &str, wanted: Wanted) -> Result<(), Failure> {
    check_file(path)?;
    if !fs::metadata(path).is_ok_and(|about| about.is_file()) {
        return Ok(());
    }
    let mut head = Vec::new();
    let file = File::open(path).map_err(|error| cannot_read(path, &error))?;
    file.take(HEAD_BYTES).read_to_end(&mut head).map_err(|error| cannot_read(path, &error))?;
    check_looks(path, &head, wanted)
}

/// All of standard input, if it looks like what is wanted.
pub fn read_wanted(wanted: Wanted) -> Result<Vec<u8>, Failure> {
    let bytes = read_standard()?;
    check_looks(STANDARD, &bytes, wanted)?;
    Ok(bytes)
}

/// Fails if the bytes are clearly something else. Nothing at all is fine, and told.
pub fn check_looks(name: &str, bytes: &[u8], wanted: Wanted) -> Result<(), Failure> {
    let told = |what: &str| Err(Failure::Told(format!("{name} is {what}")));
    match (Looks::of(bytes), wanted) {
        (Looks::Empty, _) => {
            warn(&format!("{name} is empty"));
            Ok(())
        }
        (Looks::WideText, Wanted::Text) => told("text of 16-bit characters; save it as UTF-8"),
        (Looks::Records, Wanted::Text) => {
            told("no text, but looks like records; 'bench unpack' makes text of them")
        }
        (Looks::Text { known: true }, Wanted::Records) => {
            told("text, not records; 'bench pack' makes records of it")
        }
        (Looks::Text { known: true }, Wanted::Pieces) => {
            told("text, not pieces; 'bench pack drawn' makes pieces of it")
        }
        _ => Ok(()),
    }
}

/// A record file, from records or from text.
pub fn script(name: &str, bytes: Vec<u8>) -> Result<Script, Failure> {
    let looks = Looks::of(&bytes);
    if looks == Looks::WideText {
        check_looks(name, &bytes, Wanted::Text)?;
    }
    if !looks.is_text() {
        return Ok(Script::of_records(bytes));
    }
    let lines = text::records(&bytes).map_err(|bad| bad_lines(&bad))?;
    Ok(Script::of_text(&lines))
}

/// The same, with words for what is hardly meant.
pub fn script_warned(name: &str, bytes: Vec<u8>) -> Result<Script, Failure> {
    if bytes.is_empty() {
        warn(&format!("{name} is empty"));
    } else if Looks::of(&bytes).is_text() {
        let lines = text::records(&bytes).map_err(|bad| bad_lines(&bad))?;
        warn_of(&lines);
        if lines.is_empty() {
            warn(&format!("{name} has no records"));
        }
    }
    script(name, bytes)
}

/// Tells of lines that are packed and yet hardly meant so.
pub fn warn_of(lines: &[Line]) {
    for line in lines {
        if let Some(warning) = line.warning() {
            warn(&format!("line {}: warning: {warning}", line.number));
        }
    }
}
