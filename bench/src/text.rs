//! Records and drawn wires as readable text, one a line, and records back.

use std::fmt::Write;

use crate::limits::RECORD_BYTES;
use crate::record::{Fields, Record};

/// How a kind of record is written: its word and the names of its numbers. The
/// id goes where ids go, the others fill a b c d from the left.
struct Form {
    word: &'static str,
    kind: u8,
    names: &'static [&'static str],
}

const ID: &str = "id";

const FORMS: [Form; 8] = [
    Form { word: "bounds", kind: 1, names: &["W", "H", "clearance"] },
    Form { word: "keepout", kind: 2, names: &[ID, "x0", "y0", "x1", "y1"] },
    Form { word: "lay", kind: 3, names: &[ID, "sx", "sy", "tx", "ty"] },
    Form { word: "ask", kind: 4, names: &["sx", "sy", "tx", "ty"] },
    Form { word: "takeout", kind: 5, names: &[ID] },
    Form { word: "undo", kind: 6, names: &[] },
    Form { word: "askstraight", kind: 8, names: &["sx", "sy", "tx", "ty"] },
    Form { word: "laystraight", kind: 9, names: &[ID, "sx", "sy", "tx", "ty"] },
];

/// The word of a line that gives a record byte by byte, in hexadecimal.
const RAW: &str = "bytes";
/// The word of a drawn wire, and of bytes that are no piece of a file with
/// drawn wires, in hexadecimal. A record file has neither.
pub const DRAW: &str = "draw";
pub const REST: &str = "rest";
/// A piece counts the numbers of a drawn wire in one byte.
const MOST_NUMBERS: usize = u8::MAX as usize;

/// A line that cannot be packed.
#[derive(Debug, PartialEq, Eq)]
pub struct BadLine {
    pub line: usize,
    pub what: String,
}

/// A line that is not blank.
pub struct Line<'a> {
    /// From 1.
    pub number: usize,
    /// Without the comment.
    pub words: Vec<&'a str>,
    pub content: Content,
}

/// What a line stands for.
pub enum Content {
    /// Twelve bytes; the last record may have fewer.
    Record(Vec<u8>),
    Draw(Vec<u16>),
    Rest(Vec<u8>),
}

/// Some editors begin a text with this mark of its byte order.
const BYTE_ORDER_MARK: &[u8] = b"\xef\xbb\xbf";

/// Reads a text. Blank lines and what follows a `#` are skipped. All lines that
/// cannot be read are told.
pub fn read(text: &[u8]) -> Result<Vec<Line<'_>>, Vec<BadLine>> {
    let text = text.strip_prefix(BYTE_ORDER_MARK).unwrap_or(text);
    let (mut lines, mut bad): (Vec<Line>, Vec<BadLine>) = (Vec::new(), Vec::new());
    for (index, line) in text.split(|&byte| byte == b'\n').enumerate() {
        match read_line(line, index + 1, lines.last()) {
            Ok(line) => lines.extend(line),
            Err(what) => bad.push(BadLine { line: index + 1, what }),
        }
    }
    if bad.is_empty() {
        Ok(lines)
    } else {
        Err(bad)
    }
}

/// A line, unless it is blank; `before` is the one before it.
fn read_line<'a>(
    line: &'a [u8],
    number: usize,
    before: Option<&Line>,
) -> Result<Option<Line<'a>>, String> {
    let words = words_of(line)?;
    let Some((word, rest)) = words.split_first() else { return Ok(None) };
    let content = content(word, rest)?;
    if let Some(before) = before {
        before.check_followed_by(&content)?;
    }
    Ok(Some(Line { number, words, content }))
}

impl Line<'_> {
    /// The bytes of its record; none if it stands for something else.
    pub fn record(&self) -> &[u8] {
        match &self.content {
            Content::Record(bytes) => bytes,
            Content::Draw(_) | Content::Rest(_) => &[],
        }
    }

    fn no_record(&self) -> Option<BadLine> {
        let word = self.words.first()?;
        let what = format!(
            "a record file holds no '{word}'; 'bench pack drawn' packs it, 'bench judge' tells of it"
        );
        let other = !matches!(self.content, Content::Record(_));
        other.then_some(BadLine { line: self.number, what })
    }

    /// Is it packed as it stands, and yet hardly meant so? An id or a size of 0 is
    /// refused by every board.
    pub fn warning(&self) -> Option<String> {
        let form = FORMS.iter().find(|form| self.words.first() == Some(&form.word))?;
        let sized = form.kind == 1;
        let zero = |(name, digits): (&&'static str, &&str)| {
            let nought = digits.bytes().all(|digit| digit == b'0');
            (nought && (sized || *name == ID)).then_some(*name)
        };
        let name = form.names.iter().zip(&self.words[1..]).find_map(zero)?;
        let code = if sized { 3 } else { 1 };
        Some(format!("{name} is 0, which gets code {code}"))
    }

    fn check_followed_by(&self, next: &Content) -> Result<(), String> {
        let number = self.number;
        match (&self.content, next) {
            (Content::Record(bytes), _) if bytes.len() < RECORD_BYTES => Err(format!(
                "line {number} gave under {RECORD_BYTES} bytes, which only the last record may"
            )),
            (Content::Rest(_), Content::Record(_) | Content::Draw(_)) => {
                Err(format!("line {number} began the {REST}, so only more of it may follow"))
            }
            _ => Ok(()),
        }
    }
}

/// Turns text into records.
pub fn pack(text: &[u8]) -> Result<Vec<u8>, Vec<BadLine>> {
    Ok(joined(&records(text)?))
}

/// The lines of a text that has nothing but records.
pub fn records(text: &[u8]) -> Result<Vec<Line<'_>>, Vec<BadLine>> {
    let lines = read(text)?;
    let others: Vec<BadLine> = lines.iter().filter_map(Line::no_record).collect();
    if others.is_empty() {
        Ok(lines)
    } else {
        Err(others)
    }
}

/// The record file of such lines.
pub fn joined(lines: &[Line]) -> Vec<u8> {
    lines.iter().flat_map(Line::record).copied().collect()
}

fn words_of(line: &[u8]) -> Result<Vec<&str>, String> {
    let line = std::str::from_utf8(line)
        .map_err(|_| "not readable as text: it is not UTF-8".to_string())?;
    let before_comment = line.split('#').next().unwrap_or("");
    Ok(before_comment.split_ascii_whitespace().collect())
}

fn content(word: &str, rest: &[&str]) -> Result<Content, String> {
    match word {
        DRAW => drawn_numbers(rest).map(Content::Draw),
        REST => raw_rest(rest).map(Content::Rest),
        RAW => raw_record(rest).map(Content::Record),
        _ => pack_record(word, rest).map(Content::Record),
    }
}

fn drawn_numbers(rest: &[&str]) -> Result<Vec<u16>, String> {
    if rest.len() > MOST_NUMBERS {
        return Err(format!("{DRAW} takes up to {MOST_NUMBERS} numbers, not {}", rest.len()));
    }
    let number = |(index, digits): (usize, &&str)| {
        let name = ["x", "y"][index % 2];
        number(&format!("{name} of corner {}", index / 2 + 1), digits)
    };
    rest.iter().enumerate().map(number).collect()
}

fn pack_record(word: &str, rest: &[&str]) -> Result<Vec<u8>, String> {
    let form = FORMS.iter().find(|form| form.word == word).ok_or_else(|| unknown(word))?;
    if rest.len() != form.names.len() {
        return Err(format!("{word} takes {}, not {}", listed(form.names), rest.len()));
    }
    let mut fields = Fields { kind: form.kind, ..Fields::default() };
    let mut places = fields.numbers.iter_mut();
    for (name, digits) in form.names.iter().zip(rest) {
        let number = number(name, digits)?;
        if *name == ID {
            fields.id = number;
        } else {
            *places.next().expect("a form has at most four numbers") = number;
        }
    }
    Ok(fields.join().to_vec())
}

fn listed(names: &[&str]) -> String {
    match names {
        [] => "no numbers".to_string(),
        [name] => format!("1 number ({name})"),
        _ => format!("{} numbers ({})", names.len(), names.join(" ")),
    }
}

fn unknown(word: &str) -> String {
    let known: Vec<&str> = known_words().collect();
    format!("unknown word '{word}'; known are {}", known.join(", "))
}

/// The words that a line can begin with.
pub fn known_words() -> impl Iterator<Item = &'static str> {
    FORMS.iter().map(|form| form.word).chain([RAW, DRAW, REST])
}

fn number(name: &str, digits: &str) -> Result<u16, String> {
    let plain = digits.bytes().all(|byte| byte.is_ascii_digit());
    // A sign would parse too, and does not belong here.
    let number = plain.then(|| digits.parse().ok()).flatten();
    number.ok_or_else(|| format!("{name} is '{digits}', not a number from 0 to {}", u16::MAX))
}

fn raw_record(rest: &[&str]) -> Result<Vec<u8>, String> {
    if rest.is_empty() || rest.len() > RECORD_BYTES {
        return Err(format!("{RAW} takes 1 to {RECORD_BYTES} bytes, not {}", rest.len()));
    }
    bytes(rest)
}

fn raw_rest(rest: &[&str]) -> Result<Vec<u8>, String> {
    if rest.is_empty() {
        return Err(format!("{REST} takes at least 1 byte"));
    }
    bytes(rest)
}

fn bytes(rest: &[&str]) -> Result<Vec<u8>, String> {
    let byte = |digits: &&str| {
        hexadecimal(digits)
            .ok_or_else(|| format!("'{digits}' is not a byte as two hexadecimal digits"))
    };
    rest.iter().map(byte).collect()
}

fn hexadecimal(digits: &str) -> Option<u8> {
    let plain = digits.len() == 2 && digits.bytes().all(|byte| byte.is_ascii_hexdigit());
    plain.then(|| u8::from_str_radix(digits, 16).ok())?
}

/// Turns any file into text that packs to the same bytes.
pub fn unpack(file: &[u8]) -> String {
    let lines = file.chunks(RECORD_BYTES).map(|piece| record_line(piece) + "\n");
    lines.collect()
}

/// A record as a line; bytes that are no record of a plain form are given one by
/// one.
pub fn record_line(piece: &[u8]) -> String {
    plain_line(piece).unwrap_or_else(|| hexadecimal_line(RAW, piece))
}

fn plain_line(piece: &[u8]) -> Option<String> {
    Record::read(piece)?;
    let fields = Fields::split(piece)?;
    let form = FORMS.iter().find(|form| form.kind == fields.kind)?;
    let mut line = String::from(form.word);
    let mut numbers = fields.numbers.iter();
    for name in form.names {
        let number = if *name == ID { Some(&fields.id) } else { numbers.next() };
        write!(line, " {}", number?).expect("a string can be written to");
    }
    Some(line)
}

pub fn hexadecimal_line(word: &str, bytes: &[u8]) -> String {
    let bytes: Vec<String> = bytes.iter().map(|byte| format!("{byte:02x}")).collect();
    format!("{word} {}", bytes.join(" "))
}
