//! What bytes look like, for those who were handed the wrong file.
//!
//! Any bytes are a record file of some kind, each record of which gets its code. But a
//! text has no control characters, and a record file is full of them: byte 1 of every
//! good record is 0.

use crate::text::known_words;

#[derive(Clone, Copy, PartialEq, Eq, Debug)]
pub enum Looks {
    Empty,
    /// Text of 16-bit characters, as some editors save it.
    WideText,
    /// Text; does its first line begin with a word that a text of records has?
    Text {
        known: bool,
    },
    Records,
}

impl Looks {
    pub fn of(bytes: &[u8]) -> Looks {
        if bytes.is_empty() {
            return Looks::Empty;
        }
        if bytes.starts_with(b"\xff\xfe") || bytes.starts_with(b"\xfe\xff") {
            return Looks::WideText;
        }
        match readable(bytes) {
            Some(text) if !text.chars().any(is_odd) => Looks::Text { known: begins_known(text) },
            _ if mostly_text(bytes) => Looks::Text { known: false },
            _ => Looks::Records,
        }
    }

    pub fn is_text(self) -> bool {
        matches!(self, Looks::Text { .. })
    }
}

/// The bytes as UTF-8; the beginning of a file may end within a character.
fn readable(bytes: &[u8]) -> Option<&str> {
    match std::str::from_utf8(bytes) {
        Ok(text) => Some(text),
        Err(error) if error.error_len().is_none() => {
            std::str::from_utf8(&bytes[..error.valid_up_to()]).ok()
        }
        Err(_) => None,
    }
}

/// Characters that no text has.
fn is_odd(c: char) -> bool {
    c.is_control() && !matches!(c, '\t' | '\r' | '\n' | '\u{c}')
}

/// Text with bytes of an older alphabet in it, as in its comments.
fn mostly_text(bytes: &[u8]) -> bool {
    let plain = |byte: &u8| *byte >= 0x20 || matches!(byte, b'\t' | b'\r' | b'\n' | 0xc);
    bytes.iter().all(plain) && bytes.iter().filter(|byte| byte.is_ascii()).count() * 2 > bytes.len()
}

fn begins_known(text: &str) -> bool {
    let text = text.trim_start_matches('\u{feff}');
    let lines = text.lines().map(|line| line.split('#').next().unwrap_or(""));
    let first = lines.flat_map(str::split_ascii_whitespace).next();
    first.map_or(text.contains('#'), |first| known_words().any(|word| word == first))
}
