//! The head of a picture: the title, and notes below it.

use super::labels::{Area, Labels};
use super::paper::{Paper, LEFT, OVERHANG, RIGHT};

/// The head: the line of the title, the first note, and from note to note.
const TITLE: f64 = 34.0;
const FIRST_NOTE: f64 = 57.0;
const NOTE_LINE: f64 = 17.0;
const NOTE_LETTER: f64 = 7.5;
const UNDER_HEAD: f64 = 30.0;

/// A note of the head: its class and its text.
pub type Note = (&'static str, String);

impl Paper {
    /// The title, and notes that are as many lines as they need. It comes before all else,
    /// since the board goes below it.
    pub fn add_head(&mut self, title: &str, notes: &[Note]) {
        self.text(LEFT, TITLE, "title", title);
        let most = self.width() - LEFT - RIGHT / 2.0;
        let mut y = FIRST_NOTE;
        for (class, note) in notes {
            for line in wrapped(note, most) {
                self.text(LEFT, y, class, &line);
                y += NOTE_LINE;
            }
        }
        self.above = y - NOTE_LINE + UNDER_HEAD;
        let (x0, y0) = (LEFT - OVERHANG, self.above - OVERHANG);
        let room =
            Area::new(x0, y0, x0 + self.wide + 2.0 * OVERHANG, y0 + self.high + 2.0 * OVERHANG);
        self.labels = Labels::within(room);
    }
}

pub fn note_width(text: &str) -> f64 {
    NOTE_LETTER * text.chars().count() as f64
}

/// A text in lines of at most so many pixels.
fn wrapped(text: &str, most: f64) -> Vec<String> {
    let mut lines: Vec<String> = vec![String::new()];
    for word in text.split(' ') {
        let line = lines.last_mut().expect("there is a line");
        if line.is_empty() {
            line.push_str(word);
        } else if note_width(line) + note_width(word) + NOTE_LETTER > most {
            lines.push(word.to_string());
        } else {
            line.push(' ');
            line.push_str(word);
        }
    }
    lines
}
