//! Marks beside the board, and what is told of them.

use super::paper::Paper;

/// The length of a mark, half the width of a letter, the least between two words, and the
/// height of a line.
const MARK: f64 = 12.0;
const HALF_LETTER: f64 = 3.2;
const APART: f64 = 5.0;
const LINE: f64 = 13.0;

/// A mark beside the board, at an x or y, and what is told of it.
pub struct Mark {
    pub at: i32,
    pub colour: String,
    pub told: String,
}

impl Paper {
    /// A coloured mark below each x, and above it what is told of it, where there is
    /// room.
    pub fn add_marks_below(&mut self, marks: impl Iterator<Item = Mark>) {
        let (low, high) = (self.y(self.view.y0) + 3.0, self.y(self.view.y1) - 6.0);
        let seen = self.view.x0..=self.view.x1;
        let mut free_from = 0.0;
        for Mark { at, colour, told } in marks.filter(|mark| seen.contains(&mark.at)) {
            let x = self.x(at);
            self.add_mark(&format!("M{x:.2} {low:.2} v{MARK}"), &colour);
            let half_text = HALF_LETTER * told.len() as f64;
            if x - half_text >= free_from {
                self.text(x, high, "told", &told);
                free_from = x + half_text + APART;
            }
        }
    }

    /// The same left of each y, and right of it.
    pub fn add_marks_beside(&mut self, marks: impl Iterator<Item = Mark>) {
        let (low, high) = (self.x(self.view.x0) - 3.0, self.x(self.view.x1) + 6.0);
        let seen = self.view.y0..=self.view.y1;
        let mut free_up_to = f64::MAX;
        for Mark { at, colour, told } in marks.filter(|mark| seen.contains(&mark.at)) {
            let y = self.y(at);
            self.add_mark(&format!("M{low:.2} {y:.2} h-{MARK}"), &colour);
            if y <= free_up_to {
                let half_text = HALF_LETTER * told.len() as f64;
                self.text(high + half_text, y + 4.0, "told", &told);
                free_up_to = y - LINE;
            }
        }
    }

    fn add_mark(&mut self, path: &str, colour: &str) {
        self.line(&format!("<path d=\"{path}\" stroke=\"{colour}\" class=\"mark\"/>"));
    }
}
