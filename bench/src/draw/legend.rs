//! What the colours mean, below the board.

use super::head::note_width;
use super::paper::{Paper, LEFT};
use super::strokes::too_near;

/// The class of what is reached: the one thing in the legend that is an area, not a line.
pub const REACH: &str = "reach";

impl Paper {
    /// What the colours mean; `more` are classes of lines.
    pub fn add_legend(&mut self, more: &[(&str, &str)]) {
        let mut y = self.above + self.high + 64.0;
        self.pixels(LEFT, y - 11.0, 26.0, 14.0, "rim");
        self.pixels(LEFT, y - 11.0, 26.0, 14.0, "keepout");
        self.text(LEFT + 34.0, y, "note", "keep-out");
        let mut x = LEFT + 120.0;
        self.line("<g opacity=\"0.18\">");
        self.pixels(x, y - 11.0, 26.0, 14.0, "box");
        self.line("</g>");
        self.legend_line(x, y, "wire");
        self.text(x + 34.0, y, "note", "laid wire, clearance");
        x += 196.0;
        for (class, about) in more {
            let wide = 48.0 + note_width(about);
            if x + wide > self.width() {
                (x, y) = (LEFT, y + 20.0);
            }
            match *class {
                REACH => self.pixels(x, y - 11.0, 26.0, 14.0, "reach pale"),
                _ => self.legend_line(x, y, class),
            }
            self.text(x + 34.0, y, "note", about);
            x += wide;
        }
        self.add_foot(y + 20.0);
    }

    fn legend_line(&mut self, x: f64, y: f64, class: &str) {
        self.line(&format!("<path d=\"M{x:.2} {:.2} h26\" class=\"{class}\"/>", y - 4.0));
    }

    fn add_foot(&mut self, y: f64) {
        let mut told: Vec<String> = Vec::new();
        if too_near(self.gap) {
            told.push(
                "some lines are too near to be told apart; --window shows a part".to_string(),
            );
        }
        if self.left_out > 0 {
            told.push(format!("labels without room: {}", self.left_out));
        }
        if !told.is_empty() {
            self.text(LEFT, y, "note", &told.join("; "));
        }
    }
}
