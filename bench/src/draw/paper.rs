//! The paper that a board is drawn on: where things go.

use super::labels::{beside, round, Area, Labels};
use super::strokes::{breadth, least_gap};
use super::style::style;
use crate::geometry::{Point, Rect};
use crate::item::Item;

/// Length in pixels of the longer side of what is seen, its most where lines would be too
/// near to each other, and the least of the shorter.
const LONG_SIDE: f64 = 830.0;
const LONGEST_SIDE: f64 = 2400.0;
const LEAST_SIDE: f64 = 240.0;
/// Lines that are so many pixels apart are seen apart.
const SEEN_APART: f64 = 4.0;
/// Room around the board, in pixels.
pub(super) const LEFT: f64 = 76.0;
pub(super) const RIGHT: f64 = 44.0;
const BELOW: f64 = 108.0;
/// How far a clearance box may be seen outside the board, in pixels.
pub const OVERHANG: f64 = 16.0;
/// The picture is never narrower: the title and the legend need the room.
const LEAST_WIDTH: f64 = 700.0;
/// Boards of up to this size show their unit grid.
const MOST_GRID_LINES: i32 = 60;
/// The size of ids and of the names of pins.
const LABEL: f64 = 12.0;
pub fn no_board() -> String {
    let text = "no board: no bounds were accepted";
    let body = format!("<text x=\"{LEFT}\" y=\"55\" class=\"title\">{text}</text>\n");
    picture(LEAST_WIDTH, 100.0, 1.0, &body)
}

/// A whole picture of the given size.
fn picture(wide: f64, high: f64, breadth: f64, body: &str) -> String {
    format!(
        "<svg xmlns=\"http://www.w3.org/2000/svg\" width=\"{wide:.0}\" height=\"{high:.0}\" \
         viewBox=\"0 0 {wide:.0} {high:.0}\">\n<style>\n{}</style>\n\
         <rect width=\"100%\" height=\"100%\" fill=\"#fff\"/>\n{body}</svg>\n",
        style(breadth)
    )
}

/// The picture while it is drawn, in pixels from the top left.
pub struct Paper {
    pub(super) view: Rect,
    pub(super) wide: f64,
    pub(super) high: f64,
    /// Room above the board.
    pub(super) above: f64,
    /// How far things may be seen outside of what is shown.
    overhang: f64,
    /// The least distance between lines, and the part of its full breadth that a line has.
    pub(super) gap: Option<f64>,
    breadth: f64,
    pub(super) labels: Labels,
    /// Labels that found no room.
    pub(super) left_out: usize,
    body: String,
}

impl Paper {
    /// Paper for a part of the board, on which these lines can be seen apart; `whole` if it
    /// is all of the board.
    pub fn new(view: Rect, whole: bool, lines: &[Rect]) -> Paper {
        let mut paper = Paper::with_side(view, whole, LONG_SIDE);
        let gap = least_gap(lines, paper.x_scale(), paper.y_scale());
        if let Some(gap) = gap.filter(|gap| *gap < SEEN_APART) {
            let side = (LONG_SIDE * SEEN_APART / gap).min(LONGEST_SIDE);
            paper = Paper::with_side(view, whole, side);
        }
        paper.gap = least_gap(lines, paper.x_scale(), paper.y_scale());
        paper.breadth = breadth(paper.gap);
        paper
    }

    fn with_side(view: Rect, whole: bool, long_side: f64) -> Paper {
        let scale = long_side / f64::from((view.x1 - view.x0).max(view.y1 - view.y0));
        let side = |units: i32| (f64::from(units) * scale).max(LEAST_SIDE);
        Paper {
            view,
            wide: side(view.x1 - view.x0),
            high: side(view.y1 - view.y0),
            above: 0.0,
            overhang: if whole { OVERHANG } else { 0.0 },
            gap: None,
            breadth: 1.0,
            labels: Labels::within(Area::new(0.0, 0.0, 0.0, 0.0)),
            left_out: 0,
            body: String::new(),
        }
    }

    pub fn view(&self) -> Rect {
        self.view
    }

    /// Pixels of a unit.
    pub fn x_scale(&self) -> f64 {
        self.wide / f64::from(self.view.x1 - self.view.x0)
    }

    pub fn y_scale(&self) -> f64 {
        self.high / f64::from(self.view.y1 - self.view.y0)
    }

    pub fn stretched(&self) -> bool {
        (self.x_scale() - self.y_scale()).abs() > 0.001 * self.x_scale()
    }

    pub fn x(&self, x: i32) -> f64 {
        LEFT + f64::from(x - self.view.x0) * self.x_scale()
    }

    pub fn y(&self, y: i32) -> f64 {
        self.above + self.high - f64::from(y - self.view.y0) * self.y_scale()
    }

    pub(super) fn width(&self) -> f64 {
        (LEFT + self.wide + RIGHT).max(LEAST_WIDTH)
    }

    pub fn line(&mut self, line: &str) {
        self.body += line;
        self.body.push('\n');
    }

    pub fn text(&mut self, x: f64, y: f64, class: &str, text: &str) {
        let text = escaped(text);
        self.line(&format!("<text x=\"{x:.1}\" y=\"{y:.1}\" class=\"{class}\">{text}</text>"));
    }

    /// A rectangle in board units.
    pub fn rect(&mut self, rect: Rect, class: &str) {
        let area = self.area(rect);
        self.pixels(area.x0, area.y0, area.x1 - area.x0, area.y1 - area.y0, class);
    }

    /// Where a rectangle of the board is.
    pub fn area(&self, rect: Rect) -> Area {
        Area::new(self.x(rect.x0), self.y(rect.y1), self.x(rect.x1), self.y(rect.y0))
    }

    /// A rectangle in pixels.
    pub fn pixels(&mut self, x: f64, y: f64, wide: f64, high: f64, class: &str) {
        let place = format!("x=\"{x:.2}\" y=\"{y:.2}\" width=\"{wide:.2}\" height=\"{high:.2}\"");
        self.line(&format!("<rect {place} class=\"{class}\"/>"));
    }

    /// A line in pixels.
    pub fn pixel_line(&mut self, x1: f64, y1: f64, x2: f64, y2: f64, class: &str) {
        self.line(&format!(
            "<line x1=\"{x1:.2}\" y1=\"{y1:.2}\" x2=\"{x2:.2}\" y2=\"{y2:.2}\" class=\"{class}\"/>"
        ));
    }

    /// The board, its grid if that is not too fine, the numbers along its sides; and what is
    /// drawn from here to `end_board` is seen a little beyond it at most.
    pub fn begin_board(&mut self) {
        let view = self.view;
        let (x0, y0) = (LEFT - self.overhang, self.above - self.overhang);
        let (wide, high) = (self.wide + 2.0 * self.overhang, self.high + 2.0 * self.overhang);
        self.line("<clipPath id=\"near\">");
        self.pixels(x0, y0, wide, high, "near");
        self.line("</clipPath>");
        self.rect(view, "board");
        if view.x1 - view.x0 <= MOST_GRID_LINES && view.y1 - view.y0 <= MOST_GRID_LINES {
            for x in view.x0 + 1..view.x1 {
                self.add_line(Point::new(x, view.y0), Point::new(x, view.y1), "grid");
            }
            for y in view.y0 + 1..view.y1 {
                self.add_line(Point::new(view.x0, y), Point::new(view.x1, y), "grid");
            }
        }
        self.rect(view, "edge");
        self.add_axes();
        self.line("<g clip-path=\"url(#near)\">");
    }

    pub fn end_board(&mut self) {
        self.line("</g>");
    }

    pub fn add_line(&mut self, from: Point, to: Point, class: &str) {
        self.pixel_line(self.x(from.x), self.y(from.y), self.x(to.x), self.y(to.y), class);
    }

    /// Begins a group of things of a class; `end_group` ends it.
    pub fn begin_group(&mut self, class: &str) {
        self.line(&format!("<g class=\"{class}\">"));
    }

    pub fn end_group(&mut self) {
        self.line("</g>");
    }

    /// Rectangles that overlap, as one translucent thing.
    pub fn add_shade(&mut self, rects: &[Rect], opacity: f64, class: &str) {
        self.line(&format!("<g opacity=\"{opacity}\">"));
        for &rect in rects {
            if rect.x0 == rect.x1 || rect.y0 == rect.y1 {
                self.add_line(Point::new(rect.x0, rect.y0), Point::new(rect.x1, rect.y1), class);
            } else {
                self.rect(rect, class);
            }
        }
        self.line("</g>");
    }

    pub fn add_path(&mut self, class: &str, corners: &[Point]) {
        let corner = |p: &Point| format!("{:.2},{:.2}", self.x(p.x), self.y(p.y));
        let corners: Vec<String> = corners.iter().map(corner).collect();
        if corners.is_empty() {
            return;
        }
        self.line(&format!("<polyline points=\"{}\" class=\"{class}\"/>", corners.join(" ")));
    }

    /// A pin, at the rim if it is not in sight, with its name and coordinates.
    pub fn add_pin(&mut self, at: Point, name: &str) {
        let seen = self.view.nearest(at);
        let (x, y) = (self.x(seen.x), self.y(seen.y));
        let dot = 1.5 + 3.5 * self.breadth;
        self.line(&format!("<circle cx=\"{x:.2}\" cy=\"{y:.2}\" r=\"{dot:.2}\" class=\"pin\"/>"));
        self.line(&format!("<circle cx=\"{x:.2}\" cy=\"{y:.2}\" r=\"8\" class=\"ring\"/>"));
        let away = if seen == at { "" } else { ", out of sight" };
        let text = format!("{name} ({},{}){away}", at.x, at.y);
        self.labels.keep_off(Area::new(x, y, x, y).widened(8.0));
        self.add_label(&text, "pinname", &round(x, y, 11.0, &text, LABEL));
    }

    /// Labels keep off lines where they can: runs, and the sides of rectangles.
    pub fn note_lines(&mut self, lines: &[Rect]) {
        for &Rect { x0, y0, x1, y1 } in [self.view].iter().chain(lines) {
            for side in [(x0, y0, x1, y0), (x0, y1, x1, y1), (x0, y0, x0, y1), (x1, y0, x1, y1)] {
                let area = self.area(Rect::new(side.0, side.1, side.2, side.3));
                self.labels.rather_not(area);
            }
        }
    }

    /// The id in the middle of a keep-out or beside it, or beside the runs of a wire, the
    /// longest first. What is not in sight has none.
    pub fn add_id(&mut self, id: u16, item: &Item) {
        let mut places = item.parts();
        places.retain(|place| place.touches(self.view));
        places.sort_by_key(|run| -(run.x1 - run.x0).max(run.y1 - run.y0));
        let id = id.to_string();
        let seen = |place: &Rect| beside(self.area(place.common(self.view)), &id, LABEL);
        let middles: Vec<(f64, f64)> = places.iter().flat_map(seen).collect();
        let class = if item.keepout().is_some() { "label" } else { "label wirename" };
        if !middles.is_empty() {
            self.add_label(&id, class, &middles);
        }
    }

    fn add_label(&mut self, text: &str, class: &str, middles: &[(f64, f64)]) {
        match self.labels.place(text, LABEL, middles) {
            Some((x, y)) => self.text(x, y + 4.0, class, text),
            None => self.left_out += 1,
        }
    }

    pub fn finish(self) -> String {
        picture(self.width(), self.above + self.high + BELOW, self.breadth, &self.body)
    }
}

pub fn escaped(text: &str) -> String {
    text.replace('&', "&amp;").replace('<', "&lt;").replace('>', "&gt;").replace('"', "&quot;")
}
