//! Where labels go: inside the picture, and none over another.

/// A rectangle in pixels.
#[derive(Clone, Copy, PartialEq, Debug)]
pub struct Area {
    pub x0: f64,
    pub y0: f64,
    pub x1: f64,
    pub y1: f64,
}

impl Area {
    pub fn new(x0: f64, y0: f64, x1: f64, y1: f64) -> Area {
        Area { x0, y0, x1, y1 }
    }

    pub fn widened(self, by: f64) -> Area {
        Area::new(self.x0 - by, self.y0 - by, self.x1 + by, self.y1 + by)
    }

    fn meets(self, other: Area) -> bool {
        self.x0 < other.x1 && other.x0 < self.x1 && self.y0 < other.y1 && other.y0 < self.y1
    }

    fn holds(self, other: Area) -> bool {
        self.x0 <= other.x0 && other.x1 <= self.x1 && self.y0 <= other.y0 && other.y1 <= self.y1
    }

    fn middle(self) -> (f64, f64) {
        ((self.x0 + self.x1) / 2.0, (self.y0 + self.y1) / 2.0)
    }
}

/// The width of a letter, in parts of the size of its line; a generous one.
const LETTER: f64 = 0.66;

pub fn text_width(text: &str, size: f64) -> f64 {
    LETTER * size * text.chars().count() as f64
}

/// The labels placed so far, and the lines that they should keep off where they can.
pub struct Labels {
    room: Area,
    taken: Vec<Area>,
    lines: Vec<Area>,
}

impl Labels {
    pub fn within(room: Area) -> Labels {
        Labels { room, taken: Vec::new(), lines: Vec::new() }
    }

    /// No label goes here.
    pub fn keep_off(&mut self, area: Area) {
        self.taken.push(area);
    }

    /// Labels go here only where there is no other room.
    pub fn rather_not(&mut self, line: Area) {
        self.lines.push(line.widened(1.5));
    }

    /// Of the middles at which a label of this size has room, the one over the fewest lines;
    /// of several the first.
    pub fn place(&mut self, text: &str, size: f64, middles: &[(f64, f64)]) -> Option<(f64, f64)> {
        let (half, high) = (text_width(text, size) / 2.0, size * 0.6);
        let area = |&(x, y): &(f64, f64)| Area::new(x - half, y - high, x + half, y + high);
        let free = |middle: &&(f64, f64)| {
            let area = area(middle);
            self.room.holds(area) && !self.taken.iter().any(|taken| taken.meets(area))
        };
        let crossed = |middle: &&(f64, f64)| {
            self.lines.iter().filter(|line| line.meets(area(middle))).count()
        };
        let best = *middles.iter().filter(free).min_by_key(crossed)?;
        self.taken.push(area(&best).widened(1.0));
        Some(best)
    }
}

/// Middles of a label round a point: near ones first.
pub fn round(x: f64, y: f64, off: f64, text: &str, size: f64) -> Vec<(f64, f64)> {
    let half = text_width(text, size) / 2.0;
    let rings = [1.0, 2.4, 4.0, 6.0];
    let ring = |times: f64| {
        let (dx, dy) = (half + off * times, size * 0.6 + off * times);
        [(dx, 0.0), (-dx, 0.0), (0.0, -dy), (0.0, dy), (dx, -dy), (dx, dy), (-dx, -dy), (-dx, dy)]
    };
    rings.into_iter().flat_map(ring).map(|(dx, dy)| (x + dx, y + dy)).collect()
}

/// Middles of a label for an area: inside where it fits, else round it.
pub fn beside(area: Area, text: &str, size: f64) -> Vec<(f64, f64)> {
    let (half, high) = (text_width(text, size) / 2.0, size * 0.6);
    let (x, y) = area.middle();
    let mut middles = Vec::new();
    if area.x1 - area.x0 > 2.0 * half && area.y1 - area.y0 > 2.0 * high {
        let (wide, tall) = ((area.x1 - area.x0) / 4.0, (area.y1 - area.y0) / 4.0);
        middles.extend([(x, y), (x, y - tall), (x, y + tall), (x - wide, y), (x + wide, y)]);
    }
    for off in [3.0, 9.0, 18.0] {
        let (left, right) = (area.x0 - half - off, area.x1 + half + off);
        let (above, below) = (area.y0 - high - off, area.y1 + high + off);
        middles.extend([(x, above), (right, y), (left, y), (x, below)]);
        middles.extend([(right, above), (left, above), (right, below), (left, below)]);
    }
    middles
}
