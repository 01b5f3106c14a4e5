//! Random piece files: boards as the styles make them, with drawn wires in
//! between that aim at what stands there.

mod ends;
mod mistakes;
mod strokes;
mod winding;

use super::maker::Maker;
use super::Style;
use crate::drawn::pieces::{put_drawn, put_record};
use crate::geometry::Point;
use crate::limits::RECORD_BYTES;
use crate::record::Record;

/// Records of a style that are taken at a time; most styles make several boards
/// of them.
const STRETCH: usize = 400;
/// Of a hundred records, how many are followed by wires, and by how many.
const FOLLOWED: i32 = 55;
const MOST_WIRES: i32 = 4;
/// Of a hundred files, how many begin with wires.
const EARLY: i32 = 60;
/// Drawn wires of a file if nothing else is asked for.
pub const DEFAULT_WIRES: usize = 1_000;

/// Where the boards come from that wires are drawn on.
#[derive(Clone, Copy)]
pub enum DrawnStyle {
    /// The records of a style.
    Boards(&'static Style),
    Winding,
    Limit,
    Over,
}

/// The styles that only piece files have, by name, with what is in them.
pub const OWN_STYLES: [(&str, &str, DrawnStyle); 3] = [
    (
        "winding",
        "boards whose shortest wire has over 24 runs while a longer one has few",
        DrawnStyle::Winding,
    ),
    ("limit", "65535 pieces, as many as are read (WIRES up to 30000)", DrawnStyle::Limit),
    ("over", "more pieces than are read (WIRES up to 30000)", DrawnStyle::Over),
];

impl DrawnStyle {
    pub fn named(name: &str) -> Option<DrawnStyle> {
        let own = OWN_STYLES.iter().find(|style| style.0 == name).map(|style| style.2);
        own.or_else(|| Style::named(name).map(DrawnStyle::Boards))
    }

    /// The file of a seed, with so many wires that get a line.
    pub fn file(self, seed: u64, wires: usize) -> Vec<u8> {
        let mut drawer = Drawer::new(seed);
        match self {
            _ if wires == 0 => {}
            DrawnStyle::Boards(style) => drawer.weave(style, wires),
            DrawnStyle::Winding => drawer.wind(wires),
            DrawnStyle::Limit | DrawnStyle::Over => drawer.fill(wires),
        }
        match self {
            DrawnStyle::Boards(style) if style.name == "broken" => ends::cut_short(&mut drawer),
            DrawnStyle::Over => ends::go_on(&mut drawer),
            _ => {}
        }
        drawer.file
    }
}

/// A piece file in the making, beside the board that its records have led to.
struct Drawer {
    maker: Maker,
    file: Vec<u8>,
    pieces: usize,
    /// How many wires are still wanted.
    left: usize,
}

impl Drawer {
    fn new(seed: u64) -> Drawer {
        Drawer { maker: Maker::new(seed), file: Vec::new(), pieces: 0, left: 0 }
    }

    /// Some wires before any record, then the records of a style with wires in
    /// between.
    fn weave(&mut self, style: &Style, wires: usize) {
        self.begin(wires);
        while self.left > 0 {
            let records = style.file(self.maker.rng.number(), STRETCH);
            for record in records.chunks_exact(RECORD_BYTES) {
                if self.left == 0 {
                    break;
                }
                self.put_bytes(record);
                if self.maker.rng.chance(FOLLOWED) {
                    self.draw_some(MOST_WIRES);
                }
            }
        }
    }

    fn wind(&mut self, wires: usize) {
        self.begin(wires);
        while self.left > 0 {
            winding::board(self);
        }
    }

    /// All the pieces that are read, a wire the last of them.
    fn fill(&mut self, wires: usize) {
        self.weave(Style::named("mixed").expect("a style"), wires - 1);
        ends::fill_up(self);
        self.left = 1;
        self.draw_some(1);
    }

    fn begin(&mut self, wires: usize) {
        self.left = wires;
        if self.maker.rng.chance(EARLY) {
            self.draw_some(3 * MOST_WIRES);
        }
    }

    fn put(&mut self, record: Record) {
        self.put_bytes(&record.bytes());
    }

    fn put_bytes(&mut self, record: &[u8]) {
        put_record(&mut self.file, record);
        self.pieces += 1;
        self.maker.board.take(record);
    }

    /// Draws one to `most` wires of any sort.
    fn draw_some(&mut self, most: i32) {
        for _ in 0..self.maker.rng.range(1, most) {
            let corners = strokes::any(&mut self.maker);
            self.draw(corners);
        }
    }

    /// Draws a wire, perhaps with mistakes in it, unless the file has enough.
    fn draw(&mut self, corners: Vec<Point>) {
        if self.left > 0 {
            self.left -= 1;
            self.pieces += 1;
            let numbers = mistakes::perhaps(&mut self.maker, corners);
            put_drawn(&mut self.file, &numbers);
        }
    }
}
