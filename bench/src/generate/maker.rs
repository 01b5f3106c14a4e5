//! A file in the making, and the board it has led to so far.

use crate::board::Board;
use crate::geometry::{Point, Rect};
use crate::limits::{MAX_BLOCKS, MAX_CLEARANCE, MAX_KEPT, MAX_SIDE, RECORD_BYTES};
use crate::record::{Pins, Record, RecordBytes};
use crate::rng::Rng;

/// What a stretch of random records is made of.
pub struct Mix {
    /// How likely each is: keep-out, lay, ask, take-out, undo, a wrong record.
    pub weights: [i32; 6],
    /// Ids are drawn from 1 up to this.
    pub ids: i32,
    /// Longest side of a keep-out.
    pub reach: i32,
    /// Of a hundred coordinates, how many lie on a side that already stands.
    pub on_sides: i32,
    /// Of a hundred pairs of pins, how many lie across a block.
    pub across: i32,
}

/// Of a hundred lays and asks, how many are kinds 9 and 8.
const STRAIGHT: i32 = 34;

pub struct Maker {
    pub rng: Rng,
    /// Chooses the mode of lays and asks, so that all else is as `rng` has it.
    modes: Rng,
    pub board: Board,
    file: Vec<u8>,
    left: usize,
    /// Shall the last record lack some bytes?
    pub ends_short: bool,
}

impl Maker {
    pub fn new(seed: u64) -> Maker {
        Maker {
            rng: Rng::new(seed),
            modes: Rng::new(!seed),
            board: Board::default(),
            file: Vec::new(),
            left: 0,
            ends_short: false,
        }
    }

    /// Asks for that many records more.
    pub fn want(&mut self, count: usize) {
        self.left += count;
    }

    /// How many records are still wanted.
    pub fn left(&self) -> usize {
        self.left
    }

    pub fn file(mut self) -> Vec<u8> {
        if self.ends_short {
            let lacking = self.rng.range(1, RECORD_BYTES as i32 - 1) as usize;
            self.file.truncate(self.file.len().saturating_sub(lacking));
        }
        self.file
    }

    /// Appends a record, unless the file is full.
    pub fn put(&mut self, record: Record) {
        let record = self.in_some_mode(record);
        self.put_bytes(&record.bytes());
    }

    /// Some of the lays and asks want the fewest runs.
    pub fn in_some_mode(&mut self, record: Record) -> Record {
        let straight = record.pins().is_some() && self.modes.chance(STRAIGHT);
        if straight {
            record.straight()
        } else {
            record
        }
    }

    pub fn put_bytes(&mut self, bytes: &RecordBytes) {
        if self.left > 0 {
            self.left -= 1;
            self.file.extend_from_slice(bytes);
            // An ask leaves the board as it is, so it need not be answered here.
            if !Record::read(bytes).is_some_and(|record| record.is_ask()) {
                self.board.take(bytes);
            }
        }
    }

    pub fn bounds(&mut self, w: i32, h: i32, clearance: i32) {
        self.put(Record::Bounds { w, h, clearance });
    }

    /// Appends `count` random records.
    pub fn stir(&mut self, mix: &Mix, count: i32) {
        for _ in 0..count {
            self.act(mix);
        }
    }

    fn act(&mut self, mix: &Mix) {
        // A full board would only refuse; then something goes.
        if self.board.block_count() > MAX_BLOCKS - 4 && self.rng.chance(30) {
            return self.take_out(mix);
        }
        match self.rng.weighted(&mix.weights) {
            0 => {
                let record = Record::Keepout { id: self.id(mix), rect: self.rect(mix) };
                self.put(record);
            }
            1 => {
                let record = Record::Lay { id: self.id(mix), pins: self.pins(mix) };
                self.put(record);
            }
            2 => {
                let pins = self.pins(mix);
                self.put(Record::Ask { pins });
            }
            3 => self.take_out(mix),
            4 => self.undo_some(),
            _ => self.wrong(mix),
        }
    }

    fn take_out(&mut self, mix: &Mix) {
        let id = self.used_id().unwrap_or_else(|| self.any_id(mix));
        self.put(Record::TakeOut { id });
    }

    /// Mostly a few undos, now and then more than can be kept.
    fn undo_some(&mut self) {
        let most = if self.rng.chance(10) { MAX_KEPT as i32 + 3 } else { 4 };
        for _ in 0..self.rng.range(1, most) {
            self.put(Record::Undo);
        }
    }

    /// A record that is well formed and yet (most likely) refused.
    fn wrong(&mut self, mix: &Mix) {
        let (w, h) = self.size();
        let used = self.used_id().unwrap_or_else(|| self.any_id(mix));
        let (id, p, q) = (self.id(mix), self.any_node(), self.any_node());
        let record = match self.rng.range(0, 9) {
            0 => Record::Lay { id: used, pins: self.pins(mix) },
            1 => Record::Keepout { id: used, rect: self.rect(mix) },
            2 => Record::TakeOut { id: self.any_id(mix) },
            3 => Record::Keepout { id, rect: Rect::new(p.x, p.y, q.x, q.y) },
            4 => Record::Keepout { id, rect: Rect::new(p.x, p.y, w + 1, h) },
            5 => Record::Keepout { id, rect: Rect::new(0, 0, w, h) },
            6 => Record::Ask { pins: Pins { s: p, t: Point::new(w, h + 1) } },
            7 => Record::Lay { id, pins: Pins { s: p, t: p } },
            8 => Record::Keepout { id, rect: self.around_a_corner() },
            _ => Record::Lay { id, pins: Pins { s: self.inside_a_block(), t: q } },
        };
        self.put(record);
    }

    /// Bounds that are refused.
    pub fn wrong_bounds(&mut self) {
        let mut numbers = [10, 10, 1];
        let place = self.rng.range(0, 2) as usize;
        let most = if place == 2 { MAX_CLEARANCE } else { MAX_SIDE };
        numbers[place] = self.rng.pick(&[0, most + 1, i32::from(u16::MAX)]);
        let [w, h, clearance] = numbers;
        self.put(Record::Bounds { w, h, clearance });
    }
}
