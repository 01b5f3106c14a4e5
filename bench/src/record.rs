//! The twelve-byte record.

use crate::geometry::{Point, Rect};
use crate::limits::RECORD_BYTES;

pub type RecordBytes = [u8; RECORD_BYTES];

/// The fields of twelve bytes, whatever they mean.
#[derive(Clone, Copy, PartialEq, Eq, Debug, Default)]
pub struct Fields {
    pub kind: u8,
    pub byte1: u8,
    pub id: u16,
    pub numbers: [u16; 4],
}

impl Fields {
    /// Splits a piece of a file; `None` if it isn't twelve bytes long.
    pub fn split(piece: &[u8]) -> Option<Fields> {
        let bytes: &RecordBytes = piece.try_into().ok()?;
        let number = |at: usize| u16::from_le_bytes([bytes[at], bytes[at + 1]]);
        Some(Fields {
            kind: bytes[0],
            byte1: bytes[1],
            id: number(2),
            numbers: [number(4), number(6), number(8), number(10)],
        })
    }

    pub fn join(&self) -> RecordBytes {
        let mut bytes = [0; RECORD_BYTES];
        bytes[0] = self.kind;
        bytes[1] = self.byte1;
        bytes[2..4].copy_from_slice(&self.id.to_le_bytes());
        for (place, number) in bytes[4..].chunks_exact_mut(2).zip(self.numbers) {
            place.copy_from_slice(&number.to_le_bytes());
        }
        bytes
    }
}

/// The two pins of a lay or ask.
#[derive(Clone, Copy, PartialEq, Eq, Debug)]
pub struct Pins {
    pub s: Point,
    pub t: Point,
}

impl Pins {
    /// Pin 1, which is s, or pin 2, which is t.
    pub fn numbered(self, pin: u8) -> Point {
        if pin == 1 {
            self.s
        } else {
            self.t
        }
    }
}

/// Which of the shortest wires a lay or ask wants.
#[derive(Clone, Copy, PartialEq, Eq, Debug)]
pub enum Mode {
    /// The first in the order E, N, W, S: kinds 3 and 4.
    Plain,
    /// The first of those with the fewest runs: kinds 9 and 8, document 02's order 6.
    Straight,
}

/// A record of one of the eight plain forms.
#[derive(Clone, Copy, PartialEq, Eq, Debug)]
pub enum Record {
    Bounds { w: i32, h: i32, clearance: i32 },
    Keepout { id: u16, rect: Rect },
    Lay { id: u16, pins: Pins },
    Ask { pins: Pins },
    TakeOut { id: u16 },
    Undo,
    AskStraight { pins: Pins },
    LayStraight { id: u16, pins: Pins },
}

impl Record {
    /// Reads a piece of a file. `None` is code 1: not twelve bytes, an unknown
    /// kind, a byte or field that isn't 0 but should be, or an id of 0 where
    /// there must be one.
    pub fn read(piece: &[u8]) -> Option<Record> {
        let fields = Fields::split(piece)?;
        if fields.byte1 != 0 {
            return None;
        }
        let [a, b, c, d] = fields.numbers.map(i32::from);
        let pins = Pins { s: Point::new(a, b), t: Point::new(c, d) };
        match (fields.kind, fields.id, fields.numbers) {
            (1, 0, [_, _, _, 0]) => Some(Record::Bounds { w: a, h: b, clearance: c }),
            (2, id @ 1.., _) => Some(Record::Keepout { id, rect: Rect::new(a, b, c, d) }),
            (3, id @ 1.., _) => Some(Record::Lay { id, pins }),
            (4, 0, _) => Some(Record::Ask { pins }),
            (5, id @ 1.., [0, 0, 0, 0]) => Some(Record::TakeOut { id }),
            (6, 0, [0, 0, 0, 0]) => Some(Record::Undo),
            (8, 0, _) => Some(Record::AskStraight { pins }),
            (9, id @ 1.., _) => Some(Record::LayStraight { id, pins }),
            _ => None,
        }
    }

    /// The pins of a lay or ask.
    pub fn pins(&self) -> Option<Pins> {
        match *self {
            Record::Lay { pins, .. } | Record::Ask { pins } => Some(pins),
            Record::LayStraight { pins, .. } | Record::AskStraight { pins } => Some(pins),
            _ => None,
        }
    }

    /// Is it an ask, in either mode?
    pub fn is_ask(&self) -> bool {
        matches!(self, Record::Ask { .. } | Record::AskStraight { .. })
    }

    /// The id of a lay, in either mode.
    pub fn laid(&self) -> Option<u16> {
        match *self {
            Record::Lay { id, .. } | Record::LayStraight { id, .. } => Some(id),
            _ => None,
        }
    }

    /// Does it want the fewest runs?
    pub fn is_straight(&self) -> bool {
        matches!(self, Record::LayStraight { .. } | Record::AskStraight { .. })
    }

    /// The same lay or ask, but for the fewest runs; other records stay.
    pub fn straight(self) -> Record {
        match self {
            Record::Lay { id, pins } => Record::LayStraight { id, pins },
            Record::Ask { pins } => Record::AskStraight { pins },
            other => other,
        }
    }

    /// The bytes of a record whose numbers all fit 16 bits.
    pub fn bytes(&self) -> RecordBytes {
        let (kind, id, numbers) = match *self {
            Record::Bounds { w, h, clearance } => (1, 0, [w, h, clearance, 0]),
            Record::Keepout { id, rect } => (2, id, [rect.x0, rect.y0, rect.x1, rect.y1]),
            Record::Lay { id, pins } => (3, id, [pins.s.x, pins.s.y, pins.t.x, pins.t.y]),
            Record::Ask { pins } => (4, 0, [pins.s.x, pins.s.y, pins.t.x, pins.t.y]),
            Record::TakeOut { id } => (5, id, [0; 4]),
            Record::Undo => (6, 0, [0; 4]),
            Record::AskStraight { pins } => (8, 0, [pins.s.x, pins.s.y, pins.t.x, pins.t.y]),
            Record::LayStraight { id, pins } => (9, id, [pins.s.x, pins.s.y, pins.t.x, pins.t.y]),
        };
        let numbers = numbers.map(|n| u16::try_from(n).expect("a record's number fits 16 bits"));
        Fields { kind, byte1: 0, id, numbers }.join()
    }
}
