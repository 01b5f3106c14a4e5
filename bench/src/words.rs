//! The answer to a record, in plain words: what was found, or why it was refused and by
//! what. Codes, wires, pins and ids are those of the sheet; what is told beside them, the
//! item in the way or how far a wire could get, is what the second router knows of the board.

mod accepted;
mod refused;

use std::rc::Rc;

use crate::geometry::{Point, Rect};
use crate::item::Item;
use crate::proved::Said;
use crate::reach::Reach;
use crate::record::Record;
use crate::stand::Stand;

/// A record with what a sheet says of it, and what stands before and after it.
#[derive(Clone)]
pub struct Answered {
    pub piece: Vec<u8>,
    pub said: Said,
    pub before: Rc<Stand>,
    pub after: Rc<Stand>,
}

impl Answered {
    pub fn record(&self) -> Option<Record> {
        Record::read(&self.piece)
    }

    pub fn words(&self) -> String {
        match self.said.accepted() {
            true => accepted::words(self),
            false => format!("refused, {}: {}", self.said.code, refused::words(self)),
        }
    }

    /// With 12: what s reaches.
    pub fn reach(&self) -> Option<Reach> {
        let (pins, frame) = (self.record()?.pins()?, self.before.frame?);
        (self.said.code == 12).then(|| Reach::of(&frame, self.before.items.values(), pins.s))
    }
}

pub fn point(p: Point) -> String {
    format!("({},{})", p.x, p.y)
}

pub fn rectangle(Rect { x0, y0, x1, y1 }: Rect) -> String {
    format!("({x0},{y0})-({x1},{y1})")
}

/// An item by its sort and id.
pub fn name(id: u16, item: &Item) -> String {
    match item {
        Item::Keepout(_) => format!("keep-out {id}"),
        Item::Wire(_) => format!("wire {id}"),
    }
}

/// An item by its sort, its id and where it is.
pub fn named(id: u16, item: &Item) -> String {
    match item {
        Item::Keepout(rect) => format!("keep-out {id} {}", rectangle(*rect)),
        Item::Wire(wire) => {
            format!("wire {id} from {} to {}", point(wire.start()), point(wire.end()))
        }
    }
}

/// So many of a thing.
pub fn count(number: usize, thing: &str) -> String {
    format!("{number} {thing}{}", if number == 1 { "" } else { "s" })
}

/// A list as one says it; of a long one the first few.
pub fn listed(names: &[String]) -> String {
    const MOST: usize = 4;
    match names {
        [] => String::new(),
        [one] => one.clone(),
        _ if names.len() > MOST => {
            format!("{} and {} more", names[..MOST].join(", "), names.len() - MOST)
        }
        [some @ .., last] => format!("{} and {last}", some.join(", ")),
    }
}
