//! The fixed case file: records of every style but `pins`, and the sheet they
//! come to. The other styles have enough blocked pins to tell wrong readings.
//!
//! It is one file from one seed, so that another router can be held to it
//! without the bench. Each style has kinds 8 and 9 among its lays and asks.

use crate::generate::{series, Style};
use crate::tally::Tally;

const SEED: u64 = 1_510;

/// The styles in their order, with their numbers of records. The mazes come
/// often for the sake of wires at the limit; the broken records come last,
/// since their last piece is a short one.
const PARTS: [(&str, usize); 11] = [
    ("small", 2_500),
    ("maze", 4_000),
    ("widest", 5_000),
    ("flush", 2_000),
    ("bricks", 2_000),
    ("history", 1_500),
    ("large", 1_500),
    ("full", 2_000),
    ("long", 1_000),
    ("mixed", 1_000),
    ("broken", 1_500),
];

/// The records.
pub fn records() -> Vec<u8> {
    let parts = PARTS.map(|(name, count)| (Style::named(name).expect("a style"), count));
    series(SEED, &parts)
}

/// The sheet that the second router prints for them, and what is in it.
pub fn sheet() -> (Vec<u8>, Tally) {
    let mut sheet = Vec::new();
    let tally =
        Tally::printing(records().as_slice(), &mut sheet).expect("memory can be read and written");
    (sheet, tally)
}
