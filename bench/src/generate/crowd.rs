//! Record files for crowding sheets: boards with as many tracks as there can be,
//! and files that go on where no record is read any more.

use super::episodes::fill_with;
use super::maker::{Maker, Mix};
use super::maze::{bounds, comb, rect};
use super::Style;
use crate::geometry::Rect;
use crate::limits::{MAX_BLOCKS, MAX_RECORDS, MAX_SIDE};
use crate::record::Record;

/// The style that the mixed files do not have.
pub const OWN_STYLES: [Style; 1] = [Style {
    name: "crowded",
    about: "boards of about 46 small blocks, so that a track has up to 93 edges",
    episode: crowded,
}];

/// A board that is larger than any of style `small`, for a program that reads on.
const READ_ON: Record = Record::Bounds { w: 77, h: 78, clearance: 1 };

/// The file of a style and a seed. What is over the records that are read would
/// give another sheet, or it is one byte.
pub fn file(style: &Style, seed: u64, count: usize) -> Vec<u8> {
    let mut file = style.file(seed, count.min(MAX_RECORDS));
    let bytes = READ_ON.bytes();
    let left = if seed % 2 == 1 { &bytes[..1] } else { &bytes[..] };
    for _ in MAX_RECORDS..count {
        file.extend(left);
    }
    file
}

/// Keep-outs all over a board, or side by side, or wires so, and then a few changes.
fn crowded(maker: &mut Maker) {
    let mix = match maker.rng.weighted(&[55, 20, 25]) {
        0 => field(maker),
        1 => columns(maker),
        _ => fence(maker),
    };
    let count = maker.rng.range(2, 12);
    maker.stir(&mix, count);
}

/// Small keep-outs and a few wires. Most sides are new ones, so that nearly each
/// has a track of its own; on some boards sides are shared, and there are seams.
fn field(maker: &mut Maker) -> Mix {
    let long = maker.rng.pick(&[110, 180, 400, 3_000, MAX_SIDE]);
    let short = maker.rng.range(long / 2, long);
    let turned = maker.rng.chance(50);
    let (w, h) = if turned { (short, long) } else { (long, short) };
    let clearance = maker.rng.range(1, short / 100);
    maker.bounds(w, h, clearance);
    let reach = short / maker.rng.range(6, 12);
    let on_sides = maker.rng.pick(&[2, 2, 2, 10, 40]);
    let mix = Mix { weights: [24, 20, 12, 24, 14, 6], ids: MAX_SIDE, reach, on_sides, across: 30 };
    let blocks = MAX_BLOCKS - maker.rng.range(0, 6) as usize;
    let laid = maker.rng.pick(&[0, 4, 12]);
    fill_with(maker, &Mix { weights: [100 - laid, laid, 0, 0, 0, 0], ..mix }, blocks);
    mix
}

/// Keep-outs of one unit in columns of their own, so that a small board has as many
/// tracks as there can be. In half of them x and y are swapped.
fn columns(maker: &mut Maker) -> Mix {
    let most = MAX_BLOCKS as i32;
    let (long, high) = (2 * most + maker.rng.range(1, 9), maker.rng.range(6, 24));
    let turned = maker.rng.chance(50);
    bounds(maker, turned, long, high, 1);
    for column in (1..=most).map(|number| 2 * number - 1) {
        let low = maker.rng.range(0, high - 1);
        let top = low + maker.rng.range(1, (high - low).min(4));
        let rect = rect(turned, Rect::new(column, low, column + 1, top));
        maker.put(Record::Keepout { id: column as u16, rect });
    }
    Mix { weights: [20, 10, 10, 40, 20, 0], ids: 2 * most, reach: 3, on_sides: 30, across: 50 }
}

/// Nearly as many wires side by side as a board has room for.
fn fence(maker: &mut Maker) -> Mix {
    let (turned, walls) = (maker.rng.chance(50), maker.rng.range(34, MAX_BLOCKS as i32));
    comb(maker, turned, walls);
    Mix {
        weights: [10, 20, 10, 40, 20, 0],
        ids: MAX_BLOCKS as i32,
        reach: 3,
        on_sides: 30,
        across: 0,
    }
}
