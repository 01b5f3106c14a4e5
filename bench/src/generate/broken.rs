//! Malformed records among plain ones.

use super::maker::{Maker, Mix};
use crate::geometry::Rect;
use crate::limits::RECORD_BYTES;
use crate::record::{Fields, Pins, Record, RecordBytes};

const MIX: Mix =
    Mix { weights: [25, 20, 30, 10, 5, 10], ids: 12, reach: 6, on_sides: 20, across: 50 };

/// Records before bounds (in a new file), refused bounds, malformed records,
/// and a short piece where the file ends.
pub fn broken(maker: &mut Maker) {
    maker.ends_short = true;
    for _ in 0..8 {
        let record = plain(maker);
        if !matches!(record, Record::Bounds { .. }) {
            maker.put(record);
        }
        damaged(maker);
    }
    maker.wrong_bounds();
    let (w, h) = (maker.rng.range(4, 30), maker.rng.range(4, 30));
    maker.bounds(w, h, 1);
    for _ in 0..20 {
        maker.stir(&MIX, 2);
        damaged(maker);
        if maker.rng.chance(10) {
            maker.wrong_bounds();
        }
    }
}

/// Records of every kind but bounds, in a file that has had none yet.
pub fn before_bounds(maker: &mut Maker) {
    for _ in 0..maker.rng.range(1, 20) {
        let record = plain(maker);
        if !matches!(record, Record::Bounds { .. }) {
            maker.put(record);
        }
    }
}

/// Appends a malformed record.
fn damaged(maker: &mut Maker) {
    let record = plain(maker);
    let mut bytes = maker.in_some_mode(record).bytes();
    spoil(maker, &mut bytes);
    maker.put_bytes(&bytes);
}

/// A record of any kind that is well formed.
fn plain(maker: &mut Maker) -> Record {
    let (p, q) = (maker.any_node(), maker.any_node());
    let (id, pins) = (maker.any_id(&MIX), Pins { s: p, t: q });
    match maker.rng.range(1, 6) {
        1 => Record::Bounds { w: 20, h: 20, clearance: 1 },
        2 => Record::Keepout { id, rect: Rect::spanned(p, q) },
        3 => Record::Lay { id, pins },
        4 => Record::Ask { pins },
        5 => Record::TakeOut { id },
        _ => Record::Undo,
    }
}

/// Breaks one of the rules of the record's form.
fn spoil(maker: &mut Maker, bytes: &mut RecordBytes) {
    let any = maker.rng.range(1, 255) as u8;
    // A number that must be 0: any of a take-out or undo, the last of bounds.
    let first_place = if bytes[0] == 1 { 10 } else { 4 };
    let place = maker.rng.range(first_place, RECORD_BYTES as i32 - 1) as usize;
    match maker.rng.range(0, 4) {
        0 => bytes[0] = maker.rng.pick(&[0, 7, 10, 128, 255]),
        1 => bytes[1] = any,
        2 => {
            let mut fields = Fields::split(bytes).expect("a whole record");
            fields.id = if fields.id == 0 { u16::from(any) } else { 0 };
            *bytes = fields.join();
        }
        3 => bytes[place] ^= any,
        _ => bytes.iter_mut().for_each(|byte| *byte = maker.rng.range(0, 255) as u8),
    }
}
