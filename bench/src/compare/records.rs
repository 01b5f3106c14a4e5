//! Record files and their sheets.

use super::plan::{Made, Plan};
use super::{Difference, Form, Printed};
use crate::draw::{Scene, Versus};
use crate::generate::Style;
use crate::geometry::Point;
use crate::limits::{MAX_RECORDS, RECORD_BYTES};
use crate::proved::corner;
use crate::record::Record;
use crate::tally::Tally;
use crate::text::unpack;

/// Files of twelve-byte records.
pub struct Records;

/// The numbers of records are such that half a million hold every code at least
/// a thousand times, 11 and 18 two thousand times with either pin, more than a
/// third of them wires, many thousand asks on the widest board, and over 20,000
/// answers that seams change (`tests/compare.rs`). Files are short, since each can begin before bounds. The
/// longest are one that ends in `end` and one that is cut.
const PLAN: Plan = Plan {
    round: &[
        ("small", 1_500),
        ("widest", 1_700),
        ("history", 1_200),
        ("maze", 2_200),
        ("large", 1_200),
        ("broken", 1_500),
        ("full", 2_000),
        ("flush", 1_500),
        ("bricks", 3_000),
        ("mixed", 1_200),
        ("long", 1_000),
        ("pins", 1_500),
    ],
    longest: &[("long", MAX_RECORDS), ("mixed", MAX_RECORDS + 1)],
    make: |style, seed, count| Style::named(style).expect("a style").file(seed, count),
};

impl Form for Records {
    const PROGRAM: &'static str = "trackprint";
    const PIECES: &'static str = "records";
    const ENDING: &'static str = "rec";
    const OPTION: &'static str = "--records";
    const DEFAULT_COUNT: usize = 500_000;

    type Tally = Tally;

    fn files(count: usize, seed: u64) -> Vec<Made> {
        PLAN.files(count, seed)
    }

    fn print(file: &[u8]) -> Printed<Tally> {
        let mut sheet = Vec::new();
        let mut tally = Tally::printing(file, &mut sheet).expect("memory can be read and written");
        let cut = std::mem::take(&mut tally.cut);
        Printed { sheet, tally, other_end: cut.then_some("cut") }
    }

    fn add(all: &mut Tally, more: &Tally) {
        all.add(more);
    }

    fn told(tally: &Tally) -> String {
        format!("{} records", tally.records())
    }

    fn split(file: &[u8]) -> Vec<&[u8]> {
        file.chunks(RECORD_BYTES).collect()
    }

    fn record(piece: &[u8]) -> Option<&[u8]> {
        Some(piece)
    }

    fn piece_of_line(pieces: &[&[u8]], line: usize) -> Option<usize> {
        (line <= pieces.len()).then(|| line - 1)
    }

    fn text(file: &[u8]) -> String {
        unpack(file)
    }

    fn scene(before: &[&[u8]], piece: Option<&[u8]>, difference: &Difference) -> Scene {
        let scene = Scene::of(before.concat().as_slice()).expect("memory can be read");
        let (own, other) = (corners(&difference.own), corners(&difference.other));
        let pins = piece.and_then(Record::read).and_then(|record| record.pins());
        scene.with(Versus { pins, own, other })
    }
}

/// The corners in a line of a sheet, as far as they can be read.
fn corners(line: &Option<String>) -> Vec<Point> {
    line.iter().flat_map(|line| line.split_whitespace()).filter_map(corner).collect()
}
