//! Piece files, and what is said of the wires drawn in them.

use super::plan::{Made, Plan};
use super::{Difference, Form, Printed};
use crate::draw::Scene;
use crate::drawn::pieces::{split, Piece};
use crate::drawn::sheet::Last;
use crate::drawn::tally::Tally;
use crate::drawn::text::unpack;
use crate::generate::drawn::DrawnStyle;
use crate::wire::Wire;

/// Files of records and drawn wires.
pub struct Drawn;

/// The numbers of wires are such that 200,000 hold every code at least two
/// thousand times, some thousand legal wires where the shortest has over 24 runs,
/// and some thousand that seams change (`tests/drawn_compare.rs`). The longest have just as many pieces as are
/// read, and more.
const PLAN: Plan = Plan {
    round: &[
        ("broken", 60),
        ("small", 700),
        ("winding", 500),
        ("widest", 500),
        ("broken", 60),
        ("flush", 600),
        ("bricks", 600),
        ("history", 300),
        ("maze", 500),
        ("large", 400),
        ("full", 400),
        ("broken", 60),
        ("mixed", 400),
        ("long", 300),
    ],
    longest: &[("limit", 15_000), ("over", 15_000), ("over", 15_000)],
    make: |style, seed, count| DrawnStyle::named(style).expect("a style").file(seed, count),
};

impl Form for Drawn {
    const PROGRAM: &'static str = "checkprint";
    const PIECES: &'static str = "pieces";
    const ENDING: &'static str = "pieces";
    const OPTION: &'static str = "--wires";
    const DEFAULT_COUNT: usize = 200_000;

    type Tally = Tally;

    fn files(count: usize, seed: u64) -> Vec<Made> {
        PLAN.files(count, seed)
    }

    fn print(file: &[u8]) -> Printed<Tally> {
        let mut sheet = Vec::new();
        let (tally, last) = Tally::printing(file, &mut sheet).expect("memory can be written");
        Printed { sheet, tally, other_end: (last != Last::End).then(|| last.word()) }
    }

    fn add(all: &mut Tally, more: &Tally) {
        all.add(more);
    }

    fn told(tally: &Tally) -> String {
        format!("{} wires", tally.wires())
    }

    fn split(file: &[u8]) -> Vec<&[u8]> {
        split(file)
    }

    fn record(piece: &[u8]) -> Option<&[u8]> {
        match Piece::read(piece) {
            Piece::Record(bytes) => Some(bytes),
            Piece::Drawn(_) | Piece::Bad(_) => None,
        }
    }

    fn piece_of_line(pieces: &[&[u8]], line: usize) -> Option<usize> {
        let is_drawn = |piece: &[u8]| matches!(Piece::read(piece), Piece::Drawn(_));
        let mut drawn = (0..pieces.len()).filter(|&index| is_drawn(pieces[index]));
        drawn.nth(line - 1)
    }

    fn text(file: &[u8]) -> String {
        unpack(file)
    }

    fn scene(before: &[&[u8]], piece: Option<&[u8]>, _: &Difference) -> Scene {
        let records: Vec<&[u8]> = before.iter().copied().filter_map(Drawn::record).collect();
        let scene = Scene::of(records.concat().as_slice()).expect("memory can be read");
        match piece.map(Piece::read) {
            Some(Piece::Drawn(numbers)) => scene.with_drawn(Wire::drawn(&numbers)),
            _ => scene,
        }
    }
}
