//! Record files and the crowding sheets of the boards that they leave.

use super::plan::{Made, Plan};
use super::{Difference, Form, Printed, Records};
use crate::crowd::tally::Tally;
use crate::draw::Scene;
use crate::generate::{crowd, Style};
use crate::limits::MAX_RECORDS;
use crate::sheet::Last;

/// Files of twelve-byte records again, of which the last board is looked at.
pub struct Crowding;

/// The numbers of records are such that a program is soon through with a file, and
/// that 5,000 files hold many of everything that a tally counts
/// (`tests/crowd_compare.rs`).
const PLAN: Plan = Plan {
    round: &[
        ("small", 30),
        ("crowded", 65),
        ("bricks", 50),
        ("history", 60),
        ("broken", 30),
        ("full", 90),
        ("flush", 50),
        ("crowded", 75),
        ("maze", 60),
        ("crowded", 90),
        ("large", 50),
        ("mixed", 60),
        ("pins", 40),
        ("widest", 50),
        ("long", 80),
    ],
    longest: &[("small", MAX_RECORDS), ("small", MAX_RECORDS + 1), ("small", MAX_RECORDS + 1)],
    make: |style, seed, count| crowd::file(Style::named(style).expect("a style"), seed, count),
};

impl Form for Crowding {
    const PROGRAM: &'static str = "crowdprint";
    const PIECES: &'static str = Records::PIECES;
    const ENDING: &'static str = Records::ENDING;
    const OPTION: &'static str = "--files";
    const DEFAULT_COUNT: usize = 5_000;

    type Tally = Tally;

    fn files(count: usize, seed: u64) -> Vec<Made> {
        PLAN.so_many(count, seed)
    }

    fn print(file: &[u8]) -> Printed<Tally> {
        let mut sheet = Vec::new();
        let (tally, last) =
            Tally::printing(file, &mut sheet).expect("memory can be read and written");
        Printed { sheet, tally, other_end: (last != Last::End).then(|| last.word()) }
    }

    fn add(all: &mut Tally, more: &Tally) {
        all.add(more);
    }

    fn told(tally: &Tally) -> String {
        format!("{} files", tally.sheets + tally.before_bounds)
    }

    fn split(file: &[u8]) -> Vec<&[u8]> {
        Records::split(file)
    }

    fn record(piece: &[u8]) -> Option<&[u8]> {
        Records::record(piece)
    }

    /// A line answers all records; the last of them comes nearest.
    fn piece_of_line(pieces: &[&[u8]], _: usize) -> Option<usize> {
        pieces.len().checked_sub(1)
    }

    fn text(file: &[u8]) -> String {
        Records::text(file)
    }

    fn scene(before: &[&[u8]], piece: Option<&[u8]>, _: &Difference) -> Scene {
        let file = [before.concat().as_slice(), piece.unwrap_or_default()].concat();
        Scene::of(file.as_slice()).expect("memory can be read").with_crowd()
    }
}
