//! Wires drawn by hand, judged: is the wire legal on a board, and by how many
//! units is it longer than the shortest? Nothing is laid.
//!
//! Document 02's order 1 asks for this. The tests of shape and place are written
//! from its words, and order 3's, and ask the board for its items and the cells
//! that they cover only. The shortest length alone comes from the searches.
//!
//! `pieces` is the file of records and drawn wires, `sheet` prints a line for
//! each wire, `tally` counts them, `text` is the file as readable text, `words`
//! says in plain words what a program printed. `slip` is there for the tests.

pub mod pieces;
pub mod sheet;
pub mod slip;
pub mod tally;
pub mod text;
pub mod words;

use crate::board::Board;
use crate::cells::Cover;
use crate::geometry::{Point, Rect};
use crate::item::Frame;
use crate::wire::Wire;
use slip::Slip;

/// The codes that a drawn wire can get. Code 17 is missing: a board that begins
/// fresh and takes records is always well formed.
#[derive(Clone, Copy, PartialEq, Eq, Debug)]
#[repr(u8)]
pub enum Finding {
    Legal = 0,
    NoBounds = 2,
    OffBoard = 9,
    EndsEqual = 10,
    InKeepout = 20,
    CornerCount = 22,
    BadShape = 23,
    NearWire = 24,
}

impl Finding {
    pub const ALL: [Finding; 8] = [
        Finding::Legal,
        Finding::NoBounds,
        Finding::OffBoard,
        Finding::EndsEqual,
        Finding::InKeepout,
        Finding::CornerCount,
        Finding::BadShape,
        Finding::NearWire,
    ];

    pub fn number(self) -> u8 {
        self as u8
    }

    pub fn numbered(number: u8) -> Option<Finding> {
        Finding::ALL.into_iter().find(|finding| finding.number() == number)
    }

    /// Does it say which run is bad?
    pub fn names_run(self) -> bool {
        RUNS_IN_ORDER.iter().any(|stage| stage.contains(&self))
    }
}

/// What can be wrong with a run, in document 02's order: the shapes of all runs
/// are looked at before any place; then the places run by run.
const RUNS_IN_ORDER: [&[Finding]; 2] =
    [&[Finding::BadShape], &[Finding::OffBoard, Finding::InKeepout, Finding::NearWire]];

/// What is said of a drawn wire.
#[derive(Clone, PartialEq, Eq, Debug)]
pub struct Verdict {
    pub finding: Finding,
    /// The first bad run, from 1; 0 if the finding names none.
    pub run: usize,
    /// How much longer a legal wire is than the shortest; 0 for others. It is
    /// below 0 only if a search is wrong, and then it shall be seen.
    pub excess: i64,
    /// The shortest wire between a legal wire's ends.
    pub shortest: Option<Wire>,
}

/// A finding that is not `Legal`, and its run.
type Refusal = (Finding, usize);

/// Judges the wire that the numbers x, y, x, y, ... draw. The program has no
/// slip; only tests plant one.
pub fn judge(board: &mut Board, numbers: &[u16], slip: Slip) -> Verdict {
    match check(board, numbers, slip) {
        Err((finding, run)) => Verdict { finding, run, excess: 0, shortest: None },
        Ok(wire) => legal(board, &wire, slip),
    }
}

/// The wire, if it is legal, or the first refusal.
fn check(board: &Board, numbers: &[u16], slip: Slip) -> Result<Wire, Refusal> {
    let frame = board.frame().ok_or((Finding::NoBounds, 0))?;
    let corners = numbers.chunks_exact(2);
    let odd = !corners.remainder().is_empty();
    if odd || !(2..=slip.most_corners()).contains(&corners.len()) {
        return Err((Finding::CornerCount, 0));
    }
    let wire = Wire::drawn(numbers);
    if wire.start() == wire.end() {
        return Err((Finding::EndsEqual, 0));
    }
    let ground = Ground { board, cover: board.cover(), frame, corners: wire.corners(), slip };
    for stage in slip.stages().unwrap_or(&RUNS_IN_ORDER) {
        for index in 0..wire.run_count() - slip.runs_left_out() {
            if let Some(finding) = stage.iter().find(|finding| ground.has(index, **finding)) {
                return Err((*finding, slip.first_number() + index));
            }
        }
    }
    Ok(wire)
}

/// A drawn wire over its board.
struct Ground<'a> {
    board: &'a Board,
    cover: Cover,
    frame: &'a Frame,
    corners: &'a [Point],
    slip: Slip,
}

impl Ground<'_> {
    /// Is this to be said of the run?
    fn has(&self, index: usize, finding: Finding) -> bool {
        let (from, to) = (self.corners[index], self.corners[index + 1]);
        match finding {
            Finding::BadShape => self.is_misshapen(index),
            Finding::OffBoard => !self.frame.holds(from) || !self.frame.holds(to),
            Finding::InKeepout => {
                let run = Rect::spanned(from, to);
                self.board.keepouts().any(|keepout| enters(run, keepout))
                    || self.cover.closes_part_of(run)
            }
            Finding::NearWire => self.is_near_wire(Rect::spanned(from, to)),
            _ => false,
        }
    }

    /// Is the run empty or slanted, or does it go along the axis of the one
    /// before it?
    fn is_misshapen(&self, index: usize) -> bool {
        let axis = |index: usize| Axis::of(self.corners[index], self.corners[index + 1]);
        let here = axis(index);
        let unturned = index > 0 && here == axis(index - 1);
        here.is_none() || (unturned && !self.slip.forgives_turn(&self.corners[index - 1..]))
    }

    fn is_near_wire(&self, run: Rect) -> bool {
        let clearance = self.frame.clearance + self.slip.more_clearance();
        let near = |laid: Rect| {
            is_nearer(run, laid, clearance) && !self.slip.forgives_nearness(run, laid, self.frame)
        };
        self.board.wires().any(|wire| wire.runs().any(near))
    }
}

#[derive(Clone, Copy, PartialEq, Eq)]
enum Axis {
    X,
    Y,
}

impl Axis {
    /// None for an empty or slanted run.
    fn of(from: Point, to: Point) -> Option<Axis> {
        match (from.x == to.x, from.y == to.y) {
            (false, true) => Some(Axis::X),
            (true, false) => Some(Axis::Y),
            _ => None,
        }
    }
}

/// Does some point of the run lie strictly between the keep-out's sides, in x and
/// in y? Across the run its low and high end are the same.
fn enters(run: Rect, keepout: Rect) -> bool {
    let between = |low: i32, high: i32, side0: i32, side1: i32| side0 < high && low < side1;
    between(run.x0, run.x1, keepout.x0, keepout.x1)
        && between(run.y0, run.y1, keepout.y0, keepout.y1)
}

/// Are two runs nearer than the clearance, that is, not that far apart in x and
/// not that far apart in y?
fn is_nearer(run: Rect, laid: Rect, clearance: i32) -> bool {
    let apart = |a0: i32, a1: i32, b0: i32, b1: i32| (a0 - b1).max(b0 - a1).max(0);
    apart(run.x0, run.x1, laid.x0, laid.x1) < clearance
        && apart(run.y0, run.y1, laid.y0, laid.y1) < clearance
}

fn legal(board: &mut Board, wire: &Wire, slip: Slip) -> Verdict {
    let shortest = board.shortest(wire.start(), wire.end());
    let excess = match &shortest {
        Some(shortest) => i64::from(wire.length()) - slip.least_length(shortest, wire),
        // A legal wire is a way, so there is a shortest one.
        None => -1,
    };
    Verdict { finding: Finding::Legal, run: 0, excess, shortest }
}
