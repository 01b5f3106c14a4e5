//! Faults that the tests plant in the judge of drawn wires, to show that they
//! would be noticed. The program always judges with `Slip::None`.

use super::Finding;
use crate::geometry::{Point, Rect};
use crate::item::Frame;
use crate::limits::{MAX_CORNERS, MAX_RUNS};
use crate::wire::Wire;

#[derive(Clone, Copy, PartialEq, Eq, Debug, Default)]
pub enum Slip {
    #[default]
    None,
    /// Of one run, 24 is said before 20.
    WiresFirst,
    /// The shape of a run is looked at just before its place.
    ShapesByTheWay,
    /// Every run is looked at for 9, then every run for 20, then for 24.
    CodeByCode,
    /// Runs are counted from 0.
    RunsFromZero,
    /// The last run is not looked at.
    LastRunLeftOut,
    /// A run straight back along the one before is let pass.
    ReversalsPass,
    /// 26 corners are let pass.
    OneCornerMore,
    /// A wire's box is trimmed to the board.
    TrimmedBoxes,
    /// A wire at exactly the clearance is refused.
    ClosedBoxes,
    /// No excess is counted where the shortest wire has over 24 runs.
    FewRunsOnly,
    /// The excess is counted from |dx| + |dy| of the ends.
    StraightDistance,
}

impl Slip {
    /// Every slip there is.
    pub const ALL: [Slip; 11] = [
        Slip::WiresFirst,
        Slip::ShapesByTheWay,
        Slip::CodeByCode,
        Slip::RunsFromZero,
        Slip::LastRunLeftOut,
        Slip::ReversalsPass,
        Slip::OneCornerMore,
        Slip::TrimmedBoxes,
        Slip::ClosedBoxes,
        Slip::FewRunsOnly,
        Slip::StraightDistance,
    ];

    /// Another order in which the runs are looked at.
    pub fn stages(self) -> Option<&'static [&'static [Finding]]> {
        use Finding::{BadShape, InKeepout, NearWire, OffBoard};
        match self {
            Slip::WiresFirst => Some(&[&[BadShape], &[OffBoard, NearWire, InKeepout]]),
            Slip::ShapesByTheWay => Some(&[&[BadShape, OffBoard, InKeepout, NearWire]]),
            Slip::CodeByCode => Some(&[&[BadShape], &[OffBoard], &[InKeepout], &[NearWire]]),
            _ => None,
        }
    }

    /// The number of the first run.
    pub fn first_number(self) -> usize {
        usize::from(self != Slip::RunsFromZero)
    }

    pub fn runs_left_out(self) -> usize {
        usize::from(self == Slip::LastRunLeftOut)
    }

    pub fn most_corners(self) -> usize {
        MAX_CORNERS + usize::from(self == Slip::OneCornerMore)
    }

    /// Is a run along the axis of the one before let pass? The corners begin
    /// with those of the two runs.
    pub fn forgives_turn(self, corners: &[Point]) -> bool {
        let along = |from: Point, to: Point| ((to.x - from.x).signum(), (to.y - from.y).signum());
        self == Slip::ReversalsPass
            && along(corners[0], corners[1]) != along(corners[1], corners[2])
    }

    pub fn more_clearance(self) -> i32 {
        i32::from(self == Slip::ClosedBoxes)
    }

    /// Is a run too near to a laid one let pass?
    pub fn forgives_nearness(self, run: Rect, laid: Rect, frame: &Frame) -> bool {
        let trimmed = laid.widened(frame.clearance).common(frame.rect());
        self == Slip::TrimmedBoxes && !trimmed.interior_meets(run)
    }

    /// The length that a wire's excess is counted from.
    pub fn least_length(self, shortest: &Wire, wire: &Wire) -> i64 {
        i64::from(match self {
            Slip::FewRunsOnly if shortest.run_count() > MAX_RUNS => wire.length(),
            Slip::StraightDistance => shortest.start().steps_to(shortest.end()),
            _ => shortest.length(),
        })
    }
}
