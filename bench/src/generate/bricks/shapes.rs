//! Where bricks go: beside sides of other bricks, and beside runs of wires.

use crate::generate::maker::Maker;
use crate::geometry::Rect;

/// The longest side of a brick, in units.
pub const LONGEST: i32 = 6;

/// How a board is drawn: a unit of its bricks is so many units of the grid.
pub type Scale = i32;

/// The way out of a brick through one of its sides, as a step in x and y.
pub type Outward = (i32, i32);

/// A length of a few units, on a larger board mostly not a whole number of them.
pub fn length(maker: &mut Maker, scale: Scale) -> i32 {
    let units = maker.rng.range(1, LONGEST);
    (units * scale - maker.rng.range(0, scale / 2)).max(1)
}

/// A side of a brick, and the direction away from the brick.
pub fn any_side(maker: &mut Maker, brick: Rect) -> (Rect, Outward) {
    let Rect { x0, y0, x1, y1 } = brick;
    maker.rng.pick(&[
        (Rect::new(x0, y0, x0, y1), (-1, 0)),
        (Rect::new(x1, y0, x1, y1), (1, 0)),
        (Rect::new(x0, y0, x1, y0), (0, -1)),
        (Rect::new(x0, y1, x1, y1), (0, 1)),
    ])
}

/// A stretch of the line through a segment: the segment, a part of it, or one that
/// begins or ends beyond it, or only touches its end.
pub fn stretch_along(maker: &mut Maker, segment: Rect, scale: Scale) -> Rect {
    let upright = segment.x0 == segment.x1;
    let (low, high) = if upright { (segment.y0, segment.y1) } else { (segment.x0, segment.x1) };
    let aside = length(maker, scale);
    let (mut from, mut to) = (low, high);
    match maker.rng.range(0, 5) {
        0 => {}
        1 => to = low + aside,
        2 => from = high - aside,
        3 => (from, to) = (low - aside, maker.rng.range(low, high)),
        4 => (from, to) = (maker.rng.range(low, high), high + aside),
        _ => (from, to) = (high, high + aside),
    }
    if upright {
        Rect::new(segment.x0, from, segment.x0, to)
    } else {
        Rect::new(from, segment.y0, to, segment.y0)
    }
}

/// The rectangle on one side of a segment, as far as the board goes.
pub fn thickened(maker: &mut Maker, segment: Rect, outward: Outward, scale: Scale) -> Rect {
    let (thick, frame) = (length(maker, scale), maker.frame());
    let Rect { mut x0, mut y0, mut x1, mut y1 } = segment;
    match outward {
        (-1, _) => x0 -= thick,
        (1, _) => x1 += thick,
        (_, -1) => y0 -= thick,
        _ => y1 += thick,
    }
    Rect::new(x0, y0, x1, y1).common(frame)
}

/// What runs of wires have in common with sides of bricks, each with the way out of
/// the brick.
pub fn runs_along_bricks(maker: &Maker) -> Vec<(Rect, Outward)> {
    let board = &maker.board;
    let runs = board.wires().flat_map(|wire| wire.runs());
    let pairs = runs.flat_map(|run| board.keepouts().map(move |brick| (run, brick)));
    pairs.filter_map(|(run, brick)| along(run, brick)).collect()
}

/// The part of a run that lies along a side of a brick, if it is more than a point. No
/// run goes through a brick.
fn along(run: Rect, brick: Rect) -> Option<(Rect, Outward)> {
    let shared = run.touches(brick).then(|| run.common(brick))?;
    if run.x0 == run.x1 {
        let outward = if run.x0 == brick.x0 { (-1, 0) } else { (1, 0) };
        (shared.y0 < shared.y1).then_some((shared, outward))
    } else {
        let outward = if run.y0 == brick.y0 { (0, -1) } else { (0, 1) };
        (shared.x0 < shared.x1).then_some((shared, outward))
    }
}
