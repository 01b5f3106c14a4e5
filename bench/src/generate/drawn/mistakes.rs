//! Mistakes in a drawn wire.

use super::strokes::Corners;
use crate::generate::maker::Maker;
use crate::geometry::Point;
use crate::limits::MAX_CORNERS;

/// The numbers of a wire, perhaps with a mistake or two.
pub fn perhaps(maker: &mut Maker, mut corners: Corners) -> Vec<u16> {
    for _ in 0..maker.rng.weighted(&[66, 28, 6]) {
        corners = mistaken(maker, corners);
    }
    let number = |number: i32| number.clamp(0, i32::from(u16::MAX)) as u16;
    let mut numbers: Vec<u16> =
        corners.iter().flat_map(|corner| [number(corner.x), number(corner.y)]).collect();
    if maker.rng.chance(4) {
        miscount(maker, &mut numbers);
    }
    numbers
}

fn mistaken(maker: &mut Maker, mut corners: Corners) -> Corners {
    let last = corners.len() - 1;
    let index = maker.rng.range(0, last as i32) as usize;
    let corner = corners[index];
    match maker.rng.weighted(&[14, 10, 16, 18, 22, 20]) {
        // Back to where it began.
        0 => corners[last] = corners[0],
        // A run without length.
        1 => corners.insert(index, corner),
        // A slanted run, or two; at an end perhaps only another end.
        2 => corners[index] = moved(maker, corner),
        3 => unturned(maker, &mut corners, index.min(last.saturating_sub(1))),
        4 => off_board(maker, &mut corners, index),
        _ => shifted(maker, &mut corners, index.min(last.saturating_sub(1))),
    }
    corners
}

/// A node a little to one side.
fn moved(maker: &mut Maker, p: Point) -> Point {
    let by = maker.rng.range(1, 3) * maker.rng.pick(&[-1, 1]);
    if maker.rng.chance(50) {
        Point::new(p.x + by, p.y)
    } else {
        Point::new(p.x, p.y + by)
    }
}

/// A corner in the middle of a run, or past its end and back again.
fn unturned(maker: &mut Maker, corners: &mut Corners, index: usize) {
    let Some(&[p, q]) = corners.get(index..index + 2) else { return };
    let past = maker.rng.chance(40);
    let between = |a: i32, b: i32| if past { b + (b - a).signum() } else { a + (b - a) / 2 };
    corners.insert(index + 1, Point::new(between(p.x, q.x), between(p.y, q.y)));
}

/// Moves a corner off the board, and its neighbour with it, so that the runs
/// stay straight.
fn off_board(maker: &mut Maker, corners: &mut Corners, index: usize) {
    let (w, h) = maker.size();
    let past = maker.rng.pick(&[1, 1, 2, 500, 30_000, 70_000]);
    let (old, over_x) = (corners[index], maker.rng.chance(50));
    let level = |p: Point| if over_x { p.x } else { p.y };
    // All corners level with this one, as far as they follow one another.
    let before = corners[..index].iter().rev().take_while(|p| level(**p) == level(old)).count();
    let after = corners[index..].iter().take_while(|p| level(**p) == level(old)).count();
    for corner in &mut corners[index - before..index + after] {
        if over_x {
            corner.x = w + past;
        } else {
            corner.y = h + past;
        }
    }
}

/// Moves a run sideways, into whatever is there.
fn shifted(maker: &mut Maker, corners: &mut Corners, index: usize) {
    let Some(&[p, q]) = corners.get(index..index + 2) else { return };
    let far = maker.any_node();
    let near = maker.rng.chance(60);
    let by = maker.rng.range(1, 4) * maker.rng.pick(&[-1, 1]);
    for corner in &mut corners[index..index + 2] {
        if p.y == q.y {
            corner.y = if near { p.y + by } else { far.y };
        } else {
            corner.x = if near { p.x + by } else { far.x };
        }
    }
}

/// Leaves numbers out or adds some, so that they are no 2 to 25 corners.
fn miscount(maker: &mut Maker, numbers: &mut Vec<u16>) {
    let most = 2 * MAX_CORNERS as i32;
    let count = match maker.rng.range(0, 5) {
        0 | 1 => maker.rng.range(0, 3),
        2 | 3 => maker.rng.range(2, most / 2) * 2 - 1,
        4 => maker.rng.range(most + 1, most + 4),
        _ => maker.rng.pick(&[most + 2, 100, 128, 254, 255]),
    };
    let again = numbers.clone();
    numbers.extend(again.iter().cycle().take(usize::from(u8::MAX)));
    numbers.resize(count as usize, 0);
}
