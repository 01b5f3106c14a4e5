//! Wires to draw, most of them legal or nearly so.

use crate::generate::maker::{Maker, Mix};
use crate::geometry::{Point, Rect};
use crate::limits::{MAX_CORNERS, MAX_RUNS};
use crate::record::Pins;

/// How often something is tried before it is left.
const TRIES: usize = 6;

pub type Corners = Vec<Point>;

/// A wire of any sort on the maker's board.
pub fn any(maker: &mut Maker) -> Corners {
    match maker.rng.weighted(&[24, 20, 24, 12, 10, 10]) {
        0 => answered(maker),
        1 => {
            let corners = answered(maker);
            bumped(maker, corners)
        }
        2 => roaming(maker),
        3 => along_a_block(maker),
        4 => along_a_seam(maker),
        _ => blind(maker),
    }
}

/// How nodes are aimed at on a board of this size.
fn mix(maker: &Maker) -> Mix {
    let (w, h) = maker.size();
    Mix { weights: [0; 6], ids: 1, reach: (w.max(h) / 4).max(4), on_sides: 45, across: 50 }
}

/// The shortest wire between two pins, or a plain corner where there is none.
fn answered(maker: &mut Maker) -> Corners {
    let Pins { s, t } = maker.pins(&mix(maker));
    shortest(maker, s, t).unwrap_or_else(|| {
        let mut corners = vec![s, Point::new(t.x, s.y), t];
        corners.dedup();
        corners
    })
}

/// The shortest wire as it is drawn; of one with too many runs mostly the first
/// part, which is a shortest wire as well.
pub fn shortest(maker: &mut Maker, s: Point, t: Point) -> Option<Corners> {
    let mut corners = maker.board.shortest(s, t)?.corners().to_vec();
    if corners.len() > MAX_CORNERS && maker.rng.chance(75) {
        corners.truncate(MAX_CORNERS);
    }
    Some(corners)
}

/// The wire with a few of its runs turned aside, mostly where there is room.
pub fn bumped(maker: &mut Maker, mut corners: Corners) -> Corners {
    let blocks = maker.board.blocks();
    for _ in 0..maker.rng.range(1, 4) {
        let mut bumped = bump(maker, &corners);
        for _ in 0..TRIES {
            if bumped.windows(2).all(|ends| is_free(maker, &blocks, ends[0], ends[1])) {
                break;
            }
            bumped = bump(maker, &corners);
        }
        corners = bumped;
    }
    corners
}

/// The wire with one run turned aside: out, along and back. Only at the ends of
/// the wire may that begin where the run does; elsewhere it would go on along
/// the run beside it.
fn bump(maker: &mut Maker, corners: &[Point]) -> Corners {
    let index = maker.rng.range(0, corners.len() as i32 - 2) as usize;
    let Some(&[p, q]) = corners.get(index..index + 2) else { return corners.to_vec() };
    let (low, high) = (i32::from(index > 0), i32::from(index + 2 < corners.len()));
    let length = p.steps_to(q) as i32;
    let from = maker.rng.range(low, length - high - 1);
    let to = maker.rng.range(from + 1, length - high);
    let reach = if maker.rng.chance(70) { 3 } else { mix(maker).reach };
    let aside = maker.rng.range(1, reach) * maker.rng.pick(&[-1, 1]);
    let (dx, dy) = ((q.x - p.x).signum(), (q.y - p.y).signum());
    if from >= to || to > length - high || dx * dy != 0 {
        return corners.to_vec();
    }
    let at = |along: i32, aside: i32| {
        Point::new(p.x + along * dx - aside * dy, p.y + along * dy + aside * dx)
    };
    let turn = [at(from, 0), at(from, aside), at(to, aside), at(to, 0)];
    let mut bumped = [&corners[..=index], &turn, &corners[index + 1..]].concat();
    bumped.dedup();
    bumped
}

/// Can a run go there?
fn is_free(maker: &Maker, blocks: &[Rect], from: Point, to: Point) -> bool {
    let (frame, run) = (maker.frame(), Rect::spanned(from, to));
    frame.holds(from) && frame.holds(to) && !blocks.iter().any(|block| block.interior_meets(run))
}

/// A way through free room, run by run, over itself as it comes.
fn roaming(maker: &mut Maker) -> Corners {
    let runs = match maker.rng.weighted(&[55, 15, 20, 10]) {
        0 => maker.rng.range(1, 6),
        1 => maker.rng.range(7, MAX_RUNS as i32 - 1),
        2 => MAX_RUNS as i32,
        _ => MAX_RUNS as i32 + 1,
    };
    let blocks = maker.board.blocks();
    let mut corners = vec![maker.pins(&mix(maker)).s];
    let mut along_x = maker.rng.chance(50);
    for _ in 0..runs {
        let at = corners[corners.len() - 1];
        let next = first_free(maker, &blocks, at, along_x);
        if next == at {
            break;
        }
        corners.push(next);
        along_x = !along_x;
    }
    corners
}

/// A node straight on from a node, mostly one that a run can go to.
fn first_free(maker: &mut Maker, blocks: &[Rect], at: Point, along_x: bool) -> Point {
    let mut next = target(maker, at, along_x);
    for _ in 0..TRIES {
        if next != at && is_free(maker, blocks, at, next) {
            break;
        }
        next = target(maker, at, along_x);
    }
    next
}

/// A node straight on: near, on the side of a block, or anywhere.
fn target(maker: &mut Maker, at: Point, along_x: bool) -> Point {
    let near = maker.rng.chance(50);
    let step = maker.rng.range(1, 3) * maker.rng.pick(&[-1, 1]);
    let far = maker.aimed_node(&mix(maker));
    match (along_x, near) {
        (true, true) => Point::new(at.x + step, at.y),
        (false, true) => Point::new(at.x, at.y + step),
        (true, false) => Point::new(far.x, at.y),
        (false, false) => Point::new(at.x, far.y),
    }
}

/// A way along the sides of a block, or one unit inside or outside of them. A
/// wire's box gives a way at exactly the clearance.
fn along_a_block(maker: &mut Maker) -> Corners {
    let blocks = maker.board.blocks();
    if blocks.is_empty() {
        return roaming(maker);
    }
    let away = [-1, 0, 1][maker.rng.weighted(&[15, 70, 15])];
    let Rect { x0, y0, x1, y1 } = maker.rng.pick(&blocks).widened(away);
    let mut round = [(x0, y0), (x1, y0), (x1, y1), (x0, y1)].map(|(x, y)| Point::new(x, y));
    if maker.rng.chance(80) {
        let frame = maker.frame();
        round = round.map(|corner| frame.nearest(corner));
    }
    let first = maker.rng.range(0, 3) as usize;
    round.rotate_left(first);
    if maker.rng.chance(50) {
        round.reverse();
    }
    let count = maker.rng.range(2, 5) as usize;
    let mut corners: Corners = round.into_iter().cycle().take(count).collect();
    if maker.rng.chance(50) {
        let Rect { x0, y0, x1, y1 } = Rect::spanned(corners[0], corners[1]);
        corners[0] = Point::new(maker.rng.range(x0, x1), maker.rng.range(y0, y1));
    }
    corners
}

/// A way along a seam between keep-outs, along a part of it, or only up to its end,
/// perhaps with a run across at either end. A block's side where there is no seam.
fn along_a_seam(maker: &mut Maker) -> Corners {
    let seams: Vec<Rect> = maker.board.cover().seams().collect();
    if seams.is_empty() {
        return along_a_block(maker);
    }
    let seam = maker.rng.pick(&seams);
    let upright = seam.x0 == seam.x1;
    let (low, high) = if upright { (seam.y0, seam.y1) } else { (seam.x0, seam.x1) };
    let reach = mix(maker).reach.min(high - low + 2);
    let (frame, rng) = (maker.frame(), &mut maker.rng);
    let (from, to) = match rng.range(0, 4) {
        0 => (low - rng.range(0, reach), high + rng.range(0, reach)),
        1 => (low - rng.range(1, reach), low),
        2 => (high, high + rng.range(1, reach)),
        3 => (low - rng.range(1, reach), low + 1),
        _ => (low, rng.range(low + 1, high)),
    };
    let node = |along: i32, aside: i32| {
        let (x, y) = if upright { (seam.x0 + aside, along) } else { (along, seam.y0 + aside) };
        frame.nearest(Point::new(x, y))
    };
    let mut corners = vec![node(from, 0), node(to, 0)];
    let aside = rng.pick(&[-reach, -1, 1, reach]);
    if rng.chance(50) {
        corners.insert(0, node(from, aside));
    }
    if rng.chance(50) {
        corners.push(node(to, aside));
    }
    corners.dedup();
    corners
}

/// Runs that turn, with no regard to what stands there.
fn blind(maker: &mut Maker) -> Corners {
    let most = if maker.rng.chance(80) { 6 } else { MAX_RUNS as i32 };
    let mix = mix(maker);
    let mut corners = vec![maker.aimed_node(&mix)];
    let mut along_x = maker.rng.chance(50);
    for _ in 0..maker.rng.range(1, most) {
        let (at, to) = (corners[corners.len() - 1], maker.aimed_node(&mix));
        corners.push(if along_x { Point::new(to.x, at.y) } else { Point::new(at.x, to.y) });
        along_x = !along_x;
    }
    corners
}
