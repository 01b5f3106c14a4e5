//! The search over rooms against the search over unit nodes.

mod common;

use bench::cells::Cover;
use bench::fault::Fault;
use bench::generate::Style;
use bench::geometry::{Point, Rect};
use bench::item::Frame;
use bench::limits::{MAX_BLOCKS, RECORD_BYTES};
use bench::record::Record;
use bench::rng::Rng;
use bench::route::Method;
use bench::unit::UnitMap;
use bench::wide::WideMap;
use common::sheet_by;

/// A board as the searches see it, with pairs of pins on free nodes. Some of the
/// blocks, none of which overlap, are its keep-outs.
struct Scene {
    frame: Frame,
    blocks: Vec<Rect>,
    keepouts: Vec<Rect>,
    pins: Vec<(Point, Point)>,
}

/// How the random boards of a test look.
#[derive(Clone, Copy)]
struct Look {
    w: (i32, i32),
    h: (i32, i32),
    boards: u64,
    /// One in so many pairs of pins is asked for the fewest runs too.
    straight: usize,
}

/// A coordinate of a block, which may lie outside the board.
fn side(rng: &mut Rng, last: i32, pool: &[i32]) -> i32 {
    match rng.range(0, 9) {
        0..=4 => rng.pick(pool),
        5 => rng.pick(&[0, last]),
        6 => rng.range(-3, last + 3),
        _ => rng.range(0, last),
    }
}

/// Two sides of a block, the first the smaller. The block reaches onto the
/// board, as keep-outs and boxes of wires do.
fn span(rng: &mut Rng, last: i32, pool: &[i32]) -> (i32, i32) {
    loop {
        let from = side(rng, last, pool);
        let to = match rng.range(0, 3) {
            0 => from + 1,
            1 => from + rng.range(1, 1 + last / 4),
            _ => side(rng, last, pool),
        };
        let (from, to) = (from.min(to), from.max(to));
        if from < to && from < last && to > 0 {
            return (from, to);
        }
    }
}

impl Scene {
    fn random(rng: &mut Rng, look: Look) -> Scene {
        let (w, h) = (rng.range(look.w.0, look.w.1), rng.range(look.h.0, look.h.1));
        // Sides drawn from a few coordinates touch, abut and overlap.
        let mut few = |last| -> Vec<i32> { (0..6).map(|_| rng.range(0, last)).collect() };
        let (xs, ys) = (few(w), few(h));
        let count = rng.pick(&[1, 2, 3, 5, 8, 13, 21, MAX_BLOCKS]);
        let blocks: Vec<Rect> = (0..count)
            .map(|_| {
                let ((x0, x1), (y0, y1)) = (span(rng, w, &xs), span(rng, h, &ys));
                Rect::new(x0, y0, x1, y1)
            })
            .collect();
        let frame = Frame { w, h, clearance: 1 };
        let keepouts = some_apart(rng, &frame, &blocks);
        let cover = Cover::new(&frame, keepouts.iter().copied());
        let mut free = Vec::new();
        for _ in 0..60 {
            let p = Point::new(side(rng, w, &xs).clamp(0, w), side(rng, h, &ys).clamp(0, h));
            if !blocks.iter().any(|block| block.interior_holds(p)) && !cover.closes_node(p) {
                free.push(p);
            }
        }
        let pairs = free.chunks_exact(2).map(|pair| (pair[0], pair[1]));
        let pins = pairs.filter(|(s, t)| s != t).take(4).collect();
        Scene { frame, blocks, keepouts, pins }
    }
}

/// Some of the blocks that lie on the board, no two of which overlap.
fn some_apart(rng: &mut Rng, frame: &Frame, blocks: &[Rect]) -> Vec<Rect> {
    let mut some: Vec<Rect> = Vec::new();
    for block in blocks.iter().filter(|block| block.common(frame.rect()) == **block) {
        if rng.chance(80) && !some.iter().any(|other| other.interior_meets(*block)) {
            some.push(*block);
        }
    }
    some
}

/// How often the two searches were asked, how often a wire was found with and
/// without a detour, how often on a board with seams, and how often kind 8's wire was
/// not kind 4's.
#[derive(Default, Debug)]
struct Counts {
    asked: usize,
    straight: usize,
    detours: usize,
    with_seams: usize,
    unlike: usize,
}

/// Compares the two searches on random boards; the fault is the wide search's.
fn compare(look: Look, fault: Fault) -> Result<Counts, String> {
    let mut counts = Counts::default();
    let (mut unit, mut wide) = (UnitMap::default(), WideMap::default());
    for seed in 0..look.boards {
        let scene = Scene::random(&mut Rng::new(seed), look);
        let cover = Cover::new(&scene.frame, scene.keepouts.iter().copied());
        let seams = cover.seams().count();
        unit.lay_out(&scene.frame, &scene.blocks, &cover);
        wide.lay_out(&scene.frame, &scene.blocks, &fault.spoil_cover(cover), fault);
        for &(s, t) in &scene.pins {
            let (by_unit, by_wide) = (unit.shortest(s, t), wide.shortest(s, t));
            if by_unit != by_wide {
                return Err(format!("board {seed}, {s:?} to {t:?}: {by_unit:?}, {by_wide:?}"));
            }
            if counts.asked % look.straight == 0 {
                let straight = unit.straightest(s, t, Fault::None);
                let by_wide = wide.straightest(s, t, fault);
                if straight != by_wide {
                    return Err(format!("board {seed}, {s:?} to {t:?}: {straight:?}, {by_wide:?}"));
                }
                counts.unlike += usize::from(by_unit != straight);
            }
            counts.asked += 1;
            counts.with_seams += usize::from(seams > 0);
            match by_unit.map(|wire| wire.detour()) {
                Some(0) => counts.straight += 1,
                Some(_) => counts.detours += 1,
                None => {}
            }
        }
    }
    Ok(counts)
}

const SMALL: Look = Look { w: (1, 12), h: (1, 12), boards: 60_000, straight: 6 };
const MIDDLE: Look = Look { w: (13, 90), h: (13, 90), boards: 10_000, straight: 4 };
const WIDE: Look = Look { w: (300, 700), h: (300, 700), boards: 300, straight: 6 };
const LIMIT: Look = Look { w: (1_990, 1_999), h: (1_990, 1_999), boards: 20, straight: 16 };
const STRIP: Look = Look { w: (30_000, 30_000), h: (20, 120), boards: 30, straight: 16 };

fn assert_agreement(look: Look, least: usize) {
    let counts = compare(look, Fault::None).unwrap_or_else(|difference| panic!("{difference}"));
    let Counts { asked, straight, detours, with_seams, unlike } = counts;
    assert!(straight > least && detours > least && asked > straight + detours, "{counts:?}");
    assert!(with_seams > least && 2 * look.straight * unlike > least, "{counts:?}");
}

#[test]
fn small_boards_agree() {
    assert_agreement(SMALL, 20_000);
}

#[test]
fn middle_boards_agree() {
    assert_agreement(MIDDLE, 4_000);
}

#[test]
fn wide_boards_agree() {
    assert_agreement(WIDE, 100);
}

#[test]
fn the_largest_boards_of_the_unit_search_agree() {
    assert_agreement(LIMIT, 10);
    assert_agreement(STRIP, 10);
}

#[test]
fn a_search_without_the_inner_sides_is_noticed() {
    for look in [SMALL, MIDDLE, WIDE] {
        assert!(compare(look, Fault::OuterSides).is_err());
    }
}

#[test]
fn another_order_of_straight_wires_is_noticed() {
    for look in [SMALL, MIDDLE, WIDE] {
        assert!(compare(look, Fault::OtherOrder).is_err());
    }
}

#[test]
fn a_search_that_leaves_seams_open_is_noticed() {
    for look in [SMALL, MIDDLE, WIDE] {
        assert!(compare(look, Fault::OpenSeams).is_err());
    }
}

/// Drawn larger by a whole factor, a board has the same wires, drawn larger:
/// in the larger board a run between two multiples of the factor can always be
/// pushed onto one of them without becoming longer or later in the order,
/// since no block has a side between them. So the unit search on a small board
/// tells what the wide search must say on one of 30,000.
fn compare_enlarged(fault: Fault) -> Result<(), String> {
    let look = Look { w: (20, 40), h: (20, 40), boards: 400, straight: 1 };
    let factor = 750;
    let (mut unit, mut wide) = (UnitMap::default(), WideMap::default());
    for seed in 0..look.boards {
        let scene = Scene::random(&mut Rng::new(seed), look);
        let Frame { w, h, clearance } = scene.frame;
        let large = Frame { w: factor * w, h: factor * h, clearance };
        let enlarge = |block: &Rect| {
            let Rect { x0, y0, x1, y1 } = *block;
            Rect::new(factor * x0, factor * y0, factor * x1, factor * y1)
        };
        let blocks: Vec<Rect> = scene.blocks.iter().map(enlarge).collect();
        let cover = Cover::new(&scene.frame, scene.keepouts.iter().copied());
        let large_cover = Cover::new(&large, scene.keepouts.iter().map(enlarge));
        unit.lay_out(&scene.frame, &scene.blocks, &cover);
        wide.lay_out(&large, &blocks, &fault.spoil_cover(large_cover), fault);
        let point = |p: &Point| Point::new(factor * p.x, factor * p.y);
        for (s, t) in &scene.pins {
            let small: Option<Vec<Point>> =
                unit.shortest(*s, *t).map(|wire| wire.corners().iter().map(point).collect());
            let large = wide.shortest(point(s), point(t)).map(|wire| wire.corners().to_vec());
            if small != large {
                return Err(format!("board {seed}: {small:?}, {large:?}"));
            }
            let small: Option<Vec<Point>> = unit
                .straightest(*s, *t, Fault::None)
                .map(|wire| wire.corners().iter().map(point).collect());
            let large = wide.straightest(point(s), point(t), fault);
            let large = large.map(|wire| wire.corners().to_vec());
            if small != large {
                return Err(format!("board {seed}, straight: {small:?}, {large:?}"));
            }
        }
    }
    Ok(())
}

#[test]
fn enlarged_boards_agree() {
    assert_eq!(compare_enlarged(Fault::None), Ok(()));
    assert!(compare_enlarged(Fault::OuterSides).is_err());
    assert!(compare_enlarged(Fault::OpenSeams).is_err());
}

/// Does a record leave the board small enough for the unit search to be quick?
fn is_for_both(record: &[u8]) -> bool {
    match Record::read(record) {
        Some(Record::Bounds { w, h, .. }) => w.saturating_mul(h) <= 50_000,
        _ => true,
    }
}

/// Whole files, so that wires with their boxes come in too.
#[test]
fn files_agree() {
    for (style, files, records) in [
        ("small", 300, 200),
        ("flush", 100, 200),
        ("maze", 100, 200),
        ("history", 4, 1_500),
        ("bricks", 300, 200),
    ] {
        let style = Style::named(style).expect("a style of the generator");
        for seed in 1_000..1_000 + files {
            let file = style.file(seed, records);
            if !file.chunks(RECORD_BYTES).all(is_for_both) {
                continue;
            }
            let unit = sheet_by(&file, Method::Unit, Fault::None);
            let wide = sheet_by(&file, Method::Wide, Fault::None);
            assert!(unit == wide, "{} {seed}: the sheets differ", style.name);
        }
    }
}
