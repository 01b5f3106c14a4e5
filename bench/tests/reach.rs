//! How far a wire can get, held against the search node by node.

mod common;

use bench::board::Board;
use bench::generate::Style;
use bench::geometry::Point;
use bench::limits::RECORD_BYTES;
use bench::reach::Reach;
use bench::rng::Rng;
use bench::stand::Stand;
use common::is_small;

/// On small random boards: a node is reached exactly if the unit search finds a wire to it,
/// and the nearest reached node to t is as near as any.
#[test]
fn what_is_reached_is_what_a_wire_can_get_to() {
    let (mut rng, mut shut) = (Rng::new(7), 0);
    for (seed, style) in [(1, "small"), (2, "bricks"), (3, "maze"), (4, "flush"), (5, "pins")] {
        let file = Style::named(style).expect("a style").file(seed, 400);
        let mut board = Board::default();
        for piece in file.chunks(RECORD_BYTES).filter(|piece| is_small(piece)) {
            board.take(piece);
            let Some(frame) = board.frame().copied() else { continue };
            if frame.nodes() > 4_000 {
                continue;
            }
            let mut node = || Point::new(rng.range(0, frame.w), rng.range(0, frame.h));
            let (s, t) = (node(), node());
            // a pin on a blocked node is refused before a wire is looked for
            if board.node_blocked(s) {
                continue;
            }
            let reach = Reach::of(&frame, Stand::of(&board).items.values(), s);
            let joined = s == t || board.shortest(s, t).is_some();
            assert_eq!(reach.holds(t), joined, "{style}: {s:?} to {t:?}");
            if let (false, Some(near)) = (joined, reach.nearest(t)) {
                shut += 1;
                assert!(near == s || board.shortest(s, near).is_some());
                let all = (0..=frame.w).flat_map(|x| (0..=frame.h).map(move |y| Point::new(x, y)));
                let nearer = |p: &Point| p.steps_to(t) < near.steps_to(t) && reach.holds(*p);
                assert_eq!(all.filter(nearer).count(), 0);
            }
        }
    }
    assert!(shut > 50, "only {shut} pairs without a way");
}
