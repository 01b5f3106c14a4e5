//! Boards with random items and asks.

use super::maker::{Maker, Mix};
use crate::limits::{MAX_BLOCKS, MAX_CLEARANCE, MAX_SIDE};

pub fn small(maker: &mut Maker) {
    let (w, h) = (maker.rng.range(1, 14), maker.rng.range(1, 14));
    let clearance = maker.rng.range(1, 2);
    maker.bounds(w, h, clearance);
    let mix = Mix { weights: [22, 18, 40, 8, 4, 8], ids: 12, reach: 7, on_sides: 20, across: 80 };
    let count = maker.rng.range(20, 80);
    maker.stir(&mix, count);
}

pub fn history(maker: &mut Maker) {
    let (w, h) = (maker.rng.range(60, 200), maker.rng.range(60, 200));
    let clearance = maker.rng.range(1, 5);
    maker.bounds(w, h, clearance);
    let mix =
        Mix { weights: [20, 25, 20, 18, 10, 7], ids: 40, reach: 40, on_sides: 15, across: 60 };
    maker.stir(&mix, 600);
}

pub fn large(maker: &mut Maker) {
    let most = maker.rng.pick(&[4_000, 12_000, MAX_SIDE]);
    let mut side = || if maker.rng.chance(30) { most } else { maker.rng.range(most / 2, most) };
    let (w, h) = (side(), side());
    let clearance = maker.rng.range(1, MAX_CLEARANCE);
    maker.bounds(w, h, clearance);
    let fill = Mix {
        weights: [80, 20, 0, 0, 0, 0],
        ids: i32::from(u16::MAX),
        reach: most / 4,
        on_sides: 25,
        across: 50,
    };
    let count = maker.rng.range(5, 60);
    maker.stir(&fill, count);
    let mix = Mix { weights: [10, 15, 60, 5, 5, 5], ..fill };
    maker.stir(&mix, 100);
}

/// Boards of the largest size, asked many times.
pub fn widest(maker: &mut Maker) {
    let clearance = maker.rng.range(1, MAX_CLEARANCE);
    maker.bounds(MAX_SIDE, MAX_SIDE, clearance);
    let mix = Mix {
        weights: [5, 6, 78, 4, 3, 4],
        ids: i32::from(u16::MAX),
        reach: MAX_SIDE / 4,
        on_sides: 20,
        across: 60,
    };
    let blocks = maker.rng.range(8, MAX_BLOCKS as i32) as usize;
    fill(maker, &mix, blocks);
    maker.stir(&mix, 200);
}

/// A nearly full board, changed and asked by turns.
pub fn full(maker: &mut Maker) {
    let mix = full_board(maker);
    maker.stir(&mix, 500);
}

/// One such board until the file has its records.
pub fn long(maker: &mut Maker) {
    let mix = full_board(maker);
    while maker.left() > 0 {
        maker.stir(&mix, 1);
    }
}

/// Begins a board and fills it.
fn full_board(maker: &mut Maker) -> Mix {
    let side = maker.rng.pick(&[120, 250, 3_000, MAX_SIDE]);
    let (w, h) = (side, maker.rng.range(side / 2, side));
    let clearance = maker.rng.range(1, side / 150);
    maker.bounds(w, h, clearance);
    let mix = Mix {
        weights: [12, 12, 56, 10, 3, 7],
        ids: i32::from(u16::MAX),
        reach: side / 5,
        on_sides: 20,
        across: 60,
    };
    fill(maker, &mix, MAX_BLOCKS - 2);
    mix
}

/// Adds keep-outs and wires until the board has that many blocks; a board with
/// little room may stay below.
fn fill(maker: &mut Maker, mix: &Mix, blocks: usize) {
    fill_with(maker, &Mix { weights: [75, 25, 0, 0, 0, 0], ..*mix }, blocks);
}

/// The same with a mix that only adds.
pub fn fill_with(maker: &mut Maker, adding: &Mix, blocks: usize) {
    for _ in 0..4 * MAX_BLOCKS {
        if maker.board.block_count() >= blocks {
            return;
        }
        maker.stir(adding, 1);
    }
}

pub fn flush(maker: &mut Maker) {
    let (w, h) = (maker.rng.range(3, 40), maker.rng.range(3, 40));
    let clearance = maker.rng.range(1, 4);
    maker.bounds(w, h, clearance);
    let mix = Mix { weights: [30, 15, 40, 6, 4, 5], ids: 60, reach: 8, on_sides: 85, across: 50 };
    let count = maker.rng.range(40, 120);
    maker.stir(&mix, count);
}
