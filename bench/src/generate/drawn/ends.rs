//! Ends of piece files: cut short, with another letter, at the limit.

use super::Drawer;
use crate::drawn::pieces::put_drawn;
use crate::limits::{MAX_PIECES, RECORD_BYTES};
use crate::record::Record;

/// Letters that begin no piece.
const OTHER_LETTERS: [u8; 8] = [0, b'R', b'W', b'q', b's', b'x', b'\n', 255];

/// Ends the file with a piece that is cut short or has another letter, which
/// whole pieces may follow.
pub fn cut_short(drawer: &mut Drawer) {
    let rng = &mut drawer.maker.rng;
    let any = |count: i32| vec![1; count as usize];
    let end = match rng.range(0, 3) {
        0 => [b"r".to_vec(), any(rng.range(0, RECORD_BYTES as i32 - 1))].concat(),
        1 => b"w".to_vec(),
        2 => {
            let count = rng.range(1, 255);
            [vec![b'w', count as u8], any(rng.range(0, 2 * count - 1))].concat()
        }
        _ => {
            let mut end = vec![rng.pick(&OTHER_LETTERS)];
            for _ in 0..rng.range(0, 3) {
                put_drawn(&mut end, &[0, 0, 1, 0]);
            }
            end
        }
    };
    drawer.file.extend(end);
}

/// Records up to the last piece but one that is read.
pub fn fill_up(drawer: &mut Drawer) {
    while drawer.pieces < MAX_PIECES - 1 {
        drawer.put(Record::Undo);
    }
}

/// Goes on after the last piece that is read: with a wire, or with what is none.
pub fn go_on(drawer: &mut Drawer) {
    if drawer.maker.rng.chance(50) {
        put_drawn(&mut drawer.file, &[0, 0, 1, 0]);
    } else {
        let letter = drawer.maker.rng.pick(&OTHER_LETTERS);
        drawer.file.push(letter);
    }
}
