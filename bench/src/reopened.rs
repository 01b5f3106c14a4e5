//! What would be said if seams were left open, so that a tally can tell how often
//! document 02's order 3 matters.

use crate::board::Board;
use crate::code::Code;
use crate::crowd::{self, Crowd};
use crate::drawn;
use crate::drawn::slip::Slip;
use crate::fault::Fault;
use crate::item::Item;
use crate::record::Record;
use crate::route::{Method, Router};
use crate::sheet::Seen;

/// A board that leaves seams open and follows another one.
pub struct Reopened {
    board: Board,
}

impl Default for Reopened {
    fn default() -> Reopened {
        let router = Router::new(Method::BySize, Fault::OpenSeams);
        Reopened { board: Board::with_router(router) }
    }
}

impl Reopened {
    /// Do seams change the answer to a lay, an ask or a keep-out that was just
    /// seen? Other records pay no regard to them.
    pub fn answers_otherwise(&mut self, seen: &Seen) -> bool {
        let may_matter = match Record::read(seen.piece) {
            Some(Record::Keepout { .. }) => seen.answer.code == Code::MeetsWire,
            Some(record) => record.pins().is_some() && has_seams(seen.board),
            None => false,
        };
        if may_matter {
            follow(&mut self.board, seen.board, just_laid(seen));
        }
        may_matter && self.board.take(seen.piece) != *seen.answer
    }

    /// Do seams change what is said of a drawn wire that was just seen?
    pub fn judges_otherwise(&mut self, seen: &drawn::sheet::Seen) -> bool {
        if !has_seams(seen.board) {
            return false;
        }
        follow(&mut self.board, seen.board, None);
        let open = drawn::judge(&mut self.board, seen.numbers, Slip::None);
        let told = |verdict: &drawn::Verdict| (verdict.finding, verdict.run, verdict.excess);
        told(&open) != told(seen.verdict)
    }

    /// Do seams change the crowding sheet of a board?
    pub fn crowds_otherwise(&mut self, sheet: &Crowd, board: &Board) -> bool {
        if !has_seams(board) {
            return false;
        }
        follow(&mut self.board, board, None);
        Crowd::of(&mut self.board, crowd::slip::Slip::None).as_ref() != Some(sheet)
    }
}

/// The wire that a lay has just brought onto the board, which it did not find there.
pub fn just_laid(seen: &Seen) -> Option<u16> {
    let laid = Record::read(seen.piece).and_then(|record| record.laid());
    laid.filter(|_| seen.answer.code == Code::Accepted)
}

/// Takes over the items of a board without the one of an id, unless they stand on the
/// follower already.
pub fn follow(follower: &mut Board, board: &Board, without: Option<u16>) {
    let same_size = follower.frame() == board.frame();
    if !(same_size && follower.items().eq(items_without(board, without))) {
        follower.stand(board.frame().copied(), items_without(board, without));
    }
}

fn items_without(board: &Board, without: Option<u16>) -> impl Iterator<Item = (u16, &Item)> {
    board.items().filter(move |(id, _)| Some(*id) != without)
}

fn has_seams(board: &Board) -> bool {
    board.cover().seams().next().is_some()
}
