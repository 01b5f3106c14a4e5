//! The fewest pieces that still show a difference.

use std::collections::BTreeMap;
use std::time::{Duration, Instant};

use super::Form;
use crate::board::Board;
use crate::code::Code;
use crate::record::Record;

/// Drops pieces of a file while `differs` says that the difference is still
/// there; after `patience` it ends with what it has then. `first` is the number
/// of the first piece that shows the difference, if a piece does.
pub fn shrink<F: Form>(
    file: &[u8],
    first: Option<usize>,
    patience: Duration,
    differs: impl FnMut(&[u8]) -> bool,
) -> Vec<u8> {
    let kept = F::split(file);
    let mut shrinking = Shrinking { kept, differs, end: Instant::now() + patience };
    if let Some(first) = first {
        shrinking.drop_at_once(first, F::record);
    }
    let mut size = shrinking.kept.len();
    while size > 1 {
        size = size.div_ceil(2);
        shrinking.drop_chunks(size);
    }
    // Each piece that goes may make another one needless.
    while shrinking.drop_chunks(1) {}
    shrinking.kept.concat()
}

struct Shrinking<'a, F> {
    kept: Vec<&'a [u8]>,
    differs: F,
    end: Instant,
}

impl<'a, F: FnMut(&[u8]) -> bool> Shrinking<'a, F> {
    /// Keeps only these pieces, if they show the difference in time.
    fn keep_only(&mut self, pieces: Vec<&'a [u8]>) -> bool {
        let shown = Instant::now() < self.end && (self.differs)(&pieces.concat());
        if shown {
            self.kept = pieces;
        }
        shown
    }

    /// Drops what comes after the piece, and of what comes before it all that
    /// should not matter: best, all but what gave the items that stand; else
    /// all that changed nothing. `record` gives the record of a piece.
    fn drop_at_once(&mut self, first: usize, record: fn(&[u8]) -> Option<&[u8]>) {
        let first = first.min(self.kept.len());
        if first == 0 || !self.keep_only(self.kept[..first].to_vec()) {
            return;
        }
        let history = History::of(self.kept[..first - 1].iter().map(|piece| record(piece)));
        for mut wanted in [history.standing(), history.changes] {
            wanted.push(first - 1);
            let pieces = wanted.into_iter().map(|index| self.kept[index]).collect();
            if self.keep_only(pieces) {
                return;
            }
        }
    }

    /// Tries to drop each chunk of that many pieces, the last ones first, since
    /// later pieces rest on earlier ones. Says if any went.
    fn drop_chunks(&mut self, size: usize) -> bool {
        let before = self.kept.len();
        let mut end = before;
        while end > 0 && Instant::now() < self.end {
            let from = end.saturating_sub(size);
            self.keep_only([&self.kept[..from], &self.kept[end..]].concat());
            end = from;
        }
        self.kept.len() < before
    }
}

/// What led to a board, as the indices of pieces.
struct History {
    board: Board,
    /// The latest bounds and every change since.
    changes: Vec<usize>,
    /// The latest record that added each id.
    added: BTreeMap<u16, usize>,
}

impl History {
    /// What the pieces led to, of which some are records.
    fn of<'a>(records: impl Iterator<Item = Option<&'a [u8]>>) -> History {
        let mut history =
            History { board: Board::default(), changes: Vec::new(), added: BTreeMap::new() };
        for (index, record) in records.enumerate() {
            if let Some(record) = record {
                history.note(index, record);
            }
        }
        history
    }

    fn note(&mut self, index: usize, record: &[u8]) {
        if self.board.take(record).code != Code::Accepted {
            return;
        }
        match Record::read(record) {
            Some(Record::Bounds { .. }) => self.changes.clear(),
            Some(
                Record::Keepout { id, .. }
                | Record::Lay { id, .. }
                | Record::LayStraight { id, .. },
            ) => {
                self.added.insert(id, index);
            }
            Some(Record::TakeOut { .. } | Record::Undo) => {}
            Some(Record::Ask { .. } | Record::AskStraight { .. }) | None => return,
        }
        self.changes.push(index);
    }

    /// The latest bounds and what added the items that stand. An item that an
    /// undo brought back may be missed.
    fn standing(&self) -> Vec<usize> {
        let mut wanted: Vec<usize> =
            self.board.items().filter_map(|(id, _)| self.added.get(&id).copied()).collect();
        wanted.extend(self.changes.first());
        wanted.sort_unstable();
        wanted
    }
}
