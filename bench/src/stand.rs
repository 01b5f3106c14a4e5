//! What stands on a board, apart from how it came about.

use std::collections::BTreeMap;

use crate::board::Board;
use crate::fault::Fault;
use crate::geometry::Rect;
use crate::item::{Frame, Item};
use crate::wire::Wire;

/// The size, the items by rising id, and how many changes are kept.
#[derive(Clone, Default)]
pub struct Stand {
    pub frame: Option<Frame>,
    pub items: BTreeMap<u16, Item>,
    pub kept: usize,
}

impl Stand {
    pub fn of(board: &Board) -> Stand {
        let items = board.items().map(|(id, item)| (id, item.clone())).collect();
        Stand { frame: board.frame().copied(), items, kept: board.kept_count() }
    }

    /// A board of this size with these items, to ask things of.
    pub fn board(&self) -> Board {
        let mut board = Board::default();
        board.stand(self.frame, self.items.iter().map(|(&id, item)| (id, item)));
        board
    }

    pub fn block_count(&self) -> usize {
        self.items.values().map(Item::block_count).sum()
    }

    pub fn keepouts(&self) -> impl Iterator<Item = (u16, Rect)> + '_ {
        self.items.iter().filter_map(|(&id, item)| Some((id, item.keepout()?)))
    }

    pub fn wires(&self) -> impl Iterator<Item = (u16, &Wire)> + '_ {
        self.items.iter().filter_map(|(&id, item)| match item {
            Item::Wire(wire) => Some((id, wire)),
            Item::Keepout(_) => None,
        })
    }

    /// The blocks of an item, as open rectangles.
    pub fn blocks_of(&self, item: &Item) -> Vec<Rect> {
        self.frame.map_or_else(Vec::new, |frame| item.blocks(&frame, Fault::None))
    }

    /// Would the two answer every record but undo alike?
    pub fn same_board(&self, other: &Stand) -> bool {
        self.frame == other.frame && self.items == other.items
    }
}

/// What came, went or changed from one stand to another, by rising id.
pub enum Change<'a> {
    Added(u16, &'a Item),
    Gone(u16, &'a Item),
    Changed(u16, &'a Item, &'a Item),
}

pub fn changes<'a>(before: &'a Stand, after: &'a Stand) -> Vec<Change<'a>> {
    let mut ids: Vec<u16> = before.items.keys().chain(after.items.keys()).copied().collect();
    ids.sort_unstable();
    ids.dedup();
    let change = |id: u16| match (before.items.get(&id), after.items.get(&id)) {
        (None, Some(item)) => Some(Change::Added(id, item)),
        (Some(item), None) => Some(Change::Gone(id, item)),
        (Some(old), Some(new)) if old != new => Some(Change::Changed(id, old, new)),
        _ => None,
    };
    ids.into_iter().filter_map(change).collect()
}
