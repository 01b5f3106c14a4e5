//! Which pin is blocked, and by which item: document 02's order 2, and order 3 for
//! pins on a seam.

use std::collections::BTreeMap;

use crate::cells::{cells_round, Cover};
use crate::code::{Blocked, Code};
use crate::fault::Fault;
use crate::geometry::{Point, Rect};
use crate::item::{Frame, Item, Sort};
use crate::record::Pins;

/// What is looked for, in turn: a pin, 1 for s and 2 for t, that an item of a
/// sort blocks.
pub type Order = [(u8, Sort); 4];

const ORDER: Order = [(1, Sort::Keepout), (1, Sort::Wire), (2, Sort::Keepout), (2, Sort::Wire)];

/// An item that blocks a node.
#[derive(Clone, Copy, PartialEq, Eq, Debug)]
pub struct Blocker {
    pub sort: Sort,
    pub id: u16,
}

/// The first refusal that the pins give on a board of these items, if one of them
/// is blocked.
pub fn refusal(
    items: &BTreeMap<u16, Item>,
    frame: &Frame,
    pins: Pins,
    fault: Fault,
) -> Option<Code> {
    let Pins { s, t } = fault.pins(pins);
    let [at_s, at_t] = [s, t].map(|pin| blockers(items, frame, pin, fault));
    let order = fault.order().unwrap_or(ORDER);
    order.into_iter().find_map(|(pin, sort)| {
        let id = told_id(if pin == 1 { &at_s } else { &at_t }, sort, fault)?;
        let blocked = Blocked { pin, id };
        Some(match sort {
            Sort::Keepout => Code::PinInKeepout(blocked),
            Sort::Wire => Code::PinNearWire(blocked),
        })
    })
}

/// The items that block a node: keep-outs that it lies inside, wires that it is
/// nearer to than the clearance, which is inside the box of a run, and where all
/// four cells round it are covered, every keep-out that holds one of them.
pub fn blockers(
    items: &BTreeMap<u16, Item>,
    frame: &Frame,
    p: Point,
    fault: Fault,
) -> Vec<Blocker> {
    let closed = Cover::of(frame, items.values(), fault).closes_node(p);
    let holds_a_cell =
        |keepout: Rect| cells_round(p).into_iter().any(|cell| keepout.holds_cell(cell));
    let blocks = |item: &Item| {
        item.blocks(frame, fault).iter().any(|block| block.interior_holds(p))
            || (closed && item.keepout().is_some_and(holds_a_cell))
    };
    let blocking = items.iter().filter(|(_, item)| blocks(item));
    blocking.map(|(&id, item)| Blocker { sort: item.sort(), id }).collect()
}

/// The id to tell of a pin, if an item of the sort blocks it.
fn told_id(blockers: &[Blocker], sort: Sort, fault: Fault) -> Option<u16> {
    let ids = || blockers.iter().filter(|blocker| blocker.sort == sort).map(|blocker| blocker.id);
    match fault {
        Fault::LargestId => ids().max(),
        Fault::AnySort if ids().count() > 0 => blockers.iter().map(|blocker| blocker.id).min(),
        _ => ids().min(),
    }
}
