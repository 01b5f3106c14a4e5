//! What an accepted record did.

use super::{count, name, named, Answered};
use crate::limits::{MAX_BLOCKS, MAX_KEPT};
use crate::proved::Told;
use crate::record::Record;
use crate::stand::{changes, Change, Stand};
use crate::wire::Wire;

pub fn words(answered: &Answered) -> String {
    let (before, after) = (&answered.before, &answered.after);
    let found = match &answered.said.told {
        Told::Found { length, detour, wire } => found(*length, *detour, wire),
        _ => String::new(),
    };
    match answered.record() {
        Some(Record::Bounds { w, h, clearance }) => {
            format!("a new board, {w} \u{d7} {h}, clearance {clearance}")
        }
        Some(Record::Keepout { .. }) => format!("added; {}", blocks(after)),
        Some(Record::Lay { .. } | Record::LayStraight { .. }) => {
            format!("laid: {found}; {}", blocks(after))
        }
        Some(Record::Ask { .. } | Record::AskStraight { .. }) => format!("found: {found}"),
        Some(Record::TakeOut { .. }) => format!("taken out: {}", moved(before, after)),
        Some(Record::Undo) => {
            format!(
                "undone: {}; {} of {MAX_KEPT} changes are kept",
                undone(before, after),
                after.kept
            )
        }
        None => "accepted".to_string(),
    }
}

fn found(length: u32, detour: u32, wire: &Wire) -> String {
    let corners: Vec<String> =
        wire.corners().iter().map(|corner| format!("{}:{}", corner.x, corner.y)).collect();
    let runs = count(wire.run_count(), "run");
    format!("length {length}, detour {detour}, {runs}: {}", corners.join(" "))
}

fn blocks(stand: &Stand) -> String {
    format!("{} of {MAX_BLOCKS} blocks", stand.block_count())
}

fn moved(before: &Stand, after: &Stand) -> String {
    let told = |change: &Change| match change {
        Change::Added(id, item) | Change::Gone(id, item) | Change::Changed(id, item, _) => {
            named(*id, item)
        }
    };
    changes(before, after).iter().map(told).collect::<Vec<_>>().join(", ")
}

fn undone(before: &Stand, after: &Stand) -> String {
    let told = |change: &Change| match change {
        Change::Added(id, item) => format!("{} stands again", name(*id, item)),
        Change::Gone(id, item) => format!("{} is gone", name(*id, item)),
        Change::Changed(id, _, item) => format!("{} has changed", name(*id, item)),
    };
    changes(before, after).iter().map(told).collect::<Vec<_>>().join(", ")
}
