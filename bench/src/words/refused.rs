//! Why a record was refused, and by what.

use super::{count, listed, name, named, point, rectangle, Answered};
use crate::cells::Cover;
use crate::geometry::{Point, Rect};
use crate::item::{Frame, Item};
use crate::limits::{MAX_BLOCKS, MAX_CLEARANCE, MAX_RUNS, MAX_SIDE, RECORD_BYTES};
use crate::proved::Told;
use crate::reach::Reach;
use crate::record::{Fields, Pins, Record};
use crate::stand::Stand;
use crate::wire::Wire;

/// The reason without its number.
pub fn words(answered: &Answered) -> String {
    let stand = &*answered.before;
    let Some(record) = answered.record() else { return no_record(&answered.piece) };
    let Some(frame) = stand.frame else {
        return match record {
            Record::Bounds { w, h, clearance } => out_of_range(w, h, clearance),
            _ => "no bounds were accepted yet".to_string(),
        };
    };
    match (answered.said.code, record) {
        (3, Record::Bounds { w, h, clearance }) => out_of_range(w, h, clearance),
        (
            4,
            Record::Keepout { id, .. } | Record::Lay { id, .. } | Record::LayStraight { id, .. },
        ) => in_use(stand, id),
        (5, Record::TakeOut { id }) => not_in_use(stand, id),
        (6, Record::Keepout { rect, .. }) => bad_rectangle(&frame, rect),
        (7, Record::Keepout { rect, .. }) => overlapped(stand, rect),
        (8, Record::Keepout { rect, .. }) => wires_in_the_way(stand, &frame, rect),
        (15, _) => "there is no kept change to undo".to_string(),
        (14, Record::Keepout { .. }) => too_many_blocks(stand, 1),
        (code, _) => match record.pins() {
            Some(pins) => of_pins(answered, pins),
            None => format!("code {code}"),
        },
    }
}

/// Why bytes are no record: the first thing that is wrong with them.
fn no_record(piece: &[u8]) -> String {
    let Some(Fields { kind, byte1, id, numbers }) = Fields::split(piece) else {
        return format!("a last piece of {}, not {RECORD_BYTES}", count(piece.len(), "byte"));
    };
    let with_id = matches!(kind, 2 | 3 | 5 | 9);
    let unused = match kind {
        1 => &numbers[3..],
        5 | 6 => &numbers[..],
        _ => &[],
    };
    if !matches!(kind, 1..=6 | 8 | 9) {
        format!("kind {kind} is none of 1 to 6, 8 and 9")
    } else if byte1 != 0 {
        format!("byte 1 is {byte1}, not 0")
    } else if with_id && id == 0 {
        format!("the id is 0, and kind {kind} needs one from 1 to {}", u16::MAX)
    } else if !with_id && id != 0 {
        format!("the id is {id}, and kind {kind} has none, so 0 belongs there")
    } else {
        let number = unused.iter().find(|number| **number != 0).unwrap_or(&0);
        format!("{number} stands where kind {kind} has a 0")
    }
}

fn out_of_range(w: i32, h: i32, clearance: i32) -> String {
    let sizes =
        [("width", w, MAX_SIDE), ("height", h, MAX_SIDE), ("clearance", clearance, MAX_CLEARANCE)];
    let bad = sizes.iter().filter(|(_, size, most)| !(1..=*most).contains(size));
    let told: Vec<String> =
        bad.map(|(name, size, most)| format!("the {name} {size} is not 1 to {most}")).collect();
    listed(&told)
}

fn in_use(stand: &Stand, id: u16) -> String {
    match stand.items.get(&id) {
        Some(item) => format!("id {id} is in use, by {}", named(id, item)),
        None => format!("id {id} is in use"),
    }
}

fn not_in_use(stand: &Stand, id: u16) -> String {
    let ids: Vec<String> = stand.items.keys().map(u16::to_string).collect();
    match ids.as_slice() {
        [] => format!("no item has id {id}; the board is empty"),
        _ => format!("no item has id {id}; in use: {}", listed(&ids)),
    }
}

fn bad_rectangle(frame: &Frame, rect: Rect) -> String {
    let axes = [("x", rect.x0, rect.x1, frame.w, "wide"), ("y", rect.y0, rect.y1, frame.h, "high")];
    let told = axes.iter().filter_map(|(axis, low, high, most, how)| {
        if low >= high {
            Some(format!("{axis}0 {low} is not below {axis}1 {high}"))
        } else {
            (high > most).then(|| format!("{axis}1 {high} is off the board, which is {most} {how}"))
        }
    });
    listed(&told.collect::<Vec<_>>())
}

fn overlapped(stand: &Stand, rect: Rect) -> String {
    let others = stand.keepouts().filter(|(_, other)| rect.interior_meets(*other));
    let told: Vec<String> =
        others.map(|(id, other)| format!("keep-out {id} {}", rectangle(other))).collect();
    format!("it overlaps {}", listed(&told))
}

/// The wires through a new keep-out, or else those along a seam that it would close. A seam
/// has two keep-outs beside it, so each of the others is looked at with the new one alone.
fn wires_in_the_way(stand: &Stand, frame: &Frame, rect: Rect) -> String {
    let met = |meets: &dyn Fn(Rect) -> bool| {
        let met = stand.wires().filter(|(_, wire)| wire.runs().any(meets));
        met.map(|(id, _)| format!("wire {id}")).collect::<Vec<_>>()
    };
    let through = met(&|run| rect.interior_meets(run));
    if !through.is_empty() {
        let verb = if through.len() == 1 { "runs" } else { "run" };
        return format!("{} {verb} through it", listed(&through));
    }
    let closing = |other: Rect| {
        let cover = Cover::new(frame, [rect, other].into_iter());
        met(&|run| cover.closes_part_of(run))
    };
    let (mut sides, mut along) = (Vec::new(), Vec::new());
    for (id, wires) in stand.keepouts().map(|(id, other)| (id, closing(other))) {
        if !wires.is_empty() {
            sides.push(format!("keep-out {id}"));
            along.extend(wires);
        }
    }
    along.sort();
    along.dedup();
    format!("it would close the seam to {} over {}", listed(&sides), listed(&along))
}

fn too_many_blocks(stand: &Stand, more: usize) -> String {
    let now = stand.block_count();
    format!("there are {now} blocks and would be {}; {MAX_BLOCKS} are the most", now + more)
}

/// The refusals of a lay or an ask.
fn of_pins(answered: &Answered, pins: Pins) -> String {
    let stand = &*answered.before;
    match (answered.said.code, &answered.said.told) {
        (9, _) => off_board(stand, pins),
        (10, _) => format!("both pins are at {}", point(pins.s)),
        (11, &Told::Blocked { pin, id }) => inside(stand, pins.numbered(pin), pin, id),
        (18, &Told::Blocked { pin, id }) => {
            let clearance = stand.frame.map_or(0, |frame| frame.clearance);
            format!("pin {pin} {} is within {clearance} of wire {id}", point(pins.numbered(pin)))
        }
        (12, _) => no_wire(stand, pins, answered.reach()),
        (13, _) => too_many_runs(answered, pins),
        (14, _) => {
            let wire = wire_of(answered, pins);
            let runs = wire.map_or(0, |wire| wire.run_count());
            format!("the wire has {}: {}", count(runs, "run"), too_many_blocks(stand, runs))
        }
        (code, _) => format!("code {code}"),
    }
}

/// The wire that is too long for the record or the board, by the record's mode.
fn wire_of(answered: &Answered, pins: Pins) -> Option<Wire> {
    let mut board = answered.before.board();
    match answered.record().is_some_and(|record| record.is_straight()) {
        true => board.straightest(pins.s, pins.t),
        false => board.shortest(pins.s, pins.t),
    }
}

fn off_board(stand: &Stand, pins: Pins) -> String {
    let Some(frame) = stand.frame else { return String::new() };
    let off = [(1, pins.s), (2, pins.t)].into_iter().filter(|(_, pin)| !frame.holds(*pin));
    let told: Vec<String> = off.map(|(pin, at)| format!("pin {pin} {}", point(at))).collect();
    let verb = if told.len() == 1 { "is" } else { "are" };
    format!("{} {verb} off the board, which is {} \u{d7} {}", listed(&told), frame.w, frame.h)
}

fn inside(stand: &Stand, at: Point, pin: u8, id: u16) -> String {
    let keepout = stand.items.get(&id).and_then(Item::keepout);
    let place = keepout.map_or_else(String::new, |rect| format!(" {}", rectangle(rect)));
    match keepout {
        Some(rect) if !rect.interior_holds(at) => {
            format!(
                "pin {pin} {} has keep-outs all round it, keep-out {id}{place} one of them",
                point(at)
            )
        }
        _ => format!("pin {pin} {} lies inside keep-out {id}{place}", point(at)),
    }
}

/// How far s gets, and which items alone are in the way.
fn no_wire(stand: &Stand, pins: Pins, reach: Option<Reach>) -> String {
    let Pins { s, t } = pins;
    let nearest = reach.and_then(|reach| reach.nearest(t)).unwrap_or(s);
    let far = match nearest == s {
        true => format!("from {} no wire gets nearer to {}", point(s), point(t)),
        false => format!(
            "from {} a wire gets as far as {}, {} from {}",
            point(s),
            point(nearest),
            nearest.steps_to(t),
            point(t)
        ),
    };
    match openers(stand, pins).as_slice() {
        [] => format!("no wire can join them; {far}"),
        [one] => format!("no wire can join them; {far}; without {one} one could"),
        several => format!(
            "no wire can join them; {far}; with any one of {} taken out one could",
            listed(several)
        ),
    }
}

/// The items each of which, taken out alone, would let a wire through.
fn openers(stand: &Stand, Pins { s, t }: Pins) -> Vec<String> {
    let Some(frame) = stand.frame else { return Vec::new() };
    let opens = |without: &u16| {
        let others = stand.items.iter().filter(|(id, _)| *id != without).map(|(_, item)| item);
        Reach::of(&frame, others, s).holds(t)
    };
    let opening = stand.items.iter().filter(|(id, _)| opens(id));
    opening.map(|(id, item)| name(*id, item)).collect()
}

fn too_many_runs(answered: &Answered, pins: Pins) -> String {
    match wire_of(answered, pins) {
        Some(wire) => format!(
            "the shortest wire has {} runs, and {MAX_RUNS} are the most; its length is {}",
            wire.run_count(),
            wire.length()
        ),
        None => format!("the shortest wire has over {MAX_RUNS} runs"),
    }
}
