//! A page (HTML) to step through a file, one record at a time. All that it needs is in it.

use std::fmt::Write;

use crate::draw::paper::escaped;
use crate::geometry::{Point, Rect};
use crate::item::Item;
use crate::limits::{MAX_BLOCKS, MAX_KEPT};
use crate::record::Record;
use crate::stand::{changes, Change, Stand};
use crate::story::Step;
use crate::words::Answered;

/// The page while it is made: what `page.js` reads, one step after another.
pub struct Page {
    name: String,
    steps: String,
}

impl Page {
    pub fn of(name: &str) -> Page {
        Page { name: name.to_string(), steps: String::new() }
    }

    pub fn add(&mut self, step: &Step, words: String) {
        let answered = &step.answered;
        if !self.steps.is_empty() {
            self.steps.push_str(",\n");
        }
        let mut told = vec![
            format!("\"p\":{}", quoted(&step.place())),
            format!("\"t\":{}", quoted(&step.text())),
            format!("\"w\":{}", quoted(&words)),
            format!("\"c\":{}", answered.said.code),
            format!("\"b\":{},\"k\":{}", answered.after.block_count(), answered.after.kept),
        ];
        told.extend(changed(answered));
        told.extend(refused_keepout(answered));
        told.extend(asked(answered));
        let _ = write!(self.steps, "{{{}}}", told.join(","));
    }

    pub fn html(&self) -> String {
        format!(
            include_str!("page/page.html"),
            title = escaped(&self.name),
            style = include_str!("page/page.css"),
            data = format_args!(
                "{{\"blocks\":{MAX_BLOCKS},\"kept\":{MAX_KEPT},\"steps\":[\n{}\n]}}",
                self.steps
            ),
            script = include_str!("page/page.js")
        )
    }
}

/// What a record changed: a new board, items that came or changed, ids that went.
fn changed(answered: &Answered) -> Vec<String> {
    let (before, after) = (&*answered.before, &*answered.after);
    let begins = matches!(answered.record(), Some(Record::Bounds { .. }));
    if let (true, true, Some(frame)) = (begins, answered.said.accepted(), after.frame) {
        return vec![format!("\"f\":[{},{},{}]", frame.w, frame.h, frame.clearance)];
    }
    let (came, went) = came_and_went(before, after);
    let list = |name: &str, all: Vec<String>| {
        (!all.is_empty()).then(|| format!("\"{name}\":[{}]", all.join(",")))
    };
    list("a", came).into_iter().chain(list("g", went)).collect()
}

fn came_and_went(before: &Stand, after: &Stand) -> (Vec<String>, Vec<String>) {
    let (mut came, mut went) = (Vec::new(), Vec::new());
    for change in changes(before, after) {
        match change {
            Change::Added(id, new) | Change::Changed(id, _, new) => came.push(item(id, new)),
            Change::Gone(id, _) => went.push(id.to_string()),
        }
    }
    (came, went)
}

fn item(id: u16, item: &Item) -> String {
    match item {
        Item::Keepout(keepout) => format!("{{\"id\":{id},\"r\":{}}}", rect(keepout)),
        Item::Wire(wire) => format!("{{\"id\":{id},\"c\":{}}}", corners(wire.corners())),
    }
}

/// The rectangle of a keep-out that was refused, if it is one.
fn refused_keepout(answered: &Answered) -> Option<String> {
    match answered.record()? {
        Record::Keepout { rect: keepout, .. } if !answered.said.accepted() => {
            let real = keepout.x0 < keepout.x1 && keepout.y0 < keepout.y1;
            real.then(|| format!("\"no\":{}", rect(&keepout)))
        }
        _ => None,
    }
}

/// The pins of a lay or ask, and what was found or is in the way.
fn asked(answered: &Answered) -> Vec<String> {
    let Some(pins) = answered.record().and_then(|record| record.pins()) else { return Vec::new() };
    let mut told = vec![format!("\"pins\":[{},{},{},{}]", pins.s.x, pins.s.y, pins.t.x, pins.t.y)];
    if let Some(wire) = answered.said.wire() {
        told.push(format!("\"wire\":{}", corners(wire.corners())));
    }
    if let Some(id) = answered.said.blocker() {
        told.push(format!("\"by\":{id}"));
    }
    if let Some(reach) = answered.reach() {
        let rects: Vec<String> = reach.rects.iter().map(rect).collect();
        told.push(format!("\"reach\":[{}]", rects.join(",")));
        let far = reach.nearest(pins.t).filter(|far| *far != pins.s);
        told.extend(far.map(|far| format!("\"far\":{}", corner(&far))));
    }
    told
}

fn corners(all: &[Point]) -> String {
    format!("[{}]", all.iter().map(corner).collect::<Vec<_>>().join(","))
}

fn corner(p: &Point) -> String {
    format!("[{},{}]", p.x, p.y)
}

fn rect(Rect { x0, y0, x1, y1 }: &Rect) -> String {
    format!("[{x0},{y0},{x1},{y1}]")
}

/// A string of JSON that no tag can end.
fn quoted(text: &str) -> String {
    let mut quoted = String::from("\"");
    for c in text.chars() {
        match c {
            '"' | '\\' => quoted.extend(['\\', c]),
            '<' | '>' | '&' | '\u{0}'..='\u{1f}' => {
                let _ = write!(quoted, "\\u{:04x}", u32::from(c));
            }
            _ => quoted.push(c),
        }
    }
    quoted.push('"');
    quoted
}
