//! Two boards compared: what the one has and the other has not.

use crate::draw::head::Note;
use crate::draw::paper::{no_board, Paper};
use crate::geometry::Rect;
use crate::item::{Frame, Item};
use crate::stand::{changes, Change, Stand};
use crate::story::{tell, Script};
use crate::words::{name, point, rectangle};

/// What stands after each of two files, by the second router.
pub struct Diff {
    one: Stand,
    other: Stand,
}

impl Diff {
    pub fn of(one: &Script, other: &Script) -> Result<Diff, String> {
        Ok(Diff { one: stand_after(one)?, other: stand_after(other)? })
    }

    /// A line for each difference, and a last one that counts them.
    pub fn text(&self, one: &str, other: &str) -> String {
        let mut lines = vec![format!("from {one} to {other}, wires by the second router")];
        lines.extend(self.of_frames());
        let (mut added, mut gone, mut changed) = (0, 0, 0);
        for change in changes(&self.one, &self.other) {
            lines.push(match change {
                Change::Added(id, item) => {
                    added += 1;
                    format!("added    {} {}", name(id, item), places(item))
                }
                Change::Gone(id, item) => {
                    gone += 1;
                    format!("gone     {} {}", name(id, item), places(item))
                }
                Change::Changed(id, old, new) => {
                    changed += 1;
                    let (old_name, new_name) = (name(id, old), name(id, new));
                    format!(
                        "changed  {old_name} {}\n      to {new_name} {}",
                        places(old),
                        places(new)
                    )
                }
            });
        }
        lines.push(format!("{added} added, {gone} gone, {changed} changed"));
        lines.join("\n") + "\n"
    }

    fn of_frames(&self) -> Option<String> {
        let told = |stand: &Stand| stand.frame.map_or("no board".to_string(), |frame| size(&frame));
        (self.one.frame != self.other.frame)
            .then(|| format!("the board: {}, now {}", told(&self.one), told(&self.other)))
    }

    /// Both boards on one picture: what is in both pale, what went red, what came green.
    pub fn svg(&self) -> String {
        let Some(frame) = self.other.frame.or(self.one.frame) else { return no_board() };
        let wide = |stand: &Stand| stand.frame.map_or((0, 0), |frame| (frame.w, frame.h));
        let ((w, h), (v, g)) = (wide(&self.one), wide(&self.other));
        let mut paper = Paper::new(Rect::new(0, 0, w.max(v), h.max(g)), true, &self.lines());
        paper.add_head(&size(&frame), &self.notes());
        paper.begin_board();
        self.add_items(&mut paper);
        paper.end_board();
        self.add_ids(&mut paper);
        paper.add_legend(&[("gone", "gone"), ("added", "added")]);
        paper.finish()
    }

    fn notes(&self) -> Vec<Note> {
        let all = changes(&self.one, &self.other);
        let count = |of: fn(&Change) -> bool| all.iter().filter(|change| of(change)).count();
        let note = format!(
            "{} added, {} gone, {} changed; wires by the second router",
            count(|change| matches!(change, Change::Added(..))),
            count(|change| matches!(change, Change::Gone(..))),
            count(|change| matches!(change, Change::Changed(..)))
        );
        let mut notes = vec![("note", note)];
        notes.extend(self.of_frames().map(|told| ("asked", told)));
        notes
    }

    fn lines(&self) -> Vec<Rect> {
        let items = self.one.items.values().chain(self.other.items.values());
        items.flat_map(Item::parts).collect()
    }

    fn add_items(&self, paper: &mut Paper) {
        let changed = changes(&self.one, &self.other);
        for (id, item) in &self.other.items {
            if self.one.items.get(id) == Some(item) {
                match item {
                    Item::Keepout(rect) => paper.rect(*rect, "keepout"),
                    Item::Wire(wire) => paper.add_path("wire", wire.corners()),
                }
            }
        }
        for change in &changed {
            let (old, new) = match *change {
                Change::Added(_, new) => (None, Some(new)),
                Change::Gone(_, old) => (Some(old), None),
                Change::Changed(_, old, new) => (Some(old), Some(new)),
            };
            let both = [(old, "gone"), (new, "added")];
            for (item, class) in both.into_iter().filter_map(|(item, class)| Some((item?, class))) {
                match item {
                    Item::Keepout(rect) => paper.rect(*rect, class),
                    Item::Wire(wire) => paper.add_path(class, wire.corners()),
                }
            }
        }
    }

    fn add_ids(&self, paper: &mut Paper) {
        paper.note_lines(&self.lines());
        for (id, item) in &self.other.items {
            paper.add_id(*id, item);
        }
        for (id, item) in &self.one.items {
            if self.other.items.get(id) != Some(item) {
                paper.add_id(*id, item);
            }
        }
    }
}

fn stand_after(script: &Script) -> Result<Stand, String> {
    let mut stand = Stand::default();
    tell(script, None, usize::MAX, |step| stand = (*step.answered.after).clone())?;
    Ok(stand)
}

fn size(frame: &Frame) -> String {
    format!("{} \u{d7} {}, clearance {}", frame.w, frame.h, frame.clearance)
}

/// Where an item is.
fn places(item: &Item) -> String {
    match item {
        Item::Keepout(rect) => rectangle(*rect),
        Item::Wire(wire) => {
            wire.corners().iter().map(|corner| point(*corner)).collect::<Vec<_>>().join(" ")
        }
    }
}
