//! A picture (SVG) of the board after a file. y points up.

mod axes;
mod crowd;
pub mod head;
mod labels;
mod last;
mod legend;
mod marks;
pub mod paper;
mod strokes;
mod style;

use std::io::{self, Read};
use std::rc::Rc;

use crate::crowd::slip::Slip;
use crate::crowd::Crowd;
use crate::geometry::{Point, Rect};
use crate::item::{Frame, Item};
use crate::limits::{MAX_BLOCKS, MAX_KEPT, MAX_RECORDS, RECORD_BYTES};
use crate::record::Pins;
use crate::stand::Stand;
use crate::story::{tell, Script, Step};
use crate::wire::Wire;
use crate::words::count;
use head::Note;
use last::Last;
use paper::{no_board, Paper};

/// What stands after so many records, with the last lay or ask.
#[derive(Default)]
pub struct Scene {
    stand: Rc<Stand>,
    last: Option<Last>,
    /// Shown in the place of `last`, if there.
    instead: Option<Instead>,
    /// The part of the board to be shown, if not all of it.
    window: Option<Rect>,
    /// How many records were told, and how many there are.
    told: usize,
    records: usize,
    /// Whose wires they are.
    proved: bool,
}

enum Instead {
    Versus(Versus),
    Drawn(Wire),
    Crowd(Crowd),
}

/// The answers of two routers to one record: corners, none without a wire.
pub struct Versus {
    /// The record's pins, if it has some.
    pub pins: Option<Pins>,
    pub own: Vec<Point>,
    pub other: Vec<Point>,
}

impl Scene {
    /// What a file leads to, by the second router.
    pub fn of(mut input: impl Read) -> io::Result<Scene> {
        let mut file = Vec::new();
        let most = (MAX_RECORDS * RECORD_BYTES) as u64 + 1;
        input.by_ref().take(most).read_to_end(&mut file)?;
        let scene = Scene::told(&Script::of_records(file), None, None, |_| {});
        scene.map_err(io::Error::other)
    }

    /// What the first records of a file lead to, all of them unless it is said how many. With
    /// the file's sheet the wires are that sheet's; it fails if the two routers differ.
    pub fn told(
        script: &Script,
        sheet: Option<&str>,
        after: Option<usize>,
        mut watch: impl FnMut(usize),
    ) -> Result<Scene, String> {
        let mut scene = Scene::before(script, sheet.is_some());
        tell(script, sheet, after.unwrap_or(usize::MAX), |step| {
            watch(step.number);
            scene.see(&step);
        })?;
        Ok(scene)
    }

    /// The scene before the first record of a file, by the proved router or by the second.
    pub fn before(script: &Script, proved: bool) -> Scene {
        Scene { proved, records: script.count(), ..Scene::default() }
    }

    /// Goes on by one record.
    pub fn see(&mut self, step: &Step) {
        self.told = step.number;
        self.stand = step.answered.after.clone();
        if let Some(last) = Last::of(step) {
            self.last = Some(last);
        }
    }

    pub fn frame(&self) -> Option<&Frame> {
        self.stand.frame.as_ref()
    }

    /// The same, of a part of the board.
    pub fn within(mut self, window: Rect) -> Scene {
        self.window = Some(window);
        self
    }

    /// The same board, with two answers in the place of the last one.
    pub fn with(mut self, versus: Versus) -> Scene {
        self.instead = Some(Instead::Versus(versus));
        self
    }

    /// The same board, with a drawn wire in the place of the last answer.
    pub fn with_drawn(mut self, wire: Wire) -> Scene {
        self.instead = Some(Instead::Drawn(wire));
        self
    }

    /// The same board, with its crowding in the place of the last answer.
    pub fn with_crowd(mut self) -> Scene {
        self.instead = Crowd::of(&mut self.stand.board(), Slip::None).map(Instead::Crowd);
        self
    }

    pub fn svg(&self) -> String {
        let Some(frame) = self.stand.frame else { return no_board() };
        let view = self.window.unwrap_or(frame.rect());
        let mut paper = Paper::new(view, view == frame.rect(), &self.lines());
        let last = self.standing();
        paper.add_head(&title(&frame), &self.notes(&frame, &paper));
        paper.begin_board();
        self.add_items(&mut paper);
        self.add_answer(last, &mut paper);
        paper.end_board();
        self.add_names(last, &mut paper);
        paper.add_legend(&self.legend(last));
        paper.finish()
    }

    /// The last lay or ask, if its answer is still that of the board.
    fn standing(&self) -> Option<&Last> {
        self.last.as_ref().filter(|last| self.instead.is_none() && last.stands(&self.stand))
    }

    /// All that is drawn as lines: runs, and keep-outs with their four sides.
    fn lines(&self) -> Vec<Rect> {
        let items = self.stand.items.values().flat_map(Item::parts);
        let last = self.standing().and_then(Last::wire).into_iter().flat_map(Wire::runs);
        items.chain(last).collect()
    }

    /// Keep-outs and wires. All rims come before all areas, so that no line is left along a
    /// seam.
    fn add_items(&self, paper: &mut Paper) {
        for (_, keepout) in self.stand.keepouts() {
            paper.rect(keepout, "rim");
        }
        for item in self.stand.items.values() {
            match item.keepout() {
                Some(rect) => paper.rect(rect, "keepout"),
                None => paper.add_shade(&self.stand.blocks_of(item), 0.18, "box"),
            }
        }
        if let Some(Instead::Crowd(crowd)) = &self.instead {
            crowd::add_edges(crowd, paper);
        }
        for (_, wire) in self.stand.wires() {
            paper.add_path("wire", wire.corners());
        }
    }

    fn add_answer(&self, last: Option<&Last>, paper: &mut Paper) {
        match &self.instead {
            Some(Instead::Versus(versus)) => {
                paper.add_path("last", &versus.own);
                paper.add_path("other", &versus.other);
            }
            Some(Instead::Drawn(wire)) => paper.add_path("last", wire.corners()),
            Some(Instead::Crowd(_)) => {}
            None => {
                if let Some(last) = last {
                    last.add(&self.stand, paper);
                }
            }
        }
    }

    /// Pins and ids, the pins first, as they matter most.
    fn add_names(&self, last: Option<&Last>, paper: &mut Paper) {
        paper.note_lines(&self.lines());
        if let Some(Pins { s, t }) = self.pins(last) {
            paper.add_pin(s, "s");
            paper.add_pin(t, "t");
        }
        if let Some(last) = last {
            last.add_names(paper);
        }
        if let Some(Instead::Crowd(crowd)) = &self.instead {
            crowd::add_marks(crowd, paper);
        }
        for (id, item) in &self.stand.items {
            paper.add_id(*id, item);
        }
    }

    fn pins(&self, last: Option<&Last>) -> Option<Pins> {
        match &self.instead {
            Some(Instead::Versus(versus)) => versus.pins,
            Some(Instead::Drawn(wire)) => match *wire.corners() {
                [s, .., t] => Some(Pins { s, t }),
                _ => None,
            },
            Some(Instead::Crowd(_)) => None,
            None => last.map(Last::pins),
        }
    }

    fn legend(&self, last: Option<&Last>) -> Vec<(&'static str, &'static str)> {
        match &self.instead {
            Some(Instead::Versus(_)) => vec![("last", "second router"), ("other", "program")],
            Some(Instead::Drawn(_)) => vec![("last", "drawn wire, from s to t")],
            Some(Instead::Crowd(_)) => crowd::LEGEND.to_vec(),
            None => last.map_or_else(Vec::new, Last::legend),
        }
    }

    fn notes(&self, frame: &Frame, paper: &Paper) -> Vec<Note> {
        let stand = &self.stand;
        let (keepouts, wires) = (stand.keepouts().count(), stand.wires().count());
        let mut note = format!(
            "{} of {MAX_BLOCKS} blocks: {}, {}; {} of {MAX_KEPT} changes kept",
            stand.block_count(),
            count(keepouts, "keep-out"),
            count(wires, "wire"),
            stand.kept
        );
        if let Some(Instead::Crowd(crowd)) = &self.instead {
            note += &crowd::note(crowd);
        }
        let mut where_from = format!("after record {} of {}", self.told, self.records);
        where_from += if self.proved {
            "; wires by the proved router"
        } else {
            "; wires by the second router, not the proved one"
        };
        if self.window.is_some_and(|window| window != frame.rect()) {
            where_from += "; a part of the board";
        }
        if paper.stretched() {
            where_from += "; the axes differ in scale";
        }
        let mut notes = vec![("note", note), ("note", where_from)];
        notes.extend(self.said());
        notes
    }

    /// What is told of the last answer, or of what stands in its place.
    fn said(&self) -> Option<Note> {
        match (&self.instead, &self.last) {
            (Some(Instead::Versus(_)), _) => Some(("asked", "two answers that differ".to_string())),
            (Some(Instead::Drawn(_)), _) => Some(("asked", "two verdicts that differ".to_string())),
            (Some(Instead::Crowd(_)), _) => None,
            (None, Some(last)) if last.stands(&self.stand) => Some(("asked", last.said())),
            (None, Some(last)) if last.same_frame(&self.stand) => {
                Some(("note", format!("the last answer, to '{}', no longer stands", last.text())))
            }
            (None, _) => Some(("note", "no answer yet".to_string())),
        }
    }
}

fn title(frame: &Frame) -> String {
    format!("{} \u{d7} {}, clearance {}", frame.w, frame.h, frame.clearance)
}
