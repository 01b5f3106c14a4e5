//! A board: its items, its kept changes, and the code for each record.

use std::collections::{BTreeMap, VecDeque};

use crate::blocked::{self, Blocker};
use crate::cells::Cover;
use crate::code::Code;
use crate::fault::Fault;
use crate::geometry::{Point, Rect};
use crate::item::{Frame, Item};
use crate::limits::{MAX_BLOCKS, MAX_CLEARANCE, MAX_KEPT, MAX_RUNS, MAX_SIDE};
use crate::record::{Mode, Pins, Record};
use crate::route::Router;
use crate::wire::Wire;

/// The answer to one record; an accepted lay or ask comes with its wire.
#[derive(Clone, PartialEq, Eq, Debug)]
pub struct Answer {
    pub code: Code,
    pub wire: Option<Wire>,
}

/// A change that an undo can take back.
enum Change {
    Added { id: u16 },
    TakenOut { id: u16, item: Item },
}

/// A board begins without bounds; each accepted bounds record begins it anew.
#[derive(Default)]
pub struct Board {
    frame: Option<Frame>,
    items: BTreeMap<u16, Item>,
    /// Oldest first, at most `MAX_KEPT`.
    kept: VecDeque<Change>,
    router: Router,
}

/// What a record that is not refused gives: the wire of a lay or ask.
type Outcome = Result<Option<Wire>, Code>;

impl Board {
    /// A fresh board that searches with the given router.
    pub fn with_router(router: Router) -> Board {
        Board { router, ..Board::default() }
    }

    pub fn frame(&self) -> Option<&Frame> {
        self.frame.as_ref()
    }

    /// The items by rising id.
    pub fn items(&self) -> impl Iterator<Item = (u16, &Item)> {
        self.items.iter().map(|(&id, item)| (id, item))
    }

    pub fn block_count(&self) -> usize {
        self.items.values().map(Item::block_count).sum()
    }

    /// How many changes an undo could take back.
    pub fn kept_count(&self) -> usize {
        self.kept.len()
    }

    /// The blocks of all items, as open rectangles.
    pub fn blocks(&self) -> Vec<Rect> {
        let Some(frame) = self.frame else { return Vec::new() };
        self.items.values().flat_map(|item| item.blocks(&frame, Fault::None)).collect()
    }

    /// What the keep-outs cover.
    pub fn cover(&self) -> Cover {
        let Some(frame) = self.frame else { return Cover::default() };
        Cover::of(&frame, self.items.values(), self.router.fault())
    }

    /// Does the node lie in the interior of a block, or inside a seam?
    pub fn node_blocked(&mut self, p: Point) -> bool {
        let Some(frame) = self.frame else { return false };
        self.router.prepare(&frame, self.items.values());
        self.router.node_blocked(p)
    }

    /// Is every unit edge of a segment open? Not if it leaves the board.
    pub fn open_along(&mut self, segment: Rect) -> bool {
        let Some(frame) = self.frame else { return false };
        let Rect { x0, y0, x1, y1 } = segment;
        if !(frame.holds(Point::new(x0, y0)) && frame.holds(Point::new(x1, y1))) {
            return false;
        }
        self.router.prepare(&frame, self.items.values());
        self.router.open_along(&frame, segment)
    }

    /// The items that block the node, by rising id.
    pub fn blockers(&self, p: Point) -> Vec<Blocker> {
        let Some(frame) = self.frame else { return Vec::new() };
        blocked::blockers(&self.items, &frame, p, Fault::None)
    }

    /// The shortest wire between two nodes, whatever the number of its runs. None
    /// if there is no such wire, or a node is off the board or blocked.
    pub fn shortest(&mut self, s: Point, t: Point) -> Option<Wire> {
        let frame = self.frame?;
        if !(frame.holds(s) && frame.holds(t)) || self.node_blocked(s) || self.node_blocked(t) {
            return None;
        }
        self.router.shortest(&frame, s, t)
    }

    /// The same, of those with the fewest runs.
    pub fn straightest(&mut self, s: Point, t: Point) -> Option<Wire> {
        let frame = self.frame?;
        self.shortest(s, t)?;
        self.router.straightest(&frame, s, t)
    }

    /// Makes this a board of that size with these items and no kept changes.
    pub fn stand<'a>(
        &mut self,
        frame: Option<Frame>,
        items: impl Iterator<Item = (u16, &'a Item)>,
    ) {
        self.frame = frame;
        self.items = items.map(|(id, item)| (id, item.clone())).collect();
        self.kept.clear();
        self.router.forget();
    }

    /// Takes one piece of a file. A refusal changes nothing.
    pub fn take(&mut self, piece: &[u8]) -> Answer {
        let outcome = match Record::read(piece) {
            None => Err(Code::BadRecord),
            Some(record) => self.obey(record),
        };
        match outcome {
            Ok(wire) => Answer { code: Code::Accepted, wire },
            Err(code) => Answer { code, wire: None },
        }
    }

    /// Each kind makes its checks in document 01's order; `?` leaves at the
    /// first that applies.
    fn obey(&mut self, record: Record) -> Outcome {
        let frame = self.frame.ok_or(Code::NoBounds);
        match record {
            Record::Bounds { w, h, clearance } => self.begin(Frame { w, h, clearance }),
            Record::Keepout { id, rect } => self.keep_out(&frame?, id, rect),
            Record::Lay { id, pins } => self.lay(&frame?, id, pins, Mode::Plain),
            Record::Ask { pins } => self.find(&frame?, pins, Mode::Plain).map(Some),
            Record::TakeOut { id } => self.take_out(&frame?, id),
            Record::Undo => self.undo(&frame?),
            Record::AskStraight { pins } => {
                self.find(&frame?, pins, self.router.fault().mode_of_ask()).map(Some)
            }
            Record::LayStraight { id, pins } => self.lay(&frame?, id, pins, Mode::Straight),
        }
    }

    fn begin(&mut self, frame: Frame) -> Outcome {
        let side_fits = |side: i32| (1..=MAX_SIDE).contains(&side);
        let clearance_fits = (1..=MAX_CLEARANCE).contains(&frame.clearance);
        if !(side_fits(frame.w) && side_fits(frame.h) && clearance_fits) {
            return Err(Code::OutOfRange);
        }
        self.frame = Some(frame);
        self.items.clear();
        self.kept.clear();
        self.router.forget();
        Ok(None)
    }

    fn keep_out(&mut self, frame: &Frame, id: u16, rect: Rect) -> Outcome {
        self.check_id_free(id)?;
        let Rect { x0, y0, x1, y1 } = rect;
        if !(x0 < x1 && x1 <= frame.w && y0 < y1 && y1 <= frame.h) {
            return Err(Code::BadRectangle);
        }
        if self.keepouts().any(|other| rect.interior_meets(other)) {
            return Err(Code::MeetsKeepout);
        }
        let item = Item::Keepout(rect);
        if self.shuts_in_a_wire(frame, &item, rect) {
            return Err(Code::MeetsWire);
        }
        self.check_room_for(&item)?;
        self.change_by_adding(frame, id, item);
        Ok(None)
    }

    /// Does a wire run through a new keep-out, or along a seam that it closes? The
    /// wire itself counts here, not the boxes around it.
    fn shuts_in_a_wire(&self, frame: &Frame, item: &Item, rect: Rect) -> bool {
        let items = self.items.values().chain([item]);
        let cover = Cover::of(frame, items, self.router.fault());
        let meets = |run: Rect| rect.interior_meets(run) || cover.closes_part_of(run);
        self.wires().any(|wire| wire.runs().any(meets))
    }

    fn lay(&mut self, frame: &Frame, id: u16, pins: Pins, mode: Mode) -> Outcome {
        self.check_id_free(id)?;
        let wire = self.find(frame, pins, mode)?;
        let item = Item::Wire(self.unless(Fault::LaidPlain, frame, pins, &wire));
        self.check_room_for(&item)?;
        match self.router.fault() {
            Fault::UnkeptStraight if mode == Mode::Straight => self.add(frame, id, item),
            _ => self.change_by_adding(frame, id, item),
        }
        Ok(Some(wire))
    }

    /// The answered wire, unless that fault puts kind 4's in its place.
    fn unless(&mut self, fault: Fault, frame: &Frame, pins: Pins, wire: &Wire) -> Wire {
        let planted = self.router.fault() == fault;
        let plain = planted.then(|| self.router.find(frame, pins, Mode::Plain)).flatten();
        plain.unwrap_or_else(|| wire.clone())
    }

    /// Finds the answered wire; lay and ask share these checks.
    fn find(&mut self, frame: &Frame, pins: Pins, mode: Mode) -> Result<Wire, Code> {
        let Pins { s, t } = pins;
        if !(frame.holds(s) && frame.holds(t)) {
            return Err(Code::PinOffBoard);
        }
        if s == t {
            return Err(Code::PinsEqual);
        }
        if let Some(code) = blocked::refusal(&self.items, frame, pins, self.router.fault()) {
            return Err(code);
        }
        self.router.prepare(frame, self.items.values());
        let wire = self.router.find(frame, pins, mode).ok_or(Code::NoWire)?;
        if self.unless(Fault::RunsOfPlain, frame, pins, &wire).run_count() > MAX_RUNS {
            return Err(Code::TooManyRuns);
        }
        Ok(wire)
    }

    fn take_out(&mut self, frame: &Frame, id: u16) -> Outcome {
        let item = self.remove(frame, id).ok_or(Code::IdNotInUse)?;
        self.keep(Change::TakenOut { id, item });
        Ok(None)
    }

    /// Takes back the latest kept change and forgets it.
    fn undo(&mut self, frame: &Frame) -> Outcome {
        match self.kept.pop_back().ok_or(Code::NothingKept)? {
            Change::Added { id } => {
                self.remove(frame, id).expect("a kept addition still stands");
            }
            Change::TakenOut { id, item } => self.add(frame, id, item),
        }
        Ok(None)
    }

    fn check_id_free(&self, id: u16) -> Result<(), Code> {
        if self.items.contains_key(&id) {
            return Err(Code::IdInUse);
        }
        Ok(())
    }

    fn check_room_for(&self, item: &Item) -> Result<(), Code> {
        if self.block_count() + item.block_count() > MAX_BLOCKS {
            return Err(Code::TooManyBlocks);
        }
        Ok(())
    }

    fn change_by_adding(&mut self, frame: &Frame, id: u16, item: Item) {
        self.add(frame, id, item);
        self.keep(Change::Added { id });
    }

    /// Keeps a change; the oldest is dropped for good when there are too many.
    fn keep(&mut self, change: Change) {
        if self.kept.len() == MAX_KEPT {
            self.kept.pop_front();
        }
        self.kept.push_back(change);
    }

    fn add(&mut self, frame: &Frame, id: u16, item: Item) {
        self.router.note_added(frame, &item);
        self.items.insert(id, item);
    }

    fn remove(&mut self, frame: &Frame, id: u16) -> Option<Item> {
        let item = self.items.remove(&id)?;
        self.router.note_removed(frame, &item);
        Some(item)
    }

    pub fn keepouts(&self) -> impl Iterator<Item = Rect> + '_ {
        self.items.values().filter_map(Item::keepout)
    }

    pub fn wires(&self) -> impl Iterator<Item = &Wire> + '_ {
        self.items.values().filter_map(|item| match item {
            Item::Wire(wire) => Some(wire),
            Item::Keepout(_) => None,
        })
    }
}
