//! The last lay or ask of a file, accepted or refused, and how it is drawn.

use super::legend::REACH;
use super::paper::Paper;
use crate::item::Item;
use crate::reach::Reach;
use crate::record::Pins;
use crate::stand::Stand;
use crate::story::Step;
use crate::wire::Wire;
use crate::words::Answered;

pub struct Last {
    pins: Pins,
    /// The id of a lay.
    id: Option<u16>,
    text: String,
    answered: Answered,
}

impl Last {
    /// None if the record is neither a lay nor an ask.
    pub fn of(step: &Step) -> Option<Last> {
        let record = step.answered.record()?;
        let id = record.laid();
        let pins = record.pins()?;
        Some(Last { pins, id, text: step.text(), answered: step.answered.clone() })
    }

    pub fn pins(&self) -> Pins {
        self.pins
    }

    pub fn text(&self) -> &str {
        &self.text
    }

    pub fn wire(&self) -> Option<&Wire> {
        self.answered.said.wire()
    }

    pub fn said(&self) -> String {
        format!("{}: {}", self.text, self.answered.words())
    }

    /// Is the answer still that of this board? A laid wire stands as long as it lies there,
    /// any other answer while the board is the one that was asked.
    pub fn stands(&self, stand: &Stand) -> bool {
        match (self.id, self.wire()) {
            (Some(id), Some(wire)) => {
                self.same_frame(stand) && stand.items.get(&id) == Some(&Item::Wire(wire.clone()))
            }
            _ => self.answered.after.same_board(stand),
        }
    }

    pub fn same_frame(&self, stand: &Stand) -> bool {
        self.answered.after.frame == stand.frame
    }

    pub fn legend(&self) -> Vec<(&'static str, &'static str)> {
        let mut legend = Vec::new();
        if self.wire().is_some() {
            legend.push(("last", "last answer, from s to t"));
        }
        if self.answered.said.blocker().is_some() {
            legend.push(("blocker", "what blocks the pin"));
        }
        if self.reach().is_some() {
            legend.push((REACH, "reached from s"));
        }
        legend
    }

    fn reach(&self) -> Option<Reach> {
        self.answered.reach()
    }

    pub fn add(&self, stand: &Stand, paper: &mut Paper) {
        if let Some(reach) = self.reach() {
            paper.add_shade(&reach.rects, 0.3, REACH);
        }
        let blocker = self.answered.said.blocker().and_then(|id| stand.items.get(&id));
        match blocker {
            Some(Item::Keepout(rect)) => paper.rect(*rect, "blocker"),
            Some(Item::Wire(wire)) => paper.add_path("blocker", wire.corners()),
            None => {}
        }
        paper.add_path("last", self.wire().map_or(&[][..], Wire::corners));
    }

    /// The place that wires from s get to.
    pub fn add_names(&self, paper: &mut Paper) {
        let nearest = self.reach().and_then(|reach| reach.nearest(self.pins.t));
        if let Some(nearest) = nearest.filter(|nearest| *nearest != self.pins.s) {
            paper.add_pin(nearest, "as far as");
        }
    }
}
