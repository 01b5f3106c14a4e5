//! Counts accepted kinds 8 and 9, and how often kind 4 has another answer to the
//! same pins on the same board.

use std::fmt;

use crate::board::Board;
use crate::code::Code;
use crate::record::Record;
use crate::reopened::{follow, just_laid};
use crate::sheet::Seen;

#[derive(Clone, Copy, Default)]
pub struct Straight {
    /// Accepted kinds 8, and accepted kinds 9.
    pub asks: usize,
    pub lays: usize,
    /// Those among them to which kind 4 has another answer, and of these the ones
    /// where it is 13.
    pub unlike: usize,
    pub past_limit: usize,
}

impl Straight {
    /// Counts a record that was just seen; `follower` is a board to ask kind 4 on.
    pub fn count(&mut self, seen: &Seen, follower: &mut Board) {
        let record = Record::read(seen.piece).filter(|record| record.is_straight());
        let (Some(record), Some(wire)) = (record, &seen.answer.wire) else { return };
        *(if record.is_ask() { &mut self.asks } else { &mut self.lays }) += 1;
        follow(follower, seen.board, just_laid(seen));
        let pins = record.pins().expect("a lay or ask has pins");
        let plain = follower.take(&Record::Ask { pins }.bytes());
        self.unlike += usize::from(plain.wire.as_ref() != Some(wire));
        self.past_limit += usize::from(plain.code == Code::TooManyRuns);
    }

    pub fn accepted(&self) -> usize {
        self.asks + self.lays
    }

    pub fn add(&mut self, other: &Straight) {
        self.asks += other.asks;
        self.lays += other.lays;
        self.unlike += other.unlike;
        self.past_limit += other.past_limit;
    }
}

impl fmt::Display for Straight {
    fn fmt(&self, f: &mut fmt::Formatter<'_>) -> fmt::Result {
        let Straight { asks, lays, unlike, past_limit } = self;
        writeln!(
            f,
            "accepted kinds 8 and 9: {}, asks {asks}, lays {lays}, \
             unlike kind 4's wire {unlike}, where that gets 13 {past_limit}",
            self.accepted()
        )
    }
}
