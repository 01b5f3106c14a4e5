//! Counts what the records of a file come to.

mod straight;

use std::fmt;
use std::io::{self, Read, Write};

use crate::blocked::Blocker;
use crate::board::Board;
use crate::code::{Blocked, Code};
use crate::item::Sort;
use crate::limits::{MAX_RUNS, MAX_SIDE};
use crate::record::Record;
use crate::reopened::Reopened;
use crate::sheet::{self, Last, Seen, Stopped};
pub use straight::Straight;

#[derive(Clone, Default)]
pub struct Tally {
    /// How often each code came, in the order of `Code::NUMBERS`.
    codes: [usize; Code::NUMBERS.len()],
    /// The codes that tell a pin, with pin 1 and with pin 2.
    pub in_keepout: [usize; 2],
    pub near_wire: [usize; 2],
    /// Pins in a keep-out that wires block as well, and pins near a wire that
    /// other wires block as well.
    pub in_both: usize,
    pub near_several: usize,
    /// Lays and asks whose answer seams change, the asks among them, and keep-outs
    /// that get 8 by a seam alone.
    pub changed_by_seams: usize,
    pub asks_changed: usize,
    pub closing_seams: usize,
    /// Accepted lays and asks, and those among them with a detour.
    pub wires: usize,
    pub detours: usize,
    /// Accepted wires by their number of runs.
    pub runs: [usize; MAX_RUNS + 1],
    pub straight: Straight,
    /// Asks, accepted or not, on boards of the largest size.
    pub widest_asks: usize,
    pub cut: bool,
}

impl Tally {
    /// Counts the records of a file, as far as its sheet goes.
    pub fn of(input: impl Read) -> io::Result<Tally> {
        Tally::printing(input, io::sink()).map_err(|stopped| match stopped {
            Stopped::Read { error, .. } | Stopped::Write(error) => error,
        })
    }

    /// Counts the records of a file while its sheet is printed.
    pub fn printing(input: impl Read, output: impl Write) -> Result<Tally, Stopped> {
        Tally::watched(input, output, |_| {})
    }

    /// The same, telling the number of each record that is done.
    pub fn watched(
        input: impl Read,
        output: impl Write,
        mut watch: impl FnMut(usize),
    ) -> Result<Tally, Stopped> {
        let (mut tally, mut reopened) = (Tally::default(), Reopened::default());
        let mut follower = Board::default();
        let last = sheet::print(input, output, Board::default(), |seen| {
            tally.count(seen);
            tally.count_seams(seen, &mut reopened);
            watch(seen.number);
            tally.straight.count(seen, &mut follower);
        })?;
        tally.cut = last == Last::Cut;
        Ok(tally)
    }

    fn count(&mut self, seen: &Seen) {
        let (code, record) = (seen.answer.code, Record::read(seen.piece));
        self.codes[place(code.number())] += 1;
        let pins = record.and_then(|record| record.pins());
        if let (Some(Blocked { pin, .. }), Some(pins)) = (code.blocked(), pins) {
            // Nothing has changed, so the board still is what refused it.
            self.count_blocked(code, pin, &seen.board.blockers(pins.numbered(pin)));
        }
        if let Some(wire) = &seen.answer.wire {
            self.wires += 1;
            self.detours += usize::from(wire.detour() > 0);
            self.runs[wire.run_count()] += 1;
        }
        let widest = seen.board.frame().is_some_and(|f| f.w == MAX_SIDE && f.h == MAX_SIDE);
        if widest && record.is_some_and(|record| record.is_ask()) {
            self.widest_asks += 1;
        }
    }

    fn count_seams(&mut self, seen: &Seen, reopened: &mut Reopened) {
        if reopened.answers_otherwise(seen) {
            match seen.answer.code {
                Code::MeetsWire => self.closing_seams += 1,
                _ => {
                    let ask = Record::read(seen.piece).is_some_and(|record| record.is_ask());
                    self.changed_by_seams += 1;
                    self.asks_changed += usize::from(ask);
                }
            }
        }
    }

    fn count_blocked(&mut self, code: Code, pin: u8, blockers: &[Blocker]) {
        let wires = blockers.iter().filter(|blocker| blocker.sort == Sort::Wire).count();
        let by_pin = usize::from(pin) - 1;
        if let Code::PinInKeepout(_) = code {
            self.in_keepout[by_pin] += 1;
            self.in_both += usize::from(wires > 0);
        } else {
            self.near_wire[by_pin] += 1;
            self.near_several += usize::from(wires > 1);
        }
    }

    /// Adds the counts of another file.
    pub fn add(&mut self, other: &Tally) {
        let sum = |mine: &mut [usize], theirs: &[usize]| {
            mine.iter_mut().zip(theirs).for_each(|(mine, theirs)| *mine += theirs)
        };
        sum(&mut self.codes, &other.codes);
        sum(&mut self.in_keepout, &other.in_keepout);
        sum(&mut self.near_wire, &other.near_wire);
        sum(&mut self.runs, &other.runs);
        self.straight.add(&other.straight);
        self.in_both += other.in_both;
        self.near_several += other.near_several;
        self.changed_by_seams += other.changed_by_seams;
        self.asks_changed += other.asks_changed;
        self.closing_seams += other.closing_seams;
        self.wires += other.wires;
        self.detours += other.detours;
        self.widest_asks += other.widest_asks;
        self.cut |= other.cut;
    }

    pub fn records(&self) -> usize {
        self.codes.iter().sum()
    }

    /// How often the code of a number came.
    pub fn code(&self, number: u8) -> usize {
        self.codes[place(number)]
    }
}

fn place(number: u8) -> usize {
    Code::NUMBERS.iter().position(|one| *one == number).expect("a number that a file can reach")
}

impl fmt::Display for Tally {
    fn fmt(&self, f: &mut fmt::Formatter<'_>) -> fmt::Result {
        writeln!(f, "records {}{}", self.records(), if self.cut { ", cut" } else { "" })?;
        let by_pin = |[first, second]: [usize; 2]| format!(", pin 1 {first}, pin 2 {second}");
        for number in Code::NUMBERS {
            let told = match number {
                8 => format!(", by a seam alone {}", self.closing_seams),
                11 => format!("{}, near a wire too {}", by_pin(self.in_keepout), self.in_both),
                18 => format!("{}, near several {}", by_pin(self.near_wire), self.near_several),
                _ => String::new(),
            };
            writeln!(f, "code {number}: {}{told}", self.code(number))?;
        }
        writeln!(
            f,
            "accepted lays and asks {}{}, with a detour {}{}",
            self.wires,
            share(self.wires, self.records()),
            self.detours,
            share(self.detours, self.wires)
        )?;
        writeln!(
            f,
            "answers that seams change: {}{}, to asks {}",
            self.changed_by_seams,
            share(self.changed_by_seams, self.records()),
            self.asks_changed
        )?;
        write!(f, "{}", self.straight)?;
        writeln!(f, "asks on {MAX_SIDE} x {MAX_SIDE}: {}", self.widest_asks)?;
        for (runs, count) in self.runs.iter().enumerate().filter(|(_, count)| **count > 0) {
            writeln!(f, "{runs} runs: {count}")?;
        }
        Ok(())
    }
}

/// A part of a whole, in brackets; nothing if there is no whole.
fn share(part: usize, whole: usize) -> String {
    match whole {
        0 => String::new(),
        _ => format!(" ({:.1} %)", 100.0 * part as f64 / whole as f64),
    }
}
