//! Counts what the drawn wires of a file come to.

use std::fmt;
use std::io::{self, Write};

use super::sheet::{self, Last, Seen};
use super::slip::Slip;
use super::Finding;
use crate::board::Board;
use crate::geometry::Rect;
use crate::limits::{MAX_RUNS, MAX_SIDE};
use crate::reopened::Reopened;
use crate::wire::Wire;

#[derive(Clone, Default)]
pub struct Tally {
    /// How often each finding came, in the order of `Finding::ALL`.
    findings: [usize; Finding::ALL.len()],
    /// Legal wires that are longer than the shortest.
    pub longer: usize,
    /// Legal wires between ends whose shortest wire has over 24 runs, and those
    /// among them that are longer.
    pub winding: usize,
    pub winding_longer: usize,
    /// Wires that are judged otherwise where seams are open, and those among them
    /// that get 20.
    pub changed_by_seams: usize,
    pub along_seams: usize,
    /// Legal wires that touch or cross themselves, and those that touch a block:
    /// a keep-out's side, or exactly the clearance from a laid wire.
    pub self_touching: usize,
    pub beside_blocks: usize,
    /// Legal wires by their number of runs.
    pub runs: [usize; MAX_RUNS + 1],
    /// Legal wires on boards of the largest size.
    pub widest: usize,
}

impl Tally {
    /// Counts the wires of a piece file while its lines are printed.
    pub fn printing(file: &[u8], output: impl Write) -> io::Result<(Tally, Last)> {
        let (mut tally, mut reopened) = (Tally::default(), Reopened::default());
        let last = sheet::print(file, output, Board::default(), Slip::None, |seen| {
            tally.count(seen);
            tally.count_seams(seen, &mut reopened);
        })?;
        Ok((tally, last))
    }

    fn count(&mut self, seen: &Seen) {
        self.findings[place(seen.verdict.finding)] += 1;
        let Some(shortest) = &seen.verdict.shortest else { return };
        let (longer, winding) = (seen.verdict.excess > 0, shortest.run_count() > MAX_RUNS);
        self.longer += usize::from(longer);
        self.winding += usize::from(winding);
        self.winding_longer += usize::from(winding && longer);
        let wire = Wire::drawn(seen.numbers);
        self.self_touching += usize::from(touches_itself(&wire));
        let blocks = seen.board.blocks();
        let beside = |run: Rect| blocks.iter().any(|block| block.touches(run));
        self.beside_blocks += usize::from(wire.runs().any(beside));
        self.runs[wire.run_count()] += 1;
        let widest = seen.board.frame().is_some_and(|f| f.w == MAX_SIDE && f.h == MAX_SIDE);
        self.widest += usize::from(widest);
    }

    fn count_seams(&mut self, seen: &Seen, reopened: &mut Reopened) {
        let changed = reopened.judges_otherwise(seen);
        self.changed_by_seams += usize::from(changed);
        let in_keepout = seen.verdict.finding == Finding::InKeepout;
        self.along_seams += usize::from(changed && in_keepout);
    }

    /// Adds the counts of another file.
    pub fn add(&mut self, other: &Tally) {
        let sum = |mine: &mut [usize], theirs: &[usize]| {
            mine.iter_mut().zip(theirs).for_each(|(mine, theirs)| *mine += theirs)
        };
        sum(&mut self.findings, &other.findings);
        sum(&mut self.runs, &other.runs);
        self.longer += other.longer;
        self.winding += other.winding;
        self.winding_longer += other.winding_longer;
        self.changed_by_seams += other.changed_by_seams;
        self.along_seams += other.along_seams;
        self.self_touching += other.self_touching;
        self.beside_blocks += other.beside_blocks;
        self.widest += other.widest;
    }

    pub fn wires(&self) -> usize {
        self.findings.iter().sum()
    }

    pub fn of(&self, finding: Finding) -> usize {
        self.findings[place(finding)]
    }
}

fn place(finding: Finding) -> usize {
    Finding::ALL.iter().position(|one| *one == finding).expect("a finding of the list")
}

/// Do two runs of the wire have a point in common, other than the corner of two
/// neighbours?
fn touches_itself(wire: &Wire) -> bool {
    let runs: Vec<Rect> = wire.runs().collect();
    let later = |index: usize| runs.iter().skip(index + 2);
    runs.iter().enumerate().any(|(index, run)| later(index).any(|other| run.touches(*other)))
}

impl fmt::Display for Tally {
    fn fmt(&self, f: &mut fmt::Formatter<'_>) -> fmt::Result {
        let parted = |all: usize, longer: usize| {
            format!("{all}, with excess 0 {}, with more {longer}", all - longer)
        };
        writeln!(f, "drawn wires {}", self.wires())?;
        for finding in Finding::ALL {
            writeln!(f, "code {}: {}", finding.number(), self.of(finding))?;
        }
        writeln!(f, "accepted {}", parted(self.of(Finding::Legal), self.longer))?;
        writeln!(
            f,
            "accepted where the shortest has over {MAX_RUNS} runs {}",
            parted(self.winding, self.winding_longer)
        )?;
        writeln!(
            f,
            "verdicts that seams change: {}, to 20 {}",
            self.changed_by_seams, self.along_seams
        )?;
        writeln!(f, "accepted that touch themselves {}", self.self_touching)?;
        writeln!(f, "accepted that touch a block {}", self.beside_blocks)?;
        writeln!(f, "accepted on {MAX_SIDE} x {MAX_SIDE} {}", self.widest)?;
        for (runs, count) in self.runs.iter().enumerate().filter(|(_, count)| **count > 0) {
            writeln!(f, "accepted of {runs} runs: {count}")?;
        }
        Ok(())
    }
}
