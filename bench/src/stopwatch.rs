//! What every timing shares: how often, and which run counts.
//!
//! A time is that of a whole process, from its start to its end, and the least
//! of several: what else the machine does can only add to it. The programs take
//! turns, so that a slow minute hits both.

use std::path::PathBuf;

use crate::launch::Way;

/// Runs of each program.
pub const TURNS: usize = 5;
/// A greater spread than this says that the ratio is not worth much.
const STEADY: f64 = 1.1;

/// The two programs that are timed.
pub struct Pair {
    pub peer: PathBuf,
    pub program: PathBuf,
}

/// The seconds that the runs of one program took.
#[derive(Default)]
pub struct Laps(Vec<f64>);

impl Laps {
    pub fn add(&mut self, seconds: f64) {
        self.0.push(seconds);
    }

    pub fn least(&self) -> f64 {
        self.0.iter().copied().fold(f64::MAX, f64::min)
    }

    /// The slowest run over the fastest.
    pub fn spread(&self) -> f64 {
        self.0.iter().copied().fold(0.0, f64::max) / self.least()
    }
}

/// What a row of a table says if the machine was too busy to trust it.
pub fn busy_note(spread: f64) -> String {
    if spread <= STEADY {
        return String::new();
    }
    format!("  busy machine: runs differ by {:.0} %", 100.0 * (spread - 1.0))
}

/// The first line of a table; `one` is what the microseconds are for.
pub fn head(way: &Way, one: &str) -> String {
    format!("{}; microseconds for one {one}, the least of {TURNS} runs each\n", way.told())
}
