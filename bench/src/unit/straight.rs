//! Of the shortest wires one with the fewest runs: document 02's order 6, spelled
//! out over every unit node and each direction that it can be left in.
//!
//! The nodes of all shortest wires are listed, from s on. From the last of them to
//! the first, each direction that comes nearer to t gets the fewest runs of a
//! shortest wire that leaves the node that way: those of the next node, and one
//! more where the direction changes. So the cost of a wire is its length and then
//! its runs. The walk from s takes the first step, in the order E, N, W, S, that
//! keeps to that cost.

use super::{bit, UnitMap};
use crate::fault::Fault;
use crate::geometry::{Dir, Point};
use crate::wire::{Spelling, Wire};

/// The fewest runs to t from a node, by the direction of the first.
pub type Runs = [u16; 4];

/// No shortest wire leaves the node in that direction.
const NONE: u16 = u16::MAX;
/// A node that is not on the list; a wire has at least one run.
const UNLISTED: Runs = [0; 4];

impl UnitMap {
    /// The first of the shortest wires with the fewest runs, if there is a wire.
    pub fn straightest(&mut self, s: Point, t: Point, fault: Fault) -> Option<Wire> {
        if fault == Fault::TurnsFirst {
            return self.fewest_runs(s, t);
        }
        let wire = self.spread(t, s).then(|| match fault {
            Fault::GreedyStraight => self.trace_greedily(s, t),
            _ => self.trace_straight(s, t, fault),
        });
        self.clear();
        wire
    }

    fn trace_straight(&mut self, s: Point, t: Point, fault: Fault) -> Wire {
        self.runs.resize(self.open.len(), UNLISTED);
        let listed = self.list_from(s);
        for &node in listed.iter().rev() {
            self.count_runs(node, fault);
        }
        let wire = self.walk(s, t, fault);
        for node in listed {
            self.runs[node] = UNLISTED;
        }
        wire
    }

    /// The nodes of all shortest wires from s, the nearer ones to t later.
    fn list_from(&mut self, s: Point) -> Vec<usize> {
        let mut listed = vec![self.index(s)];
        self.runs[listed[0]] = [NONE; 4];
        let mut head = 0;
        while let Some(&node) = listed.get(head) {
            head += 1;
            for (_, next) in self.nearer(node).into_iter().flatten() {
                if self.runs[next] == UNLISTED {
                    self.runs[next] = [NONE; 4];
                    listed.push(next);
                }
            }
        }
        listed
    }

    /// The open steps that come nearer to t, each with the node that it leads to.
    pub(super) fn nearer(&self, node: usize) -> [Option<(Dir, usize)>; 4] {
        self.offsets().map(|(dir, offset)| {
            let next = node.wrapping_add_signed(offset);
            let open = self.open[node] & bit(dir) != 0;
            (open && self.dist[next] < self.dist[node]).then_some((dir, next))
        })
    }

    /// Counts the runs from a node; those of the nodes nearer to t are known.
    fn count_runs(&mut self, node: usize, fault: Fault) {
        for (dir, next) in self.nearer(node).into_iter().flatten() {
            let after = Dir::ORDER.into_iter().zip(self.runs[next]);
            let on = after.filter(|(_, runs)| *runs != NONE);
            let counts = on.map(|(then, runs)| runs + u16::from(then != dir));
            // None go on from t: the wire ends there, with its first run.
            self.runs[node][dir as usize] = fault.fewest(counts).unwrap_or(1);
        }
    }

    fn walk(&self, s: Point, t: Point, fault: Fault) -> Wire {
        let (mut wire, mut node) = (Spelling::from(s), self.index(s));
        let known = self.runs[node].into_iter().filter(|runs| *runs != NONE);
        let mut left = fault.fewest(known).expect("a wire begins at s");
        let mut heading = None;
        while wire.at() != t {
            let nearer = self.nearer(node);
            let step = fault.steps().into_iter().find_map(|dir| {
                let (_, next) = nearer[dir as usize]?;
                let begun = u16::from(heading.is_some_and(|heading| heading != dir));
                (self.runs[node][dir as usize] + begun == left).then_some((dir, next, begun))
            });
            let (dir, next, begun) = step.expect("a wire of that cost goes on");
            wire.go(dir, 1);
            (node, heading, left) = (next, Some(dir), left - begun);
        }
        wire.finish()
    }
}
