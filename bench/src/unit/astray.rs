//! Two wrong ways to fewer turns, which the tests plant (`fault`).

use std::cmp::Reverse;
use std::collections::BinaryHeap;

use super::{bit, UnitMap};
use crate::geometry::{Dir, Point};
use crate::wire::{Spelling, Wire};

/// Runs and then length.
type Cost = (u32, u32);

const FAR: Cost = (u32::MAX, u32::MAX);

impl UnitMap {
    /// Goes straight on whenever that comes nearer to t.
    pub(super) fn trace_greedily(&self, s: Point, t: Point) -> Wire {
        let (mut wire, mut node) = (Spelling::from(s), self.index(s));
        let mut heading = None;
        while wire.at() != t {
            let steps = || self.nearer(node).into_iter().flatten();
            let straight = steps().find(|(dir, _)| Some(*dir) == heading);
            let (dir, next) = straight.or_else(|| steps().next()).expect("a nearer node");
            wire.go(dir, 1);
            (node, heading) = (next, Some(dir));
        }
        wire.finish()
    }

    /// The shortest of the wires with the fewest runs, however long they are.
    pub(super) fn fewest_runs(&self, s: Point, t: Point) -> Option<Wire> {
        let cost = self.costs_to(t);
        let (mut wire, mut node) = (Spelling::from(s), self.index(s));
        let mut left = Dir::ORDER.into_iter().map(|dir| cost[4 * node + dir as usize]).min()?;
        if left == FAR {
            return None;
        }
        let mut heading = None;
        while wire.at() != t {
            let (dir, begun) = Dir::ORDER
                .into_iter()
                .map(|dir| (dir, u32::from(heading.is_some_and(|heading| heading != dir))))
                .find(|(dir, begun)| plus(cost[4 * node + *dir as usize], *begun, 0) == left)
                .expect("a wire of that cost goes on");
            wire.go(dir, 1);
            node = self.index(wire.at());
            (heading, left) = (Some(dir), (left.0 - begun, left.1 - 1));
        }
        Some(wire.finish())
    }

    /// What it costs to leave each node in each direction, by Dijkstra's search.
    fn costs_to(&self, t: Point) -> Vec<Cost> {
        let mut cost = vec![FAR; 4 * self.open.len()];
        let mut next = BinaryHeap::new();
        let t = self.index(t);
        let mut lower = |next: &mut BinaryHeap<_>, node: usize, then: Option<Dir>, from: Cost| {
            for (dir, offset) in self.offsets() {
                // The node from which a step in that direction leads here.
                let before = node.wrapping_add_signed(-offset);
                let back = bit(Dir::ORDER[(dir as usize + 2) % 4]);
                let there = plus(from, u32::from(then != Some(dir)), 1);
                if self.open[node] & back != 0 && there < cost[4 * before + dir as usize] {
                    cost[4 * before + dir as usize] = there;
                    next.push(Reverse((there, before, dir as usize)));
                }
            }
        };
        lower(&mut next, t, None, (0, 0));
        while let Some(Reverse((from, node, dir))) = next.pop() {
            lower(&mut next, node, Some(Dir::ORDER[dir]), from);
        }
        cost
    }
}

fn plus(cost: Cost, runs: u32, steps: u32) -> Cost {
    (cost.0.saturating_add(runs), cost.1.saturating_add(steps))
}
