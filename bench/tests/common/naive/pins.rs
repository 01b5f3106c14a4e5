//! Pins that are blocked, by the plainest reading of document 02's orders 2 and 3:
//! every node of every wire is held against the pin, and all ids are written down
//! before the smallest is looked for.

use super::drawn::nodes;
use super::seams::round;
use super::{Naive, Node, Thing};

impl Naive {
    /// Refuses pin 1 with 11, then with 18, then pin 2 in the same way.
    pub fn pins_are_free(&self, s: Node, t: Node) -> Result<(), String> {
        let covered = self.covered(None);
        for (pin, p) in [(1, s), (2, t)] {
            let (mut keepouts, mut wires) = (Vec::new(), Vec::new());
            let shut_in = round(p).iter().all(|cell| covered.has(*cell));
            for (id, thing) in &self.things {
                match thing {
                    Thing::Keepout(low, high) if is_inside(p, *low, *high) => keepouts.push(*id),
                    Thing::Keepout(low, high) if shut_in && is_round(p, *low, *high) => {
                        keepouts.push(*id)
                    }
                    Thing::Wire(corners) if self.is_near(p, corners) => wires.push(*id),
                    _ => {}
                }
            }
            keepouts.sort();
            wires.sort();
            if !keepouts.is_empty() {
                return Err(format!("11 {pin} {}", keepouts[0]));
            }
            if !wires.is_empty() {
                return Err(format!("18 {pin} {}", wires[0]));
            }
        }
        Ok(())
    }

    /// Is a node of the wire nearer than the clearance, both in x and in y?
    fn is_near(&self, p: Node, corners: &[Node]) -> bool {
        let (_, _, c) = self.bounds.unwrap();
        nodes(corners).any(|q| (p.0 - q.0).abs() < c && (p.1 - q.1).abs() < c)
    }
}

/// Does the keep-out hold one of the cells round the node?
fn is_round(p: Node, low: Node, high: Node) -> bool {
    let holds = |(x, y): Node| low.0 <= x && x < high.0 && low.1 <= y && y < high.1;
    round(p).into_iter().any(holds)
}

fn is_inside(p: Node, low: Node, high: Node) -> bool {
    low.0 < p.0 && p.0 < high.0 && low.1 < p.1 && p.1 < high.1
}
