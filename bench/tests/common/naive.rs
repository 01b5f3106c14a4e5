//! The plainest router there is, written from document 01's sentences, for
//! small boards. It shares no code with the bench: it reads the bytes itself,
//! keeps whole lists of items to go back to, tests every unit edge against
//! every block, and finds wires by comparing spelled words. `seams` writes down the
//! cells of keep-outs. `pins` says what is in the way of a pin, node by node.
//! `drawn` judges wires drawn by hand, step by step. `crowd` counts open edges. `turns`
//! spells wires with few runs.

pub mod crowd;
pub mod drawn;
mod pins;
mod seams;
mod turns;

use seams::Covered;
use turns::straightest_word;

type Node = (i64, i64);

/// What an accepted record gives after its code, or the code that refuses it and
/// what is told with that.
type Answer = Result<String, String>;

/// A code that tells nothing more.
fn no<T>(code: u8) -> Result<T, String> {
    Err(code.to_string())
}

#[derive(Clone)]
enum Thing {
    Keepout(Node, Node),
    Wire(Vec<Node>),
}

type Things = Vec<(u16, Thing)>;

#[derive(Default)]
pub struct Naive {
    /// W, H and clearance.
    bounds: Option<(i64, i64, i64)>,
    things: Things,
    /// The things as they stood before each kept change, oldest first.
    before: Vec<Things>,
}

/// The sheet of a file of at most 65,535 records.
pub fn sheet(file: &[u8]) -> String {
    let mut board = Naive::default();
    let mut lines = String::new();
    for (index, piece) in file.chunks(12).enumerate() {
        lines += &format!("{} {}\n", index + 1, board.take(piece));
    }
    lines + "end\n"
}

impl Naive {
    /// The answer to a record: a code, and for an accepted lay or ask the
    /// length, the detour and the corners.
    pub fn take(&mut self, piece: &[u8]) -> String {
        match self.try_take(piece) {
            Ok(answer) => format!("0{answer}"),
            Err(refusal) => refusal,
        }
    }

    fn try_take(&mut self, piece: &[u8]) -> Answer {
        if piece.len() != 12 {
            return no(1);
        }
        let pair = |at: usize| piece[at] as i64 + 256 * piece[at + 1] as i64;
        let (kind, id) = (piece[0], pair(2) as u16);
        let (a, b, c, d) = (pair(4), pair(6), pair(8), pair(10));
        let zero = |numbers: &[i64]| numbers.iter().all(|number| *number == 0);
        let well_formed = piece[1] == 0
            && match kind {
                1 => id == 0 && zero(&[d]),
                2 | 3 | 9 => id != 0,
                4 | 8 => id == 0,
                5 => id != 0 && zero(&[a, b, c, d]),
                6 => id == 0 && zero(&[a, b, c, d]),
                _ => false,
            };
        if !well_formed {
            return no(1);
        }
        if kind != 1 && self.bounds.is_none() {
            return no(2);
        }
        match kind {
            1 => self.begin(a, b, c),
            2 => self.keep_out(id, (a, b), (c, d)),
            3 | 9 => self.lay(id, (a, b), (c, d), kind == 9),
            4 | 8 => {
                let word = self.find((a, b), (c, d), kind == 8)?;
                Ok(shown((a, b), (c, d), &word))
            }
            5 => self.take_out(id),
            _ => self.undo(),
        }
    }

    fn begin(&mut self, w: i64, h: i64, c: i64) -> Answer {
        let in_range =
            (1..=30_000).contains(&w) && (1..=30_000).contains(&h) && (1..=200).contains(&c);
        if !in_range {
            return no(3);
        }
        *self = Naive { bounds: Some((w, h, c)), ..Naive::default() };
        Ok(String::new())
    }

    fn keep_out(&mut self, id: u16, low: Node, high: Node) -> Answer {
        let (w, h, _) = self.bounds.unwrap();
        self.id_is_free(id)?;
        if !(low.0 < high.0 && high.0 <= w && low.1 < high.1 && high.1 <= h) {
            return no(6);
        }
        // Unit squares inside the new keep-out are inside no other one.
        for (x, y) in points(low.0, low.1, high.0 - 1, high.1 - 1) {
            for (_, thing) in &self.things {
                if let Thing::Keepout(l, u) = thing {
                    if l.0 <= x && x < u.0 && l.1 <= y && y < u.1 {
                        return no(7);
                    }
                }
            }
        }
        let covered = self.covered(Some((low, high)));
        for (_, thing) in &self.things {
            if let Thing::Wire(corners) = thing {
                let shut = |edge| edge_meets(edge, (low, high)) || covered.shuts(edge);
                if unit_edges(corners).any(shut) {
                    return no(8);
                }
            }
        }
        self.add(id, Thing::Keepout(low, high))
    }

    fn lay(&mut self, id: u16, s: Node, t: Node, straight: bool) -> Answer {
        self.id_is_free(id)?;
        let word = self.find(s, t, straight)?;
        self.add(id, Thing::Wire(corners(s, &word)))?;
        Ok(shown(s, t, &word))
    }

    fn take_out(&mut self, id: u16) -> Answer {
        if self.things.iter().all(|(used, _)| *used != id) {
            return no(5);
        }
        self.keep();
        self.things.retain(|(used, _)| *used != id);
        Ok(String::new())
    }

    fn undo(&mut self) -> Answer {
        let Some(things) = self.before.pop() else { return no(15) };
        self.things = things;
        Ok(String::new())
    }

    fn id_is_free(&self, id: u16) -> Result<(), String> {
        if self.things.iter().any(|(used, _)| *used == id) {
            no(4)
        } else {
            Ok(())
        }
    }

    fn add(&mut self, id: u16, thing: Thing) -> Answer {
        let count = |thing: &Thing| match thing {
            Thing::Keepout(..) => 1,
            Thing::Wire(corners) => corners.len() - 1,
        };
        let before: usize = self.things.iter().map(|(_, thing)| count(thing)).sum();
        if before + count(&thing) > 46 {
            return no(14);
        }
        self.keep();
        self.things.push((id, thing));
        Ok(String::new())
    }

    fn keep(&mut self) {
        self.before.push(self.things.clone());
        if self.before.len() > 32 {
            self.before.remove(0);
        }
    }

    /// Every block as the lower left and upper right corner of its interior.
    fn blocks(&self) -> Vec<(Node, Node)> {
        let (_, _, c) = self.bounds.unwrap();
        let mut blocks = Vec::new();
        for (_, thing) in &self.things {
            match thing {
                Thing::Keepout(low, high) => blocks.push((*low, *high)),
                Thing::Wire(corners) => {
                    for run in corners.windows(2) {
                        let (p, q) = (run[0], run[1]);
                        let low = (p.0.min(q.0) - c, p.1.min(q.1) - c);
                        let high = (p.0.max(q.0) + c, p.1.max(q.1) + c);
                        blocks.push((low, high));
                    }
                }
            }
        }
        blocks
    }

    /// The steps of the answered wire, spelled 0 for E, 1 N, 2 W, 3 S.
    fn find(&self, s: Node, t: Node, straight: bool) -> Result<Vec<u8>, String> {
        let (w, h, _) = self.bounds.unwrap();
        let off = |p: Node| p.0 > w || p.1 > h;
        if off(s) || off(t) {
            return no(9);
        }
        if s == t {
            return no(10);
        }
        self.pins_are_free(s, t)?;
        let steps = open_steps((w, h), &self.blocks(), &self.covered(None));
        let spelled = if straight { straightest_word } else { first_word };
        let Some(word) = spelled((w, h), &steps, s, t) else { return no(12) };
        if corners(s, &word).len() - 1 > 24 {
            return no(13);
        }
        Ok(word)
    }
}

/// Is a point, given in quarters of a unit, inside a block?
fn inside(p: Node, (low, high): (Node, Node)) -> bool {
    4 * low.0 < p.0 && p.0 < 4 * high.0 && 4 * low.1 < p.1 && p.1 < 4 * high.1
}

/// Does the open part of a unit edge meet the interior? Blocks have whole
/// sides, so if any point of the open part lies inside, the quarter points do.
fn edge_meets((p, q): (Node, Node), block: (Node, Node)) -> bool {
    (1..4).any(|k| inside((4 * p.0 + k * (q.0 - p.0), 4 * p.1 + k * (q.1 - p.1)), block))
}

/// The unit edges of a wire.
fn unit_edges(corners: &[Node]) -> impl Iterator<Item = (Node, Node)> + '_ {
    corners.windows(2).flat_map(|run| {
        let (p, q) = (run[0], run[1]);
        let (dx, dy) = ((q.0 - p.0).signum(), (q.1 - p.1).signum());
        let steps = (q.0 - p.0).abs() + (q.1 - p.1).abs();
        (0..steps).map(move |k| {
            let from = (p.0 + k * dx, p.1 + k * dy);
            (from, (from.0 + dx, from.1 + dy))
        })
    })
}

fn points(x0: i64, y0: i64, x1: i64, y1: i64) -> impl Iterator<Item = Node> {
    (x0..=x1).flat_map(move |x| (y0..=y1).map(move |y| (x, y)))
}

const STEPS: [Node; 4] = [(1, 0), (0, 1), (-1, 0), (0, -1)];

/// A unit edge that is not blocked, with the letter of its step.
struct Step {
    from: usize,
    letter: u8,
    to: usize,
}

fn open_steps(size: Node, blocks: &[(Node, Node)], covered: &Covered) -> Vec<Step> {
    let index = |p: Node| (p.1 * (size.0 + 1) + p.0) as usize;
    let mut steps = Vec::new();
    for p in points(0, 0, size.0, size.1) {
        for (letter, step) in STEPS.iter().enumerate() {
            let q = (p.0 + step.0, p.1 + step.1);
            let on_board = 0 <= q.0 && q.0 <= size.0 && 0 <= q.1 && q.1 <= size.1;
            let blocked =
                || covered.shuts((p, q)) || blocks.iter().any(|block| edge_meets((p, q), *block));
            if on_board && !blocked() {
                steps.push(Step { from: index(p), letter: letter as u8, to: index(q) });
            }
        }
    }
    steps
}

/// The length of the shortest way to t from each node, row by row. It is improved
/// edge by edge until nothing improves (Bellman and Ford).
fn lengths(size: Node, steps: &[Step], t: Node) -> Vec<Option<usize>> {
    let index = |p: Node| (p.1 * (size.0 + 1) + p.0) as usize;
    let mut length: Vec<Option<usize>> = vec![None; index(size) + 1];
    length[index(t)] = Some(0);
    let mut improved = true;
    while improved {
        improved = false;
        // There and back, or a winding way would take very many rounds.
        for step in steps.iter().chain(steps.iter().rev()) {
            let Some(rest) = length[step.to] else { continue };
            if length[step.from].is_none_or(|old| old > rest + 1) {
                length[step.from] = Some(rest + 1);
                improved = true;
            }
        }
    }
    length
}

/// The first of the shortest words that lead from s to t. The words are made, the
/// short ones first. The first word from a node is the first among a step and
/// the first word from the node after it.
fn first_word(size: Node, steps: &[Step], s: Node, t: Node) -> Option<Vec<u8>> {
    let index = |p: Node| (p.1 * (size.0 + 1) + p.0) as usize;
    let mut words: Vec<Vec<u8>> = vec![Vec::new(); index(size) + 1];
    for step in shortest_steps(size, steps, s, t)? {
        let word = [&[step.letter], words[step.to].as_slice()].concat();
        if words[step.from].is_empty() || word < words[step.from] {
            words[step.from] = word;
        }
    }
    Some(words.swap_remove(index(s)))
}

/// The steps that come nearer to t, the last ones of a way first, up to those that are
/// as far away as s.
fn shortest_steps(size: Node, steps: &[Step], s: Node, t: Node) -> Option<Vec<&Step>> {
    let index = |p: Node| (p.1 * (size.0 + 1) + p.0) as usize;
    let length = lengths(size, steps, t);
    let mut by_length: Vec<Vec<&Step>> = vec![Vec::new(); length[index(s)]? + 1];
    for step in steps {
        if let (Some(from), Some(to)) = (length[step.from], length[step.to]) {
            if from == to + 1 && from < by_length.len() {
                by_length[from].push(step);
            }
        }
    }
    Some(by_length.concat())
}

fn corners(s: Node, word: &[u8]) -> Vec<Node> {
    let mut corners = vec![s];
    let mut at = s;
    for (k, letter) in word.iter().enumerate() {
        if k > 0 && word[k - 1] != *letter {
            corners.push(at);
        }
        let step = STEPS[*letter as usize];
        at = (at.0 + step.0, at.1 + step.1);
    }
    corners.push(at);
    corners
}

/// Length, detour and corners as the sheet shows them.
fn shown(s: Node, t: Node, word: &[u8]) -> String {
    let away = |p: Node| (p.0 - t.0).abs() + (p.1 - t.1).abs();
    let mut detour = 0;
    let mut at = s;
    for letter in word {
        let step = STEPS[*letter as usize];
        let next = (at.0 + step.0, at.1 + step.1);
        if away(next) > away(at) {
            detour += 1;
        }
        at = next;
    }
    let corners: Vec<String> =
        corners(s, word).iter().map(|corner| format!("{}:{}", corner.0, corner.1)).collect();
    format!(" {} {} {}", word.len(), detour, corners.join(" "))
}
