//! Makes the question files that speed is measured on.
//!
//! Each question has a board of its own, built by document 01's records, so
//! that its blocks are what a board can hold. The pins are those of a wire that
//! makes a detour and has many runs: easy questions say little about speed.

use crate::board::Board;
use crate::code::Code;
use crate::fault::Fault;
use crate::geometry::{Point, Rect};
use crate::item::{Frame, Item};
use crate::limits::MAX_BLOCKS;
use crate::question::{Question, Row};
use crate::record::{Pins, Record};
use crate::rng::Rng;

/// Questions in a file.
const COUNT: usize = 32;
/// Pairs of pins that are tried on a board before another one is made.
const PAIRS: usize = 40;
/// Records that are tried before a board is given up.
const RECORDS: usize = 2_000;

/// The files, each from its fixed seed.
pub struct Kind {
    pub name: &'static str,
    pub about: &'static str,
    seed: u64,
    blocks: usize,
    /// Fewest runs of a wire that is kept.
    least_runs: usize,
    /// Is only a question kept whose answer seams change?
    of_seams: bool,
    board: fn(&mut Plan),
}

pub const KINDS: [Kind; 4] = [
    Kind {
        name: "mid",
        about: "200 x 200, 20 blocks",
        seed: 20,
        blocks: 20,
        least_runs: 7,
        of_seams: false,
        board: mid,
    },
    Kind {
        name: "large",
        about: "30,000 x 30,000, 46 blocks",
        seed: 46,
        blocks: MAX_BLOCKS,
        least_runs: 8,
        of_seams: false,
        board: large,
    },
    Kind {
        name: "maze",
        about: "walls with gaps now at one end, now at the other, 46 blocks",
        seed: 24,
        blocks: MAX_BLOCKS,
        least_runs: 14,
        of_seams: false,
        board: maze,
    },
    Kind {
        name: "bricks",
        about: "walls of keep-outs that share sides, 46 of them, passed above and below in turn",
        seed: 3,
        blocks: MAX_BLOCKS,
        least_runs: 8,
        of_seams: true,
        board: bricks,
    },
];

impl Kind {
    pub fn named(name: &str) -> Option<&'static Kind> {
        KINDS.iter().find(|kind| kind.name == name)
    }

    pub fn questions(&self) -> Vec<Question> {
        let mut rng = Rng::new(self.seed);
        let mut questions = Vec::new();
        while questions.len() < COUNT {
            let mut plan = Plan::new(rng.number(), self.blocks);
            (self.board)(&mut plan);
            questions.extend(plan.question(self));
        }
        questions
    }
}

fn mid(plan: &mut Plan) {
    let clearance = plan.rng.range(1, 4);
    plan.bounds(200, 200, clearance);
    plan.fill(&Mix { keepouts: 60, thin: (2, 20), long: (20, 90) });
}

fn large(plan: &mut Plan) {
    let clearance = plan.rng.range(50, 200);
    plan.bounds(30_000, 30_000, clearance);
    plan.fill(&Mix { keepouts: 60, thin: (200, 2_000), long: (2_000, 12_000) });
}

/// Wires as walls, each passed at its one open end in two more runs, and small
/// keep-outs in the corridors between them.
fn maze(plan: &mut Plan) {
    let walls = plan.rng.range(8, 10);
    let clearance = plan.rng.range(1, 4);
    let pitch = 2 * clearance + plan.rng.range(16, 28);
    let high = plan.rng.range(120, 240);
    plan.bounds((walls + 1) * pitch, high, clearance);
    for wall in 1..=walls {
        let x = wall * pitch + plan.rng.range(-2, 2);
        let gap = clearance + plan.rng.range(4, 16);
        let (y0, y1) = if wall % 2 == 1 { (0, high - gap) } else { (gap, high) };
        plan.lay(Point::new(x, y0), Point::new(x, y1));
    }
    plan.fill(&Mix { keepouts: 100, thin: (2, 10), long: (4, 24) });
}

/// Walls of bricks that stand below and hang above in turn, so that the way along
/// the middle goes up and down at every wall. Were seams open, it would lead right
/// through the walls.
fn bricks(plan: &mut Plan) {
    let walls = plan.rng.range(10, 12);
    let (half, pitch) = (plan.rng.range(6, 12), plan.rng.range(14, 24));
    // Far enough from both edges that no way round is shorter.
    let middle = half * walls + plan.rng.range(20, 40);
    let count = plan.blocks as i32;
    plan.bounds((walls + 1) * pitch, 2 * middle, 1);
    for wall in 0..walls {
        let x = wall * pitch + plan.rng.range(pitch / 2, pitch / 2 + 3);
        let thick = plan.rng.range(4, pitch - 6);
        let (y0, y1) = if wall % 2 == 0 { (0, middle + half) } else { (middle - half, 2 * middle) };
        let bricks = (wall + 1) * count / walls - wall * count / walls;
        plan.wall(Rect::new(x, y0, x + thick, y1), bricks);
    }
}

/// What a board is filled with.
struct Mix {
    /// Of a hundred records, how many are keep-outs; the others are lays.
    keepouts: i32,
    /// The shorter and the longer side of a keep-out, each from and to; a
    /// wire's pins are as far apart as a keep-out's corners.
    thin: (i32, i32),
    long: (i32, i32),
}

/// A board in the making.
struct Plan {
    rng: Rng,
    board: Board,
    blocks: usize,
    next_id: u16,
}

impl Plan {
    fn new(seed: u64, blocks: usize) -> Plan {
        Plan { rng: Rng::new(seed), board: Board::default(), blocks, next_id: 1 }
    }

    /// Takes a record; one that gives too many blocks is undone.
    fn put(&mut self, record: Record) {
        let accepted = self.board.take(&record.bytes()).code == Code::Accepted;
        if accepted && self.board.block_count() > self.blocks {
            self.board.take(&Record::Undo.bytes());
        }
        self.next_id += 1;
    }

    fn bounds(&mut self, w: i32, h: i32, clearance: i32) {
        self.put(Record::Bounds { w, h, clearance });
    }

    fn lay(&mut self, s: Point, t: Point) {
        self.put(Record::Lay { id: self.next_id, pins: Pins { s, t } });
    }

    /// Adds random items until the board has its blocks.
    fn fill(&mut self, mix: &Mix) {
        for _ in 0..RECORDS {
            if self.board.block_count() == self.blocks {
                return;
            }
            let Rect { x0, y0, x1, y1 } = self.rect(mix);
            if self.rng.chance(mix.keepouts) {
                let rect = Rect::new(x0, y0, x1, y1);
                self.put(Record::Keepout { id: self.next_id, rect });
            } else {
                self.lay(Point::new(x0, y0), Point::new(x1, y1));
            }
        }
    }

    /// A wall of so many bricks, one upon the other in one column or in two.
    fn wall(&mut self, area: Rect, bricks: i32) {
        let Rect { x0, y0, x1, y1 } = area;
        let columns = self.rng.range(1, 2);
        for column in 0..columns {
            let x = |column: i32| x0 + column * (x1 - x0) / columns;
            let high = (column + 1) * bricks / columns - column * bricks / columns;
            let mut low = y0;
            for brick in 1..=high {
                let joint = y0 + brick * (y1 - y0) / high + self.rng.range(-2, 2);
                let top = if brick == high { y1 } else { joint };
                let rect = Rect::new(x(column), low, x(column + 1), top);
                self.put(Record::Keepout { id: self.next_id, rect });
                low = top;
            }
        }
    }

    /// A rectangle on the board that lies or stands.
    fn rect(&mut self, mix: &Mix) -> Rect {
        let frame = self.frame();
        let thin = self.rng.range(mix.thin.0, mix.thin.1);
        let long = self.rng.range(mix.long.0, mix.long.1);
        let (wide, high) = if self.rng.chance(50) { (long, thin) } else { (thin, long) };
        let x = self.rng.range(0, frame.w - wide);
        let y = self.rng.range(0, frame.h - high);
        Rect::new(x, y, x + wide, y + high)
    }

    fn frame(&self) -> Frame {
        *self.board.frame().expect("a plan begins with its bounds")
    }

    /// The first question of those tried that is worth asking; in half of the
    /// cases with x and y swapped.
    fn question(mut self, kind: &Kind) -> Option<Question> {
        if self.board.block_count() != self.blocks {
            return None;
        }
        let turned = self.rng.chance(50);
        let rows = self.rows();
        (0..PAIRS).find_map(|_| {
            let pins = self.pins();
            let record = Record::Ask { pins };
            self.board.take(&record.bytes()).wire?;
            let Frame { w, h, .. } = self.frame();
            let plain = Question { w, h, s: pins.s, t: pins.t, rows: rows.clone() };
            let question = if turned { swapped(&plain) } else { plain };
            let wire = question.answer()?.ok()?;
            let winding = wire.detour() > 0 && wire.run_count() >= kind.least_runs;
            let open = || question.answer_with(Fault::OpenSeams);
            let kept = winding && (!kind.of_seams || open() != Some(Ok(wire)));
            kept.then_some(question)
        })
    }

    fn pins(&mut self) -> Pins {
        let Frame { w, h, .. } = self.frame();
        let mut pin = || Point::new(self.rng.range(0, w), self.rng.range(0, h));
        Pins { s: pin(), t: pin() }
    }

    fn rows(&self) -> Vec<Row> {
        let clearance = self.frame().clearance;
        let rows = |item: &Item| -> Vec<Row> {
            match item {
                Item::Keepout(area) => vec![Row { area: *area, c: 0 }],
                Item::Wire(wire) => wire.runs().map(|area| Row { area, c: clearance }).collect(),
            }
        };
        self.board.items().flat_map(|(_, item)| rows(item)).collect()
    }
}

/// The question with x and y swapped.
fn swapped(question: &Question) -> Question {
    let point = |p: Point| Point::new(p.y, p.x);
    let area = |r: Rect| Rect::new(r.y0, r.x0, r.y1, r.x1);
    Question {
        w: question.h,
        h: question.w,
        s: point(question.s),
        t: point(question.t),
        rows: question.rows.iter().map(|row| Row { area: area(row.area), c: row.c }).collect(),
    }
}
