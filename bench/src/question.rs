//! The question file: what the peer and the proved program are timed on.
//!
//! Words are 16-bit little-endian. Word 0 is the number of questions, word 1
//! how often all of them are asked (reps); then each question has 238 words:
//! W, H, sx, sy, tx, ty, n, mode, then 46 rows of x0, y0, x1, y1, c, of which those
//! from n on are 0. The mode is 0 for kind 4's answer, as in the files that are kept,
//! and 1 for kind 8's. A row is a block: an area widened by c, as an open box. Rows
//! with c = 0 are keep-outs, between which seams are closed.

use crate::cells::Cover;
use crate::code::Code;
use crate::fault::Fault;
use crate::geometry::{Point, Rect};
use crate::item::Frame;
use crate::limits::{MAX_BLOCKS, MAX_RUNS};
use crate::record::{Mode, Pins};
use crate::route::Router;
use crate::wire::Wire;

const HEAD_WORDS: usize = 2;
const ROW_WORDS: usize = 5;
const QUESTION_HEAD_WORDS: usize = 8;
const QUESTION_WORDS: usize = QUESTION_HEAD_WORDS + MAX_BLOCKS * ROW_WORDS;
/// The programs that are timed read no more than this.
const FILE_BYTES: usize = 65_536;

/// A block: a keep-out has c = 0, a run of a wire its wire's clearance.
#[derive(Clone, Copy, PartialEq, Eq, Debug)]
pub struct Row {
    pub area: Rect,
    pub c: i32,
}

#[derive(Clone, PartialEq, Eq, Debug)]
pub struct Question {
    pub w: i32,
    pub h: i32,
    pub s: Point,
    pub t: Point,
    pub rows: Vec<Row>,
}

impl Question {
    /// The second router's answer, a wire or code 12 or 13; `None` if a pin is
    /// off the board or blocked, or both are at one node.
    pub fn answer(&self) -> Option<Result<Wire, Code>> {
        self.answer_in(Mode::Plain)
    }

    /// The answer of kind 4, or that of kind 8.
    pub fn answer_in(&self, mode: Mode) -> Option<Result<Wire, Code>> {
        self.answer_by(mode, Fault::None)
    }

    /// Kind 4's answer with seams closed, or with the fault that leaves them open.
    pub fn answer_with(&self, fault: Fault) -> Option<Result<Wire, Code>> {
        self.answer_by(Mode::Plain, fault)
    }

    fn answer_by(&self, mode: Mode, fault: Fault) -> Option<Result<Wire, Code>> {
        // The rows bring their own clearance, so the frame's says nothing here.
        let frame = Frame { w: self.w, h: self.h, clearance: 0 };
        let blocks = self.rows.iter().map(|row| row.area.widened(row.c)).collect();
        let keepouts = self.rows.iter().filter(|row| row.c == 0).map(|row| row.area);
        let cover = fault.spoil_cover(Cover::new(&frame, keepouts));
        let mut router = Router::over(blocks, cover);
        let asked = |p: Point| frame.holds(p) && !router.node_blocked(p);
        if !asked(self.s) || !asked(self.t) || self.s == self.t {
            return None;
        }
        Some(match router.find(&frame, Pins { s: self.s, t: self.t }, mode) {
            None => Err(Code::NoWire),
            Some(wire) if wire.run_count() > MAX_RUNS => Err(Code::TooManyRuns),
            Some(wire) => Ok(wire),
        })
    }

    fn words(&self, mode: Mode) -> [u16; QUESTION_WORDS] {
        let Question { w, h, s, t, rows } = self;
        let mode = i32::from(mode == Mode::Straight);
        let head = [*w, *h, s.x, s.y, t.x, t.y, rows.len() as i32, mode];
        let rows = rows.iter().flat_map(|&Row { area, c }| [area.x0, area.y0, area.x1, area.y1, c]);
        let mut words = [0; QUESTION_WORDS];
        for (word, number) in words.iter_mut().zip(head.into_iter().chain(rows)) {
            *word = u16::try_from(number).expect("a question's numbers have 16 bits");
        }
        words
    }

    fn read(words: &[u16]) -> Option<Question> {
        let (head, rows) = words.split_at(QUESTION_HEAD_WORDS);
        let rows = rows.chunks_exact(ROW_WORDS).map(|row| {
            let [x0, y0, x1, y1, c] = std::array::from_fn(|i| i32::from(row[i]));
            Row { area: Rect::new(x0, y0, x1, y1), c }
        });
        let [w, h, sx, sy, tx, ty, n, zero] = std::array::from_fn(|i| i32::from(head[i]));
        let count = usize::try_from(n).ok()?;
        let question = Question {
            w,
            h,
            s: Point::new(sx, sy),
            t: Point::new(tx, ty),
            rows: rows.take(count).collect(),
        };
        (count <= MAX_BLOCKS && zero == 0).then_some(question)
    }
}

/// The bytes of a question file, as it is kept.
pub fn file(questions: &[Question], reps: u16) -> Vec<u8> {
    file_in(Mode::Plain, questions, reps)
}

/// The same with all questions in one mode.
pub fn file_in(mode: Mode, questions: &[Question], reps: u16) -> Vec<u8> {
    let count = u16::try_from(questions.len()).expect("few questions");
    let words = questions.iter().flat_map(|question| question.words(mode));
    let bytes: Vec<u8> =
        [count, reps].into_iter().chain(words).flat_map(u16::to_le_bytes).collect();
    assert!(bytes.len() <= FILE_BYTES, "{} questions do not fit a file", questions.len());
    bytes
}

/// The questions of a file, if it is a whole one.
pub fn read(file: &[u8]) -> Option<Vec<Question>> {
    let words: Vec<u16> =
        file.chunks_exact(2).map(|pair| u16::from_le_bytes([pair[0], pair[1]])).collect();
    let count = usize::from(*words.first()?);
    let whole = file.len() == 2 * (HEAD_WORDS + count * QUESTION_WORDS);
    if !whole {
        return None;
    }
    words[HEAD_WORDS..].chunks_exact(QUESTION_WORDS).map(Question::read).collect()
}

/// The checksum that a program prints after asking the questions once, by the
/// second router's answers.
pub fn checksum(questions: &[Question]) -> u64 {
    checksum_in(Mode::Plain, questions)
}

/// The same with all questions in one mode.
pub fn checksum_in(mode: Mode, questions: &[Question]) -> u64 {
    let mut sum = 0;
    let mut mix = |value: u32| sum = (sum * 31 + u64::from(value)) % 1_000_003;
    for answer in questions.iter().filter_map(|question| question.answer_in(mode)) {
        match answer {
            Err(code) => [u32::from(code.number()), 0, 0, 0].into_iter().for_each(&mut mix),
            Ok(wire) => {
                let corners = wire.corners();
                let head = [0, wire.length(), wire.detour(), corners.len() as u32];
                head.into_iter().for_each(&mut mix);
                corners.iter().flat_map(|p| [p.x as u32, p.y as u32]).for_each(&mut mix);
            }
        }
    }
    sum
}

/// The runs of the questions' wires on average.
pub fn average_runs(mode: Mode, questions: &[Question]) -> f64 {
    let wires = questions.iter().filter_map(|question| question.answer_in(mode)).flatten();
    let all: Vec<usize> = wires.map(|wire| wire.run_count()).collect();
    all.iter().sum::<usize>() as f64 / all.len().max(1) as f64
}
