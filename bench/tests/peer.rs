//! The question files, and the peer's answers against the second router's.

mod common;

use std::fs;
use std::path::{Path, PathBuf};
use std::process::Command;
use std::sync::OnceLock;
use std::time::Duration;

use bench::code::Code;
use bench::fault::Fault;
use bench::geometry::{Point, Rect};
use bench::peer::{bench_folder, Peer};
use bench::question::{average_runs, checksum_in, file, file_in, read, Question, Row};
use bench::questions::KINDS;
use bench::record::Mode;
use bench::rng::Rng;
use bench::stopwatch::Pair;
use bench::timing;
use common::programs::{self, compiled, printed};

fn bytes_of(name: &str) -> Vec<u8> {
    let path = bench_folder().join("questions").join(name).with_extension("q");
    fs::read(path).expect("a question file")
}

fn questions_of(name: &str) -> Vec<Question> {
    read(&bytes_of(name)).expect("a whole question file")
}

fn sound() -> &'static Path {
    static BINARY: OnceLock<PathBuf> = OnceLock::new();
    BINARY.get_or_init(|| compiled(Peer::Questions, "sound", str::to_string))
}

/// The peer with one piece of its source replaced.
fn spoiled(name: &str, piece: &str, by: &str) -> PathBuf {
    programs::spoiled(Peer::Questions, name, piece, by)
}

fn agrees(program: &Path, questions: &[Question]) -> bool {
    agrees_in(Mode::Plain, program, questions)
}

fn agrees_in(mode: Mode, program: &Path, questions: &[Question]) -> bool {
    let expected = format!("{}\n", checksum_in(mode, questions));
    printed(program, &file_in(mode, questions, 1)) == Some(expected)
}

/// A tiny board with anything on it: boxes that overlap, have no area or reach
/// past the board, pins that may be blocked, equal or off the board.
fn tiny(rng: &mut Rng) -> Question {
    let (w, h) = (rng.range(1, 9), rng.range(1, 9));
    let row = |rng: &mut Rng| {
        let (x, y) = (rng.range(0, w), rng.range(0, h));
        let area = Rect::new(x, y, rng.range(x, x + 3), rng.range(y, y + 3));
        Row { area, c: rng.range(-2, 2).max(0) }
    };
    let rows = (0..rng.range(0, 10)).map(|_| row(rng)).collect();
    let mut pin = || Point::new(rng.range(0, w + 1), rng.range(0, h));
    Question { w, h, s: pin(), t: pin(), rows }
}

/// A tiny board with keep-outs that share sides, at most one to a cell of a coarse
/// grid, and pins anywhere.
fn bricked(rng: &mut Rng) -> Question {
    let (xs, ys) = (cuts(rng), cuts(rng));
    let (w, h) = (xs[3] + rng.range(0, 2), ys[3] + rng.range(0, 2));
    let places = (0..9).filter(|_| rng.chance(75)).collect::<Vec<usize>>();
    let row = |place: &usize| {
        let (x, y) = (place % 3, place / 3);
        Row { area: Rect::new(xs[x], ys[y], xs[x + 1], ys[y + 1]), c: 0 }
    };
    let rows = places.iter().map(row).collect();
    let mut pin = || Point::new(rng.range(0, w), rng.range(0, h));
    Question { w, h, s: pin(), t: pin(), rows }
}

/// Four rising coordinates.
fn cuts(rng: &mut Rng) -> [i32; 4] {
    let mut at = rng.range(-3, 0);
    std::array::from_fn(|_| {
        at = at.max(-1) + rng.range(1, 3);
        at
    })
}

/// Walls that are passed above and below in turn, in two runs each.
fn comb(walls: i32) -> Question {
    let row = |wall: i32| {
        let (y0, y1) = if wall % 2 == 1 { (0, 8) } else { (2, 10) };
        Row { area: Rect::new(3 * wall, y0, 3 * wall, y1), c: 1 }
    };
    let w = 3 * (walls + 1);
    let (s, t) = (Point::new(0, 5), Point::new(w, 5));
    Question { w, h: 10, s, t, rows: (1..=walls).map(row).collect() }
}

/// Files of questions that reach every end a question can come to.
fn odd_files() -> &'static [Vec<Question>] {
    static FILES: OnceLock<Vec<Vec<Question>>> = OnceLock::new();
    FILES.get_or_init(|| {
        let mut rng = Rng::new(1);
        let mut files: Vec<Vec<Question>> =
            (0..60).map(|_| (0..130).map(|_| tiny(&mut rng)).collect()).collect();
        files.extend((0..20).map(|_| (0..130).map(|_| bricked(&mut rng)).collect()));
        files.push((1..40).map(comb).collect());
        files
    })
}

#[test]
fn the_files_are_those_of_the_seeds() {
    for kind in &KINDS {
        assert!(bytes_of(kind.name) == file(&kind.questions(), 1), "{}", kind.name);
        assert!(questions_of(kind.name) == kind.questions(), "{}", kind.name);
    }
}

#[test]
fn the_files_are_worth_asking() {
    for (name, blocks) in [("mid", 20), ("large", 46), ("maze", 46), ("bricks", 46)] {
        let questions = questions_of(name);
        assert!((20..=40).contains(&questions.len()), "{name}");
        assert!(average_runs(Mode::Plain, &questions) >= 8.0, "{name}");
        let runs = |mode| average_runs(mode, &questions);
        assert!(runs(Mode::Straight) < runs(Mode::Plain), "{name}");
        for question in &questions {
            let wire = question.answer().expect("good pins").expect("a wire");
            assert!(wire.detour() > 0 && question.rows.len() == blocks, "{name}");
            let keepout = |row: &Row| row.c == 0 && row.area.x0 < row.area.x1;
            let run = |row: &Row| {
                row.c > 0 && (row.area.x0 == row.area.x1) != (row.area.y0 == row.area.y1)
            };
            assert!(question.rows.iter().all(|row| keepout(row) || run(row)), "{name}");
            let runs = question.rows.iter().filter(|row| run(row)).count();
            assert!(runs < blocks && (runs > 0) == (name != "bricks"), "{name}");
            let open = question.answer_with(Fault::OpenSeams).expect("good pins");
            assert!(name != "bricks" || open != Ok(wire), "a seam must matter");
        }
    }
}

#[test]
fn a_file_that_is_not_whole_is_not_read() {
    let bytes = bytes_of("mid");
    assert!(read(&bytes[..bytes.len() - 2]).is_none());
    assert!(read(&[]).is_none());
    assert_eq!(read(&[0, 0, 1, 0]), Some(Vec::new()));
}

#[test]
fn the_peer_agrees_with_the_second_router() {
    for mode in [Mode::Plain, Mode::Straight] {
        for kind in &KINDS {
            assert!(agrees_in(mode, sound(), &questions_of(kind.name)), "{}", kind.name);
        }
        for (number, questions) in odd_files().iter().enumerate() {
            assert!(agrees_in(mode, sound(), questions), "odd file {number}, {mode:?}");
        }
    }
}

#[test]
fn the_odd_files_reach_every_end() {
    let answers: Vec<_> = odd_files().iter().flatten().map(Question::answer).collect();
    let count = |wanted: Option<Code>| {
        answers.iter().filter(|&answer| answer.as_ref().map(code) == wanted).count()
    };
    for (end, least) in [
        (Some(Code::Accepted), 2_000),
        (Some(Code::NoWire), 40),
        (Some(Code::TooManyRuns), 10),
        (None, 1_000),
    ] {
        assert!(count(end) >= least, "{end:?} came {} times", count(end));
    }
}

fn code(answer: &Result<bench::wire::Wire, Code>) -> Code {
    answer.as_ref().err().copied().unwrap_or(Code::Accepted)
}

#[test]
fn planted_differences_are_noticed() {
    for (name, piece, by) in [
        ("trimmed", "int left = b->x0 - b->c,", "int left = b->x0 < b->c ? 0 : b->x0 - b->c,"),
        ("corners", "MAX_CORNERS = 25", "MAX_CORNERS = 24"),
        ("unreached", "FAR_BYTE 0x7f", "FAR_BYTE 0xff"),
        ("seams", "    close_seams(q);\n", ""),
        ("seam-pins", "return held == 15 &&", "return 0 &&"),
        ("seam-edge", "return held == 15 && x < q->w && y < q->h;", "return held == 15;"),
        ("seam-areas", "b->c == 0 && b->x0 < b->x1 && b->y0 < b->y1", "b->c == 0"),
    ] {
        let program = spoiled(name, piece, by);
        assert!(odd_files().iter().any(|file| !agrees(&program, file)), "{name} went unnoticed");
    }
}

/// A program that takes no notice of the mode, and one to which turns cost nothing,
/// are sound for kind 4 and noticed for kind 8, on each of the files.
#[test]
fn planted_differences_of_kind_8_are_noticed() {
    let answers = "static void answer(const Question *q, Answer *a)\n{";
    let plainly = "static void answer(const Question *asked, Answer *a)\n{\n\
                   Question plain = *asked, *q = &plain; plain.straight = 0;";
    let modeless = spoiled("modeless", answers, plainly);
    let turns = spoiled("turns", "TURN = 1", "TURN = 0");
    for questions in KINDS.iter().map(|kind| questions_of(kind.name)) {
        for program in [&modeless, &turns] {
            assert!(agrees(program, &questions));
            assert!(!agrees_in(Mode::Straight, program, &questions));
        }
    }
}

/// The peer with another order of directions.
fn misordered() -> &'static Path {
    static BINARY: OnceLock<PathBuf> = OnceLock::new();
    BINARY.get_or_init(|| spoiled("order", "ORDER[4] = {E, N, W, S}", "ORDER[4] = {N, E, W, S}"))
}

#[test]
fn another_order_is_noticed_on_each_file() {
    for kind in &KINDS {
        assert!(!agrees(misordered(), &questions_of(kind.name)), "{}", kind.name);
    }
}

/// A wrong program is told even where it is timed only.
#[test]
fn a_difference_ends_the_timing() {
    let output = bench_time(misordered());
    let told = String::from_utf8_lossy(&output.stderr).into_owned();
    assert!(
        told.starts_with("bench time: mid, kind 4: ") && told.contains("the second router has"),
        "{told}"
    );
    assert_eq!(output.status.code(), Some(1));
}

/// What agrees when asked once and saves work when asked again is told too.
#[test]
fn a_late_difference_ends_the_timing() {
    let program = spoiled("late", "rep++", "rep += 2");
    let pair = Pair { peer: sound().to_path_buf(), program };
    // So long that even on a busy machine once is not enough. It ends at twice.
    let run = Duration::from_secs(30);
    let told = timing::times(&pair, Mode::Plain, &questions_of("mid"), run).err();
    let told = told.expect("a difference");
    assert!(told.starts_with("with reps "), "{told}");
}

#[test]
fn a_missing_program_is_told() {
    let output = bench_time(&Path::new(env!("CARGO_TARGET_TMPDIR")).join("none"));
    let told = String::from_utf8_lossy(&output.stderr).into_owned();
    assert!(
        told.starts_with("bench time: no program at ") && told.contains("'rt run' in crates/ask"),
        "{told}"
    );
    assert_eq!(output.status.code(), Some(1));
}

fn bench_time(program: &Path) -> std::process::Output {
    let mut command = Command::new(env!("CARGO_BIN_EXE_bench"));
    command.arg("time").arg(program).output().expect("the program runs")
}

#[test]
fn a_row_of_the_table() {
    let pair = Pair { peer: sound().to_path_buf(), program: sound().to_path_buf() };
    let row = timing::row("mid", &pair, Duration::from_millis(20)).expect("a row");
    let words: Vec<&str> = row.split_whitespace().collect();
    assert!(words.len() >= 11, "{row}");
    assert_eq!((words[0], words[1]), ("mid", "32"));
    // Of kind 4, of kind 8, and of the two.
    for place in [5, 9, 10] {
        let ratio: f64 = words[place].parse().expect("a ratio");
        assert!(ratio > 0.0, "{row}");
    }
}
