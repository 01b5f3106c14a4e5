//! The peer that prints sheets, against the second router, and how it is timed.

mod common;

use std::path::{Path, PathBuf};
use std::process::Command;
use std::sync::OnceLock;

use bench::board::Board;
use bench::generate::STYLES;
use bench::limits::{MAX_BLOCKS, MAX_KEPT, MAX_RECORDS, RECORD_BYTES};
use bench::peer::Peer;
use bench::sheet_timing::{self, KINDS};
use bench::stopwatch::Pair;
use bench::tally::Tally;
use common::programs::{compiled, printed, scratch, spoiled};
use common::{sheet, worked_input, WORKED_SHEET};

fn sound() -> &'static Path {
    static BINARY: OnceLock<PathBuf> = OnceLock::new();
    BINARY.get_or_init(|| compiled(Peer::Sheet, "sheet-sound", str::to_string))
}

/// A file with the second router's sheet.
struct Job {
    file: Vec<u8>,
    sheet: String,
}

impl Job {
    fn new(file: Vec<u8>) -> Job {
        let sheet = sheet(&file);
        Job { file, sheet }
    }

    fn agrees(&self, program: &Path) -> bool {
        printed(program, &self.file).as_ref() == Some(&self.sheet)
    }
}

/// A few files of each style.
fn jobs() -> &'static [Job] {
    static JOBS: OnceLock<Vec<Job>> = OnceLock::new();
    JOBS.get_or_init(|| {
        let of = |seed: u64| STYLES.iter().map(move |style| Job::new(style.file(seed, 1_500)));
        (0..2).flat_map(of).collect()
    })
}

#[test]
fn it_prints_the_worked_sheet() {
    assert_eq!(printed(sound(), &worked_input()).as_deref(), Some(WORKED_SHEET));
    assert_eq!(printed(sound(), b"").as_deref(), Some("end\n"));
}

#[test]
fn it_agrees_with_the_second_router() {
    for (number, job) in jobs().iter().enumerate() {
        assert!(job.agrees(sound()), "file {number}");
    }
    // At the end of the sheet, one byte past it, and with a short last piece.
    for bytes in [RECORD_BYTES * MAX_RECORDS, RECORD_BYTES * MAX_RECORDS + 1, 5, 13] {
        assert!(Job::new(vec![0; bytes]).agrees(sound()), "{bytes} bytes");
    }
}

/// The first fifth of each timed file. The whole ones are compared whenever they
/// are timed.
fn timed() -> &'static [Vec<u8>] {
    static FILES: OnceLock<Vec<Vec<u8>>> = OnceLock::new();
    FILES.get_or_init(|| {
        let part = MAX_RECORDS / 5;
        let first = |file: &[u8]| file[..part * RECORD_BYTES].to_vec();
        // The longer file of `long` begins with the shorter one.
        vec![
            first(&KINDS[0].file(MAX_RECORDS)),
            first(&KINDS[1].file(part)),
            first(&KINDS[2].file(MAX_RECORDS)),
        ]
    })
}

#[test]
fn planted_differences_are_noticed() {
    for (name, piece, by) in [
        ("sheet-order", "ORDER[4] = {E, N, W, S}", "ORDER[4] = {N, E, W, S}"),
        ("sheet-kept", "MAX_KEPT = 32", "MAX_KEPT = 31"),
        ("sheet-undo", "if (kept_count == 0)", "if (kept_count <= 1)"),
        ("sheet-checks", "meets(&area, 1) ||", "0 ||"),
        ("sheet-closing", "|| closes_over_wire(&area)", ""),
        ("sheet-seams", "    close_seams(q);\n", ""),
        ("sheet-round", "return held == 15 &&", "return 0 &&"),
        ("sheet-corner", "= held == 15;", "= held >= 7;"),
        ("sheet-turns", "TURN = 1", "TURN = 0"),
        (
            "sheet-blocks",
            "> MAX_BLOCKS)\n        return TOO",
            "> MAX_BLOCKS - 1)\n        return TOO",
        ),
    ] {
        let program = spoiled(Peer::Sheet, name, piece, by);
        assert!(jobs().iter().any(|job| !job.agrees(&program)), "{name} went unnoticed");
    }
}

#[test]
fn the_timed_files_are_worth_timing() {
    for (kind, file) in KINDS.iter().zip(timed()) {
        let mut sheet = Vec::new();
        let tally = Tally::printing(file.as_slice(), &mut sheet).expect("memory can be read");
        assert!(printed(sound(), file) == String::from_utf8(sheet).ok(), "{}", kind.name);
        assert!(3 * tally.wires >= tally.records(), "{}: few wires\n{tally}", kind.name);
        assert!(4 * tally.detours >= tally.wires, "{}: few detours\n{tally}", kind.name);
    }
}

/// Of a hundred records, how many find nearly 46 blocks, and nearly 32 changes.
fn shares(file: &[u8]) -> [usize; 2] {
    let mut board = Board::default();
    let mut found = [0; 2];
    for piece in file.chunks(RECORD_BYTES) {
        board.take(piece);
        found[0] += usize::from(board.block_count() + 6 >= MAX_BLOCKS);
        found[1] += usize::from(board.kept_count() + 4 >= MAX_KEPT);
    }
    found.map(|count| 100 * count * RECORD_BYTES / file.len())
}

#[test]
fn the_timed_boards_are_often_full() {
    for (file, least) in timed().iter().zip([[25, 25], [60, 75], [0, 25]]) {
        let shares = shares(file);
        assert!(shares[0] >= least[0] && shares[1] >= least[1], "{shares:?}, {least:?}");
    }
}

#[test]
fn the_first_part_comes_again() {
    let (mixed, long) = (KINDS[0].file(50), KINDS[1].file(50));
    assert_eq!((mixed.len(), long.len()), (50 * RECORD_BYTES, 50 * RECORD_BYTES));
    assert_eq!(mixed, mixed[..10 * RECORD_BYTES].repeat(5));
    assert_ne!(long, long[..10 * RECORD_BYTES].repeat(5));
    assert_eq!(long[..20 * RECORD_BYTES], KINDS[1].file(20));
}

/// The numbers of a row for a program beside the sound peer: the time of each,
/// their ratio, the growth of each.
fn numbers(program: PathBuf, count: usize) -> Vec<f64> {
    let pair = Pair { peer: sound().to_path_buf(), program };
    let row = sheet_timing::row(&KINDS[0], &pair, count).expect("a row");
    let words: Vec<&str> = row.split_whitespace().collect();
    assert!(words.len() >= 9, "{row}");
    assert_eq!((words[0], words[1]), ("mixed", count.to_string().as_str()));
    words[4..9].iter().map(|word| word.parse().expect("a number")).collect()
}

#[test]
fn a_row_of_the_table() {
    let numbers = numbers(sound().to_path_buf(), 2_000);
    assert!(numbers[..3].iter().all(|&number| number > 0.0), "{numbers:?}");
}

/// A program that takes longer the more records came before. It sleeps, so that
/// a busy machine can hardly hide it: half a second in all, and a fiftieth of a
/// second for a fifth of the records.
#[test]
fn growth_is_seen() {
    let reads = "long size = read_input();";
    let sleeps = "extern int usleep(u32); u32 n = (u32)size / 12; usleep(2 * n * n);";
    let program = spoiled(Peer::Sheet, "sheet-slow", reads, &format!("{reads} {sleeps}"));
    let numbers = numbers(program, 500);
    assert!(numbers[2] > 1.5 && numbers[4] > 1.5, "{numbers:?}");
}

#[test]
fn a_difference_ends_the_timing() {
    let program = spoiled(Peer::Sheet, "sheet-cut", "\"cut\\n\" : \"end\\n\"", "\"cut\\n\" : \"\"");
    let pair = Pair { peer: sound().to_path_buf(), program };
    let told = sheet_timing::row(&KINDS[0], &pair, 50).expect_err("a difference");
    assert!(told.starts_with("mixed: ") && told.contains("the second router's sheet"), "{told}");
}

#[test]
fn a_missing_program_is_told() {
    let mut command = Command::new(env!("CARGO_BIN_EXE_bench"));
    let output = command.args(["time", "sheet"]).arg(scratch("none")).output().expect("it runs");
    let told = String::from_utf8_lossy(&output.stderr).into_owned();
    assert!(
        told.starts_with("bench time: no program at ") && told.contains("'rt run' in crates/trackprint"),
        "{told}"
    );
    assert_eq!(output.status.code(), Some(1));
}
