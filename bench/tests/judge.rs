//! The command that says in words what a program prints for a text, and the
//! example of drawn wires.

mod common;

use std::fs;
use std::path::{Path, PathBuf};
use std::process::{Command, Output};
use std::sync::OnceLock;

use bench::drawn::text::pack;
use bench::peer::bench_folder;
use common::drawn::sheet;
use common::programs::{scratch, script};

fn judge(program: &Path, file: &Path) -> Output {
    let mut command = Command::new(env!("CARGO_BIN_EXE_bench"));
    command.args(["judge", "--program"]).arg(program).arg(file);
    command.output().expect("the program runs")
}

fn text(bytes: &[u8]) -> &str {
    std::str::from_utf8(bytes).expect("text")
}

/// Written once: the tests run at the same time.
fn sound() -> &'static Path {
    static PROGRAM: OnceLock<PathBuf> = OnceLock::new();
    PROGRAM.get_or_init(|| script("judge-sound.sh", "exec BENCH print drawn"))
}

fn file(name: &str, text: &str) -> PathBuf {
    let path = scratch(name);
    fs::write(&path, text).expect("a folder to write to");
    path
}

/// What a sound program says of a text, and how that ends.
fn judged(name: &str, text: &str) -> (String, Option<i32>) {
    let output = judge(sound(), &file(name, text));
    let told = [output.stdout, output.stderr].concat();
    (String::from_utf8(told).expect("text"), output.status.code())
}

fn example() -> String {
    example_named("drawn.txt")
}

fn example_named(name: &str) -> String {
    let path = bench_folder().with_file_name("examples").join(name);
    fs::read_to_string(path).expect("the example")
}

/// The examples say after each draw what must be printed, worked by hand.
#[test]
fn the_examples_are_printed_as_they_say() {
    let expected = assert_printed_as_it_says("drawn.txt");
    for code in ["0 0", "0 4", "2", "9 2", "10", "20 3", "22", "23 2", "24 1"] {
        assert!(expected.contains(&format!(" {code}\n")), "no {code}");
    }
    assert_printed_as_it_says("printer-drawn.txt");
}

fn assert_printed_as_it_says(name: &str) -> String {
    let example = example_named(name);
    let draws = example.lines().filter(|line| line.starts_with("draw"));
    let said = |line: &str| {
        let comment = line.split("# ").nth(1).expect("a comment").to_string();
        comment.split(':').next().expect("a line").to_string() + "\n"
    };
    let expected: String = draws.map(said).collect::<String>() + "end\n";
    assert_eq!(sheet(&pack(example.as_bytes()).expect("it packs")), expected, "{name}");
    expected
}

#[test]
fn the_example_in_words() {
    let (told, status) = judged("example.txt", &example());
    let verdicts: Vec<&str> =
        told.lines().map(|line| line.rsplit(": ").next().expect("a verdict")).collect();
    assert_eq!(
        verdicts,
        [
            "the board has no bounds yet (2)",
            "legal, as short as can be",
            "legal, 4 units longer than the shortest",
            "legal, as short as can be",
            "legal, 8 units longer than the shortest",
            "3 numbers are not 2 to 25 corners (22)",
            "both ends are at one node (10)",
            "run 2 from 4:0 to 8:0 goes along the axis of the run before it (23)",
            "run 2 from 4:0 to 9:2 is slanted (23)",
            "run 2 from 10:1 to 10:11 has a corner off the board (9)",
            "run 3 from 4:1 to 4:3 enters a keep-out (20)",
            "run 1 from 0:0 to 0:4 is nearer than the clearance to a laid wire (24)",
        ]
    );
    assert!(told.starts_with("line 7: draw 0 0 10 0: "), "{told}");
    assert_eq!(status, Some(0));
}

#[test]
fn other_words() {
    let lines = "bounds 9 9 1\ndraw 0 0 0 0 1 0\ndraw 0 0 0 1 1 1 1 0\n\
                keepout 1 0 0 10 1\nask 0 0 10 10\nkeepout 2 3 3 6 6\nlay 7 0 0 0 9\n\
                lay 8 9 9 4 4\nlay 8 0 4 9 9\nbytes 07\n";
    let (told, status) = judged("other.txt", lines);
    assert_eq!(
        told,
        "line 2: draw 0 0 0 0 1 0: run 1 from 0:0 to 0:0 is empty (23)\n\
         line 3: draw 0 0 0 1 1 1 1 0: legal, 2 units longer than the shortest\n\
         line 4: keepout 1 0 0 10 1: refused with 6, so it changes nothing\n\
         line 8: lay 8 9 9 4 4: refused with 11: pin 2 lies inside keep-out 2, \
         so it changes nothing\n\
         line 9: lay 8 0 4 9 9: refused with 18: pin 1 is nearer than the clearance to wire 7, \
         so it changes nothing\n\
         line 10: bytes 07: refused with 1, so it changes nothing\n\
         the program read no further: bad\n"
    );
    assert_eq!(status, Some(0));
    // Between two nodes lengths differ by an even number, but a program may say
    // otherwise.
    let one = script("one.sh", "echo '1 0 1'; echo end");
    let output = judge(&one, &file("one.txt", "draw 0 0 1 0\n"));
    assert!(text(&output.stdout).ends_with(": legal, 1 unit longer than the shortest\n"));
}

#[test]
fn more_pieces_than_are_read_are_told() {
    let lines = "undo\n".repeat(65_534) + "draw\ndraw 1\n";
    let output = judge(sound(), &file("long.txt", &lines));
    let told = text(&output.stdout);
    assert!(told.starts_with("line 1: undo: refused with 2, so it changes nothing\n"), "{told}");
    let end = "line 65535: draw: the board has no bounds yet (2)\n\
               line 65536: draw 1: not judged\nthe program read no further: cut\n";
    assert!(told.ends_with(end));
}

#[test]
fn what_is_wrong_is_told() {
    let bad = file("bad.txt", "bounds 9 9 1\n\ndraw 1 2 z\n");
    let output = judge(sound(), &bad);
    let told = "bench judge: line 3: x of corner 2 is 'z', not a number from 0 to 65535\n";
    assert_eq!(text(&output.stderr), told);
    assert_eq!(output.status.code(), Some(1));
    let two = file("two.txt", "draw 0 0 1 0\ndraw 0 0 1 0\n");
    for (name, body, told) in [
        ("few.sh", "echo '1 2'; echo end", "the program left out a wire"),
        ("many.sh", "echo '1 2'; echo '2 2'; echo '3 2'; echo end", "prints more lines than"),
        ("last.sh", "echo '1 2'; echo '2 2'; echo stop", "the program ends with 'stop'"),
        ("silent-judge.sh", "true", "the program ends with 'nothing'"),
        ("code.sh", "echo '1 5'; echo '2 2'; echo end", "the program printed '1 5' for wire 1"),
        ("number.sh", "echo '2 2'; echo '1 2'; echo end", "the program printed '2 2' for wire 1"),
        ("run.sh", "echo '1 2'; echo '2 9 2'; echo end", "printed '2 9 2' for wire 2"),
        ("status-judge.sh", "BENCH print drawn; exit 3", "the program ends with exit status: 3"),
    ] {
        let output = judge(&script(&format!("judge-{name}"), body), &two);
        assert!(text(&output.stderr).contains(told), "{name}: {}", text(&output.stderr));
        assert_eq!((text(&output.stdout), output.status.code()), ("", Some(1)), "{name}");
    }
    let output = judge(sound(), &scratch("no-such.txt"));
    assert!(text(&output.stderr).starts_with("bench judge: cannot read "));
    let output = judge(&scratch("none"), &two);
    assert!(text(&output.stderr).contains("run 'rt run' in crates/checkprint first"));
}
