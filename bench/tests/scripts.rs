//! The scripts ./sheet and ./board, in a copy of the repository where nothing is proved or
//! built: `rt` and `cargo` are stand-ins, and so is the proved program.

mod common;

use std::fs;
use std::os::unix::fs::symlink;
use std::path::{Path, PathBuf};
use std::process::{Command, Output, Stdio};

use bench::peer::bench_folder;
use common::programs::script;
use common::worked_input;

/// A repository under a name, with a program in the proved one's place. It stands outside this
/// one, as the kit takes no second crates.txt below the first, and goes when its test ends.
struct Copy {
    folder: PathBuf,
}

impl Copy {
    fn new(name: &str, program: &str) -> Copy {
        let folder = std::env::temp_dir().join(format!("{name}-{}", std::process::id()));
        let original = bench_folder().join("..");
        let _ = fs::remove_dir_all(&folder);
        let make = |part: &str| fs::create_dir_all(folder.join(part)).expect("a folder");
        ["bench/target/release", "crates/trackprint/out", "tools", "work"]
            .iter()
            .for_each(|part| make(part));
        for part in ["sheet", "board", ".ci"] {
            symlink(original.join(part), folder.join(part)).expect("a link");
        }
        ["paper", "records", "feed", "sheet"].iter().for_each(|name| make(&format!("crates/{name}")));
        fs::write(folder.join("crates/trackprint/stdin"), worked_input()).expect("a file");
        let link = |from: &Path, to: &str| symlink(from, folder.join(to)).expect("a link");
        link(Path::new(env!("CARGO_BIN_EXE_bench")), "bench/target/release/bench");
        link(&script(&format!("{name}-program"), program), "crates/trackprint/out/trackprint");
        link(&script(&format!("{name}-rt"), RT), "tools/rt");
        link(&script(&format!("{name}-cargo"), "exit 0"), "tools/cargo");
        // Newer than the program, so that it is to be made again.
        fs::write(folder.join("crates.txt"), CRATES).expect("a file");
        Copy { folder }
    }

    /// Runs a shell command in the folder `work`.
    fn run(&self, command: &str) -> Output {
        let tools = self.folder.join("tools");
        let path = std::env::var("PATH").unwrap_or_default();
        Command::new("bash")
            .args(["-c", command])
            .current_dir(self.folder.join("work"))
            .env("PATH", format!("{}:{path}", tools.display()))
            .stdin(Stdio::null())
            .output()
            .expect("bash is there")
    }

    fn assert_says(&self, command: &str, status: i32, out: &str, told: &str) {
        let output = self.run(command);
        assert_eq!(text(&output.stderr), told, "{command}");
        let printed = text(&output.stdout);
        assert!(
            printed.contains(out) && (out.is_empty() == printed.is_empty()),
            "{command}: {printed}"
        );
        assert_eq!(output.status.code(), Some(status), "{command}");
    }
}

impl Drop for Copy {
    fn drop(&mut self) {
        let _ = fs::remove_dir_all(&self.folder);
    }
}

/// Says what `rt lib` says of a crate that it proves, and nothing of what is proved already.
const RT: &str = "case $PWD in */records) echo 'logic=proved functions=12' ;; esac";
const CRATES: &str = "# NAME: the crates it rests on\npaper:\nrecords: paper\nwalks: paper\n\
                      feed: paper records\nsheet: feed\ntrackprint: sheet io\nask: walks io\n";
const PROVED: &str = ": proved 2 of 5: records; now: feed\n";

fn text(bytes: &[u8]) -> &str {
    std::str::from_utf8(bytes).expect("text")
}

const BOARD: &str = "bounds 10 10 2\\nkeepout 1 3 2 6 8\\nlay 7 1 5 8 5\\nask 1 1 9 9\\n";

#[test]
fn sheet_takes_records_and_pipes() {
    let copy = Copy::new("sheet-copy", "BENCH print 2>/dev/null");
    let told = format!("sheet{PROVED}");
    copy.assert_says("../sheet", 0, "\n10 15\nend\n", &told);
    copy.assert_says("../sheet <(head -c 36 ../crates/trackprint/stdin)", 0, "8:5\nend\n", &told);
    copy.assert_says(
        "head -c 24 ../crates/trackprint/stdin | ../sheet -",
        0,
        "1 0\n2 0\nend\n",
        &told,
    );
    copy.assert_says(
        ": >empty; ../sheet empty",
        0,
        "end\n",
        &format!("sheet: empty is empty\n{told}"),
    );
    copy.assert_says("../sheet --help", 0, "usage: sheet [FILE]", "");
    copy.assert_says("../sheet ..", 1, "", "sheet: .. is a folder, not a file\n");
    copy.assert_says("../sheet none", 1, "", "sheet: there is no file none\n");
    let told = "sheet: a.txt is text, not records: './board a.txt' takes it as it is, and 'bench pack' makes records of it\n";
    copy.assert_says(
        &format!("printf '\\xef\\xbb\\xbf# so\\n{BOARD}' >a.txt; ../sheet a.txt"),
        1,
        "",
        told,
    );
    assert_eq!(copy.run("../sheet a b").status.code(), Some(2));
    assert_eq!(copy.run("../sheet --far").status.code(), Some(2));
}

#[test]
fn board_takes_text_and_records_from_anywhere() {
    let copy = Copy::new("board-copy", "BENCH print");
    let told = format!("board{PROVED}");
    let words = "ask 1 1 9 9: refused, 18: pin 2 (9,9) is within 2 of wire 7\n";
    let made = |name: &str| {
        let there = |end| copy.folder.join(format!("work/{name}.{end}")).is_file();
        assert!(there("svg") && there("html"), "{name}");
    };
    copy.assert_says(
        &format!("printf '{BOARD}' >a.txt; ../board a.txt"),
        0,
        &format!("line 4: {words}"),
        &told,
    );
    made("a.txt");
    copy.assert_says("../board --to b a.txt", 0, "picture b.svg\npage b.html\n", &told);
    made("b");
    copy.assert_says(
        "../board ../crates/trackprint/stdin",
        0,
        &format!("record 4: {words}"),
        &told,
    );
    copy.assert_says("cat a.txt | ../board", 0, "standard input: text, 4 records\n", &told);
    made("board");
    copy.assert_says("../board - --to c <a.txt", 0, "picture c.svg\n", &told);
    copy.assert_says("../board --to d <(cat a.txt)", 0, "picture d.svg\n", &told);
    copy.assert_says("../board --help", 0, "usage: board [--to NAME] [FILE]", "");
}

#[test]
fn board_says_what_is_wrong() {
    let copy = Copy::new("wrong-copy", "BENCH print");
    copy.assert_says("../board ..", 1, "", "board: .. is a folder, not a file\n");
    copy.assert_says("../board none", 1, "", "board: there is no file none\n");
    let told = "board: line 1: ask takes 4 numbers (sx sy tx ty), not 0\nboard: line 2: takeout takes 1 number (id), not 0\n";
    copy.assert_says("printf 'ask\\ntakeout\\n' | ../board", 1, "", told);
    let told = format!("board: line 1: warning: W is 0, which gets code 3\nboard{PROVED}");
    copy.assert_says("echo bounds 0 1 1 | ../board", 0, "refused, 3: the width 0", &told);
    for wrong in ["../board", "../board --to", "../board a b", "../board --far a"] {
        assert_eq!(copy.run(wrong).status.code(), Some(2), "{wrong}");
    }
    // A file that may not be read, unless the tests run as root.
    let denied = copy.run("echo undo >secret; chmod 0 secret; [ -r secret ] || ../board secret");
    assert!(
        ["", "board: secret cannot be read: permission denied\n"].contains(&text(&denied.stderr))
    );
}

#[test]
fn board_stops_where_the_routers_differ() {
    let copy = Copy::new("differs-copy", "BENCH print | sed 's/18 2 7/18 2 8/'");
    let output = copy.run(&format!("printf '{BOARD}' >a.txt; ../board a.txt"));
    assert!(
        text(&output.stderr).contains("the two routers differ at line 4"),
        "{}",
        text(&output.stderr)
    );
    assert_eq!((output.status.code(), text(&output.stdout)), (Some(1), ""));
    assert!(!copy.folder.join("work/a.txt.svg").exists());
}

#[test]
fn what_cannot_be_proved_is_told() {
    let copy = Copy::new("unproved-copy", "BENCH print");
    let rt = script("failing-rt", "echo 'rt: paper NOT PROVED (exit 1, 3 s)'\nexit 1");
    fs::remove_file(copy.folder.join("tools/rt")).expect("it was there");
    symlink(rt, copy.folder.join("tools/rt")).expect("a link");
    let output = copy.run("../sheet");
    assert_eq!(output.status.code(), Some(1));
    let told = text(&output.stderr);
    assert!(told.contains("sheet: paper NOT PROVED (exit 1, 3 s)\n"), "{told}");
    assert!(
        told.contains("could not be proved and built; 'rt check' in crates/paper says why\n"),
        "{told}"
    );
    // A program that complains has failed, whatever it prints.
    let copy = Copy::new("complains-copy", "echo end; echo 'no room' >&2");
    let output = copy.run("../sheet");
    assert!(text(&output.stderr).ends_with("no room\n"));
    assert_eq!(output.status.code(), Some(1));
}
