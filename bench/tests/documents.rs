//! What the documents say of the commands: every command and option of the usage stands in
//! the table of README.md and in the man page.

mod common;

use std::collections::BTreeSet;
use std::fs;

use bench::peer::bench_folder;
use bench::text::pack;
use common::programs::bench;
use common::sheet;

fn document(name: &str) -> String {
    fs::read_to_string(bench_folder().join(name)).expect(name).replace("\\-", "-")
}

/// The first words of the usage's lines, and all its options.
fn commands_and_options() -> BTreeSet<String> {
    let usage = String::from_utf8(bench(&["--help"], b"").stdout).expect("text");
    let lines: Vec<&str> =
        usage.lines().take_while(|line| !line.starts_with("styles of")).collect();
    let is_command = |line: &&&str| line.starts_with("  ") && !line.starts_with("   ");
    let commands =
        lines.iter().filter(is_command).filter_map(|line| line.split_whitespace().next());
    let options = usage.split([' ', '[', ']', '\n', ';']).filter(|word| word.starts_with("--"));
    commands.chain(options).map(str::to_string).collect()
}

#[test]
fn every_command_and_option_is_documented() {
    let all = commands_and_options();
    for known in ["board", "diff", "--window", "--sheet", "--svg", "--to", "--help"] {
        assert!(all.contains(known), "{known} is not in the usage");
    }
    for name in ["README.md", "../docs/man/bench.1"] {
        let document = document(name);
        for word in &all {
            let there = document
                .split(|c: char| !(c.is_ascii_alphanumeric() || c == '-'))
                .any(|part| part == word);
            assert!(there, "{name} says nothing of {word}");
        }
    }
}

/// The table of codes stands in three places, each with every code that a sheet can show.
#[test]
fn every_code_is_documented() {
    for name in ["../README.md", "../docs/FORMAT.md", "../docs/man/trackprint.1"] {
        let document = document(name);
        for code in bench::code::Code::NUMBERS {
            let row = document.contains(&format!("\n| {code} | "))
                || document.contains(&format!("\n.B {code}\n"));
            assert!(row, "{name} says nothing of code {code}");
        }
    }
}

/// The answers that FORMAT.md gives to short files are those of this router.
#[test]
fn the_answers_to_check_by_are_right() {
    let format = document("../docs/FORMAT.md");
    let rows: Vec<&str> = format.lines().filter(|line| line.starts_with("| `bounds ")).collect();
    assert_eq!(rows.len(), 15);
    for row in rows {
        let cells: Vec<&str> = row.split('`').collect();
        let file = pack(cells[1].replace(';', "\n").as_bytes()).expect(row);
        let printed = sheet(&file);
        let line = printed.lines().rev().nth(1).expect("a line for the last record");
        assert_eq!(line.split_once(' ').expect("a number").1, cells[3], "{row}");
    }
}
