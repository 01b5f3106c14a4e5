//! The comparison of drawn wires: a sound program passes, a faulty one is found
//! and shown, and the random files hold enough of everything.

mod common;

use std::fs;
use std::path::Path;
use std::process::{Command, Output};

use bench::compare::{compare, Drawn, Form, Made, Report, Rival, Source};
use bench::drawn::pieces::split;
use bench::drawn::sheet::Last;
use bench::drawn::tally::Tally;
use bench::drawn::Finding;
use bench::generate::drawn::{DrawnStyle, OWN_STYLES};
use bench::generate::STYLES;
use bench::limits::MAX_PIECES;
use common::drawn::{fed, wire};
use common::programs::{scratch, script};
use common::{bounds, keepout};

fn bench_compare(program: &Path, args: &[&str]) -> Output {
    let mut command = Command::new(env!("CARGO_BIN_EXE_bench"));
    command.args(["compare", "drawn", "--program"]).arg(program).args(args);
    command.output().expect("the program runs")
}

fn text(bytes: &[u8]) -> &str {
    std::str::from_utf8(bytes).expect("text")
}

/// Compares random files with a script.
fn compared(name: &str, body: &str, wires: usize) -> Report<Drawn> {
    let rival = Rival::new(&script(name, body)).expect("a program");
    let sources: Vec<Source> = Drawn::files(wires, 1).into_iter().map(Source::Made).collect();
    compare(&rival, &sources, |_| {}).expect("a comparison")
}

#[test]
fn a_sound_program_passes() {
    let program = script("drawn-sound.sh", "exec BENCH print drawn");
    let output = bench_compare(&program, &["--wires", "4000", "--seed", "5"]);
    let told = text(&output.stdout);
    assert!(told.contains(" bad), no difference\ndrawn wires 4000\ncode 0: "), "{told}");
    assert!(told.contains("\naccepted where the shortest has over 24 runs "), "{told}");
    assert_eq!(output.status.code(), Some(0));
}

/// A program that counts runs from 0 where a keep-out is entered.
#[test]
fn an_altered_line_is_found_shrunk_and_shown() {
    let program = script("drawn-run.sh", "BENCH print drawn | sed 's/ 20 2$/ 20 1/'");
    let output = bench_compare(&program, &["--wires", "4000", "--seed", "7"]);
    let told = text(&output.stdout);
    assert_eq!(output.status.code(), Some(1), "{told}");
    let (_, shown) = told.split_once("the fewest pieces that show a difference: ").expect(told);
    // Bounds, a keep-out and the wire.
    assert!(shown.starts_with("3\n\nbounds "), "{told}");
    assert!(shown.contains("\nkeepout ") && shown.contains("\ndraw "), "{told}");
    assert!(shown.contains("line 1\n  second router: 1 20 2\n  program:       1 20 1\n"), "{told}");
    let named = |word: &str| shown.lines().find_map(|line| line.strip_prefix(word)).expect(told);
    let picture = fs::read_to_string(named("picture ")).expect("a picture");
    assert!(picture.contains(">drawn wire, from s to t<") && picture.contains("class=\"pin\""));
    let pieces = fs::read(named("pieces ")).expect("the pieces");
    assert_eq!(split(&pieces).len(), 3);
    // The shrunk file shows the difference again.
    let again = bench_compare(&program, &[named("pieces ")]);
    assert_eq!(again.status.code(), Some(1));
    assert!(text(&again.stdout).contains("difference: 3\n"));
}

#[test]
fn other_alterations_are_found() {
    for (name, body, pieces) in [
        // An excess, a code, a number, a last word, a whole line.
        ("excess.sh", "BENCH print drawn | sed 's/ 0 6$/ 0 4/'", 2..=9),
        ("code.sh", "BENCH print drawn | sed 's/ 2$/ 22/'", 1..=1),
        ("number.sh", "BENCH print drawn | sed 's/^3 /4 /'", 3..=3),
        ("bad.sh", "BENCH print drawn | sed 's/^bad$/end/'", 1..=1),
        ("line.sh", "BENCH print drawn | sed '/ 10$/d'", 2..=2),
        ("end.sh", "BENCH print drawn | sed '$d'", 0..=0),
    ] {
        let found = compared(&format!("drawn-{name}"), body, 1_500).found;
        let found = found.unwrap_or_else(|| panic!("{name} went unnoticed"));
        assert!(pieces.contains(&found.shrunk_pieces()), "{name}: {}", found.shrunk_pieces());
    }
}

#[test]
fn named_files_are_compared() {
    let file = scratch("named.pieces");
    let pieces = [fed(bounds(9, 9, 1)), fed(keepout(1, 3, 3, 6, 6)), wire(&[0, 4, 9, 4])];
    fs::write(&file, pieces.concat()).expect("a folder to write to");
    let name = file.to_str().expect("a path");
    let sound = script("drawn-named.sh", "exec BENCH print drawn");
    let output = bench_compare(&sound, &[name, name]);
    let told = text(&output.stdout);
    assert!(told.starts_with("files 2, no difference\ndrawn wires 2\ncode 0: 0\n"), "{told}");
    assert!(told.contains("\ncode 20: 2\n"), "{told}");
}

#[test]
fn a_missing_program_is_told() {
    let output = bench_compare(&scratch("none"), &[]);
    assert!(text(&output.stderr).contains("run 'rt run' in crates/checkprint first"));
    assert_eq!(output.status.code(), Some(1));
}

/// The default of 200,000 wires holds each code two thousand times, and some
/// thousand wires that are longer than a shortest of over 24 runs; here a tenth
/// of it is counted.
#[test]
fn the_mix_of_files_reaches_enough() {
    let wires = 20_000;
    let mut all = Tally::default();
    for made in Drawn::files(wires, 1) {
        all.add(&Drawn::print(&made.file()).tally);
    }
    assert_eq!(all.wires(), wires);
    for finding in Finding::ALL {
        assert!(all.of(finding) >= 300, "{finding:?}\n{all}");
    }
    assert!(all.longer >= 2_000 && all.of(Finding::Legal) - all.longer >= 2_000, "{all}");
    assert!(all.winding_longer >= 200, "{all}");
    assert!(all.changed_by_seams >= 400 && all.along_seams >= 200, "{all}");
    assert!(all.self_touching >= 300 && all.beside_blocks >= 1_000, "{all}");
    assert!(all.widest >= 300, "{all}");
    for (runs, count) in all.runs.iter().enumerate().skip(1) {
        assert!(*count >= 10, "{runs} runs\n{all}");
    }
}

#[test]
fn a_long_comparison_has_files_at_the_limit() {
    let names: Vec<String> = Drawn::files(200_000, 9).iter().map(Made::name).collect();
    assert_eq!(names[0], "mixed-9-0");
    let [.., limit, one, two] = names.as_slice() else { panic!("few files") };
    assert!(limit.starts_with("limit-") && one.starts_with("over-") && two.starts_with("over-"));
    let count = |name: &String| -> Option<usize> {
        name.rsplit('-').next().and_then(|count| count.parse().ok())
    };
    assert_eq!(names.iter().filter_map(count).sum::<usize>(), 200_000);
}

/// How many wires a file has, and its last word.
fn wires(style: &str, seed: u64, count: usize) -> (usize, Last) {
    let file = DrawnStyle::named(style).expect("a style").file(seed, count);
    let (tally, last) = Tally::printing(&file, std::io::sink()).expect("nothing is written");
    (tally.wires(), last)
}

#[test]
fn a_file_has_the_wires_that_are_asked_for() {
    let own = OWN_STYLES.iter().map(|style| style.0);
    for name in STYLES.iter().map(|style| style.name).chain(own) {
        for count in [1, 57] {
            let last = match name {
                "broken" => Last::Bad,
                "over" => Last::Cut,
                _ => Last::End,
            };
            assert_eq!(wires(name, 3, count), (count, last), "{name}");
        }
        let file = |seed| DrawnStyle::named(name).expect("a style").file(seed, 60);
        assert!(file(7) == file(7) && file(7) != file(8), "{name}");
    }
    assert_eq!(wires("small", 3, 0), (0, Last::End));
}

#[test]
fn files_at_the_limit_have_all_the_pieces_that_are_read() {
    let pieces = |name: &str, seed: u64| {
        split(&DrawnStyle::named(name).expect("a style").file(seed, 200)).len()
    };
    assert_eq!(pieces("limit", 1), MAX_PIECES);
    // What is left may be a wire or a byte that is no piece.
    let over: Vec<Vec<u8>> =
        (0..8).map(|seed| DrawnStyle::named("over").expect("a style").file(seed, 20)).collect();
    assert!(over.iter().all(|file| split(file).len() == MAX_PIECES + 1));
    let odd = over.iter().filter(|file| !split(file)[MAX_PIECES].starts_with(b"w")).count();
    assert!((1..8).contains(&odd), "{odd} of 8 end in no piece");
}
