//! The examples and the pictures of the documents: made again and compared.
//!
//! Sheets are those of the second router, and where the proved program is there, of that one
//! too. With `REMAKE` set to anything the files are written instead.

mod common;

use std::fs;
use std::path::PathBuf;
use std::sync::Once;

use bench::compare::Rival;
use bench::draw::Scene;
use bench::launch::proved;
use bench::peer::bench_folder;
use bench::story::Script;
use bench::text::records;
use common::programs::say;
use common::sheet;

/// Examples with a sheet and a picture of the board that they leave.
const KEPT: [&str; 5] = ["printer", "dense", "maze", "codes", "wide"];

fn place(name: &str) -> PathBuf {
    bench_folder().join("..").join(name)
}

fn script(name: &str) -> Script {
    let text = fs::read(place(&format!("examples/{name}.txt"))).expect("an example");
    Script::of_text(&records(&text).expect("it can be packed"))
}

/// The sheet of an example, the same by both routers.
fn sheet_of(name: &str, script: &Script) -> String {
    let own = sheet(&script.file);
    let program = proved("trackprint");
    if program.is_file() {
        let rival = Rival::new(&program).expect("it can be started");
        let run = rival.run(&script.file, script.count()).expect("it runs");
        assert_eq!(
            (String::from_utf8_lossy(&run.sheet), run.fault),
            (own.as_str().into(), None),
            "{name}"
        );
    } else {
        static SAID: Once = Once::new();
        SAID.call_once(|| {
            say(&format!("skipped: examples by the proved program; no {}", program.display()));
        });
    }
    own
}

/// Sees that a file is what the tools make of it now.
fn assert_made(path: &str, made: &str) {
    if std::env::var_os("REMAKE").is_some() {
        fs::write(place(path), made).expect("it can be written");
    }
    let kept = fs::read_to_string(place(path)).unwrap_or_default();
    assert!(kept == made, "{path} is not what the tools make; REMAKE=1 cargo test --test examples");
}

/// The picture after so many records of an example, or after all.
fn scene(name: &str, after: Option<usize>) -> Scene {
    let script = script(name);
    let sheet = sheet_of(name, &script);
    Scene::told(&script, Some(&sheet), after, |_| {}).expect("the routers agree")
}

#[test]
fn sheets_and_pictures_of_the_examples() {
    for name in KEPT {
        assert_made(&format!("examples/{name}.sheet"), &sheet_of(name, &script(name)));
        assert_made(&format!("examples/{name}.svg"), &scene(name, None).svg());
    }
}

#[test]
fn pictures_of_the_documents() {
    assert_made("docs/worked.svg", &scene("worked", Some(3)).svg());
    assert_made("docs/relay.svg", &scene("relay", None).svg());
    assert_made("docs/crowd.svg", &scene("worked", Some(3)).with_crowd().svg());
}

/// Every code that a file can reach is in one example.
#[test]
fn one_example_meets_every_code() {
    let sheet = sheet(&script("codes").file);
    let codes: Vec<&str> = sheet.lines().filter_map(|line| line.split(' ').nth(1)).collect();
    for code in bench::code::Code::NUMBERS {
        assert!(codes.contains(&code.to_string().as_str()), "{code}");
    }
}
