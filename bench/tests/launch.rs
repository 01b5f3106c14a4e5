//! How programs are started, and the peer built as the proved programs are.

mod common;

use std::env::consts::ARCH;
use std::fs;
use std::path::Path;
use std::process::Stdio;

use bench::launch::Way;
use bench::peer::{self, Peer};
use common::programs::{scratch, script};
use common::{worked_input, WORKED_SHEET};

/// The head of an x86-64 program with one part of the given sort.
fn x86_64(name: &str, part: u8) -> std::path::PathBuf {
    let mut head = vec![0; 128];
    head[..4].copy_from_slice(b"\x7fELF");
    head[18] = 62; // x86-64
    head[32] = 64; // where the list of parts begins
    head[54] = 56; // bytes of one part
    head[56] = 1; // how many there are
    head[64] = part;
    let path = scratch(name);
    fs::write(&path, head).expect("a folder to write to");
    path
}

/// The words that go before a program, `None` if it is started as it is.
fn words(program: &Path) -> Option<Vec<String>> {
    match Way::of(program).expect("a way") {
        Way::Natively => None,
        Way::Emulated(words) => Some(words.iter().map(|word| word.display().to_string()).collect()),
    }
}

#[test]
fn what_is_native_is_started_as_it_is() {
    assert_eq!(words(&script("native.sh", "true")), None);
    assert_eq!(words(Path::new(env!("CARGO_BIN_EXE_bench"))), None);
    assert!(Way::of(&scratch("no-such-program")).is_err());
}

#[test]
fn what_is_for_another_processor_is_emulated() {
    let (linked, whole) = (words(&x86_64("linked", 3)), words(&x86_64("whole", 1)));
    if ARCH == "x86_64" {
        assert_eq!((linked, whole), (None, None));
        return;
    }
    let (linked, whole) = (linked.expect("an emulator"), whole.expect("an emulator"));
    assert!(whole.len() == 1 && whole[0].ends_with("/qemu-x86_64"), "{whole:?}");
    assert!(linked.len() == 4 && linked[1].ends_with("/ld-linux-x86-64.so.2"), "{linked:?}");
    assert_eq!(linked[0], whole[0]);
}

#[test]
fn the_peer_built_as_the_proved_programs_prints_the_worked_sheet() {
    let program = scratch("sheet-as-proved");
    peer::compile_as_proved(&Peer::Sheet.source(), &program).expect("the kit compiles the peer");
    let way = Way::of(&program).expect("a way");
    assert_eq!(way == Way::Natively, ARCH == "x86_64");
    let input = scratch("worked-launch.rec");
    fs::write(&input, worked_input()).expect("a folder to write to");
    let input = fs::File::open(input).expect("it was written");
    let output = way.command(&program).stdin(Stdio::from(input)).output().expect("it runs");
    assert_eq!(String::from_utf8_lossy(&output.stdout), WORKED_SHEET);
    assert_eq!(output.status.code(), Some(0));
}
