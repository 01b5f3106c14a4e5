//! Programs for the tests: the peers, sound or spoiled, and small scripts.

use std::fs;
use std::io::Write;
use std::path::{Path, PathBuf};
use std::process::{Command, Output, Stdio};

use bench::peer::{self, Peer};

/// A path in the folder for what tests write.
pub fn scratch(name: &str) -> PathBuf {
    Path::new(env!("CARGO_TARGET_TMPDIR")).join(name)
}

/// A peer compiled anew under a name, so that a missing compiler is noticed,
/// with the search that it includes in its place and the source changed.
pub fn compiled(peer: Peer, name: &str, change: impl Fn(&str) -> String) -> PathBuf {
    let (source, binary) = (scratch(&format!("{name}.c")), scratch(name));
    let text = |path: PathBuf| fs::read_to_string(path).expect("a peer's source");
    let include = "#include \"search.h\"\n";
    let whole = text(peer.source());
    assert_eq!(whole.matches(include).count(), 1);
    let whole = whole.replace(include, &text(peer::shared_source()));
    fs::write(&source, change(&whole)).expect("a folder to write to");
    peer::compile(&source, &binary).expect("the kit's clang compiles the peer");
    binary
}

/// A peer with one piece of its source replaced.
pub fn spoiled(peer: Peer, name: &str, piece: &str, by: &str) -> PathBuf {
    compiled(peer, name, |source| {
        assert_eq!(source.matches(piece).count(), 1, "{piece}");
        source.replace(piece, by)
    })
}

/// Says something that is heard even if the test passes.
pub fn say(what: &str) {
    let _ = writeln!(std::io::stderr(), "{what}");
}

/// A run of the bench's own program.
pub fn bench(args: &[&str], input: &[u8]) -> Output {
    let mut child = Command::new(env!("CARGO_BIN_EXE_bench"))
        .args(args)
        .stdin(Stdio::piped())
        .stdout(Stdio::piped())
        .stderr(Stdio::piped())
        .spawn()
        .expect("the program starts");
    let mut stdin = child.stdin.take().expect("a pipe");
    let input = input.to_vec();
    // Fed from a thread: the program may write before it has read everything, and may end
    // before that too.
    let feeder = std::thread::spawn(move || stdin.write_all(&input));
    let output = child.wait_with_output().expect("the program ends");
    let _ = feeder.join().expect("the feeder ends");
    output
}

/// What a program prints; `None` if it fails.
pub fn printed(program: &Path, input: &[u8]) -> Option<String> {
    let mut child = Command::new(program)
        .stdin(Stdio::piped())
        .stdout(Stdio::piped())
        .spawn()
        .expect("the program starts");
    let mut stdin = child.stdin.take().expect("a pipe");
    let input = input.to_vec();
    let feeder = std::thread::spawn(move || stdin.write_all(&input));
    let output = child.wait_with_output().expect("the program ends");
    feeder.join().expect("the feeder ends").expect("it reads its input");
    output.status.success().then(|| String::from_utf8(output.stdout).expect("text"))
}

/// A shell script; `BENCH` in it stands for the bench's own program.
///
/// Another process writes it. If this one did, a program that another thread
/// starts in that moment could hold it open, and then it cannot be started.
pub fn script(name: &str, text: &str) -> PathBuf {
    let path = scratch(name);
    let text = text.replace("BENCH", concat!("'", env!("CARGO_BIN_EXE_bench"), "'"));
    let written = Command::new("sh")
        .args(["-c", "printf '#!/bin/sh\\n%s\\n' \"$2\" >\"$1\" && chmod 755 \"$1\"", "sh"])
        .arg(&path)
        .arg(text)
        .status();
    assert!(written.expect("a shell").success(), "{} cannot be written", path.display());
    path
}
