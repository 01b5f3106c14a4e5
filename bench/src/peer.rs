//! Builds the peers, `peer/*.c`, with the clang that the proved programs are
//! compiled with, so that they differ by what was written and not by the
//! compiler.

use std::fs;
use std::path::{Path, PathBuf};
use std::process::Command;
use std::time::SystemTime;

use crate::kit;
use crate::launch::Way;

/// The target of the proved programs, as the kit's compiler names it.
const PROVED_TARGET: &str = "x86_64-unknown-linux-gnu";
/// What all peers are compiled with.
const FLAGS: [&str; 3] = ["-O3", "-Wall", "-Wextra"];

/// A peer, named as its source is.
#[derive(Clone, Copy, PartialEq, Eq, Debug)]
pub enum Peer {
    /// The router's: it answers questions.
    Questions,
    /// The sheet printer's: it takes records.
    Sheet,
}

/// The bench's own folder.
pub fn bench_folder() -> &'static Path {
    Path::new(env!("CARGO_MANIFEST_DIR"))
}

/// The folder of the peers' sources.
pub fn sources() -> PathBuf {
    bench_folder().join("peer")
}

/// The search that the peers share, which both sources include.
pub fn shared_source() -> PathBuf {
    sources().join("search.h")
}

impl Peer {
    fn name(self) -> &'static str {
        match self {
            Peer::Questions => "peer",
            Peer::Sheet => "sheet",
        }
    }

    pub fn source(self) -> PathBuf {
        sources().join(self.name()).with_extension("c")
    }

    /// The peer's program, to be started in the given way, built if it is
    /// missing or older than its source.
    pub fn built(self, way: &Way) -> Result<PathBuf, String> {
        let emulated = if *way == Way::Natively { "" } else { "-x86-64" };
        let binary = bench_folder().join(format!("target/{}{emulated}", self.name()));
        let source = self.source();
        let made = changed(&binary).unwrap_or(SystemTime::UNIX_EPOCH);
        if made <= changed(&source)?.max(changed(&shared_source())?) {
            match way {
                Way::Natively => compile(&source, &binary)?,
                Way::Emulated(_) => compile_as_proved(&source, &binary)?,
            }
        }
        Ok(binary)
    }
}

fn changed(path: &Path) -> Result<SystemTime, String> {
    let when = fs::metadata(path).and_then(|about| about.modified());
    when.map_err(|error| format!("no {}: {error}", path.display()))
}

/// Compiles a C source for any processor of this machine's kind.
pub fn compile(source: &Path, binary: &Path) -> Result<(), String> {
    let mut clang = clang(source)?;
    run(clang.arg("-o").args([binary, source]))
}

/// Compiles and links a C source as the proved programs are, for x86-64
/// whatever this machine is.
pub fn compile_as_proved(source: &Path, binary: &Path) -> Result<(), String> {
    let object = binary.with_extension("o");
    let mut clang = clang(source)?;
    clang.arg(format!("--target={PROVED_TARGET}")).args(["-fPIE", "-c", "-o"]);
    run(clang.args([&object, source]))?;
    let mut link = Command::new(kit::folder()?.join("bin/rattle-link"));
    link.args(["--target", PROVED_TARGET, "--toolchain"]).arg(kit::toolchain()?);
    run(link.arg("-o").args([binary, &object]))
}

/// The kit's clang, with what every source needs.
fn clang(source: &Path) -> Result<Command, String> {
    if !source.is_file() {
        return Err(format!("no {}", source.display()));
    }
    let mut clang = Command::new(kit::toolchain()?.join("bin/clang"));
    clang.args(FLAGS).arg("-I").arg(sources());
    Ok(clang)
}

fn run(command: &mut Command) -> Result<(), String> {
    let program = Path::new(command.get_program()).display().to_string();
    let output = command
        .output()
        .map_err(|error| format!("cannot run the kit's compiler, {program}: {error}"))?;
    if output.status.success() {
        return Ok(());
    }
    let told = String::from_utf8_lossy(&output.stderr);
    Err(format!("the kit's compiler, {program}, refuses:\n{told}"))
}
