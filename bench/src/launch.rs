//! How a program is started.
//!
//! The proved programs are for x86-64. On another processor they run under the
//! emulator that the kit has beside its compiler, with the kit's loader and C
//! library. Scripts and programs of the machine's own kind are started as they
//! are.

use std::env::consts::ARCH;
use std::fs::File;
use std::io::Read;
use std::path::{Path, PathBuf};
use std::process::Command;

use crate::kit;
use crate::peer::bench_folder;

/// Enough of a program for the list of its parts.
const HEAD_BYTES: u64 = 4096;
const ELF: &[u8] = b"\x7fELF";
/// The number of x86-64 in an ELF file, and of the part that names a loader.
const X86_64: usize = 62;
const NAMES_LOADER: usize = 3;

#[derive(Clone, PartialEq, Eq, Debug)]
pub enum Way {
    /// As it is.
    Natively,
    /// Under the kit's emulator; the words that go before the program.
    Emulated(Vec<PathBuf>),
}

impl Way {
    /// The way for a program that is there.
    pub fn of(program: &Path) -> Result<Way, String> {
        let head =
            head(program).map_err(|error| format!("cannot read {}: {error}", program.display()))?;
        let foreign = ARCH != "x86_64" && is_x86_64(&head);
        if !foreign {
            return Ok(Way::Natively);
        }
        let tools = kit::toolchain()?;
        let emulator = tools.join("bin/qemu-x86_64");
        if !emulator.is_file() {
            let program = program.display();
            return Err(format!("{program} is for x86-64, and the kit has no emulator for it"));
        }
        let mut words = vec![emulator];
        if names_loader(&head) {
            let lib = tools.join("lib");
            words.push(lib.join("ld-linux-x86-64.so.2"));
            words.extend([PathBuf::from("--library-path"), lib]);
        }
        Ok(Way::Emulated(words))
    }

    pub fn command(&self, program: &Path) -> Command {
        match self {
            Way::Natively => Command::new(program),
            Way::Emulated(words) => {
                let mut command = Command::new(&words[0]);
                command.args(&words[1..]).arg(program);
                command
            }
        }
    }

    /// For the head of a table.
    pub fn told(&self) -> String {
        match self {
            Way::Natively => format!("{}, natively", ARCH.replace('_', "-")),
            Way::Emulated(_) => format!("x86-64 emulated on {ARCH}, which says little"),
        }
    }
}

/// Where `rt run` leaves the proved program of a crate.
pub fn proved(crate_name: &str) -> PathBuf {
    bench_folder().with_file_name("crates").join(crate_name).join("out").join(crate_name)
}

/// Fails if there is no such program; `crate_name` is the one it is made from.
pub fn check_there(program: &Path, crate_name: &str) -> Result<(), String> {
    if program.is_file() {
        return Ok(());
    }
    Err(format!("no program at {}; run 'rt run' in crates/{crate_name} first", program.display()))
}

fn head(program: &Path) -> std::io::Result<Vec<u8>> {
    let mut head = Vec::new();
    File::open(program)?.take(HEAD_BYTES).read_to_end(&mut head)?;
    Ok(head)
}

/// A little-endian number in the head of a program; 0 past its end.
fn number(head: &[u8], at: usize, bytes: usize) -> usize {
    let places = head.get(at..at.saturating_add(bytes)).unwrap_or(&[]);
    places.iter().rev().fold(0, |number, &byte| number << 8 | usize::from(byte))
}

fn is_x86_64(head: &[u8]) -> bool {
    head.starts_with(ELF) && number(head, 18, 2) == X86_64
}

/// Is it linked to a C library that a loader must bring?
fn names_loader(head: &[u8]) -> bool {
    let (first, size, count) = (number(head, 32, 8), number(head, 54, 2), number(head, 56, 2));
    (0..count).any(|part| {
        let at = first.saturating_add(part * size);
        number(head, at, 4) == NAMES_LOADER
    })
}
