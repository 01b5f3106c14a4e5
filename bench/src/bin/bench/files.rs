//! The commands that turn one file into another.

use std::io::{self, BufReader, BufWriter, Read};

use bench::board::Board;
use bench::crowd::slip::Slip as CrowdSlip;
use bench::crowd::{self, Crowd};
use bench::drawn;
use bench::drawn::pieces::MOST_BYTES;
use bench::drawn::slip::Slip;
use bench::drawn::tally::Tally as DrawnTally;
use bench::generate::drawn::{DrawnStyle, DEFAULT_WIRES};
use bench::generate::{Style, DEFAULT_COUNT};
use bench::question;
use bench::questions::Kind;
use bench::sheet::{self, Stopped};
use bench::tally::Tally;
use bench::text;

use crate::doors::{read_wanted, stream, tell_empty, warn_of, Wanted};
use crate::outcome::{bad_lines, unread, unwritten, usage, Failure, Progress};

pub fn print() -> Result<(), Failure> {
    let stream = stream(Wanted::Records)?;
    let empty = stream.is_empty();
    let output = BufWriter::new(io::stdout());
    let mut progress = Progress::of("print");
    let printed = sheet::print(BufReader::new(stream.input), output, Board::default(), |seen| {
        progress.now_and_then(|| format!("{} records so far", seen.number));
    });
    printed.map_err(stopped)?;
    tell_empty(empty);
    Ok(())
}

pub fn print_crowd() -> Result<(), Failure> {
    let mut progress = Progress::of("print crowd");
    let mut board = Board::default();
    let stream = stream(Wanted::Records)?;
    let (empty, input) = (stream.is_empty(), BufReader::new(stream.input));
    let last = crowd::sheet::take_all(input, &mut board, |number| {
        progress.now_and_then(|| format!("{number} records so far"));
    });
    let last = last.map_err(stopped)?;
    let sheet = Crowd::of(&mut board, CrowdSlip::None);
    let output = BufWriter::new(io::stdout());
    crowd::sheet::print(output, sheet.as_ref(), last, CrowdSlip::None).map_err(unwritten)?;
    tell_empty(empty);
    Ok(())
}

fn stopped(stopped: Stopped) -> Failure {
    match stopped {
        Stopped::Write(error) => unwritten(error),
        Stopped::Read { record, error } => {
            Failure::Told(format!("cannot read record {record}: {error}"))
        }
    }
}

pub fn print_drawn() -> Result<(), Failure> {
    let file = pieces()?;
    let output = BufWriter::new(io::stdout());
    let mut progress = Progress::of("print drawn");
    let printed = drawn::sheet::print(&file, output, Board::default(), Slip::None, |seen| {
        progress.now_and_then(|| format!("{} wires so far", seen.number));
    });
    printed.map(|_| ()).map_err(unwritten)
}

pub fn tally() -> Result<String, Failure> {
    let mut progress = Progress::of("tally");
    let stream = stream(Wanted::Records)?;
    tell_empty(stream.is_empty());
    let input = BufReader::new(stream.input);
    let tally = Tally::watched(input, io::sink(), |number| {
        progress.now_and_then(|| format!("{number} records so far"));
    });
    Ok(tally.map_err(stopped)?.to_string())
}

pub fn tally_drawn() -> Result<String, Failure> {
    let (tally, _) = DrawnTally::printing(&pieces()?, io::sink()).map_err(unwritten)?;
    Ok(tally.to_string())
}

/// As many bytes of pieces as are looked at.
fn pieces() -> Result<Vec<u8>, Failure> {
    let mut bytes = Vec::new();
    let stream = stream(Wanted::Pieces)?;
    tell_empty(stream.is_empty());
    stream.input.take(MOST_BYTES as u64).read_to_end(&mut bytes).map_err(unread)?;
    Ok(bytes)
}

pub fn pack() -> Result<Vec<u8>, Failure> {
    let text = read_wanted(Wanted::Text)?;
    let lines = text::records(&text).map_err(|bad| bad_lines(&bad))?;
    warn_of(&lines);
    Ok(text::joined(&lines))
}

pub fn pack_drawn() -> Result<Vec<u8>, Failure> {
    let text = read_wanted(Wanted::Text)?;
    let lines = text::read(&text).map_err(|bad| bad_lines(&bad))?;
    warn_of(&lines);
    Ok(drawn::text::packed(&lines))
}

pub fn unpack() -> Result<String, Failure> {
    Ok(text::unpack(&read_wanted(Wanted::Records)?))
}

pub fn unpack_drawn() -> Result<String, Failure> {
    Ok(drawn::text::unpack(&read_wanted(Wanted::Pieces)?))
}

pub fn generate(args: &[&str]) -> Result<Vec<u8>, Failure> {
    let (seed, style, count) = match args {
        [seed, style] => (seed, style, DEFAULT_COUNT),
        [seed, style, count] => (seed, style, number("COUNT", count)?),
        _ => return usage("gen takes SEED STYLE [COUNT]"),
    };
    let seed = number("SEED", seed)?;
    match Style::named(style) {
        Some(style) => Ok(style.file(seed, count)),
        None => usage(format!("unknown STYLE '{style}'")),
    }
}

pub fn generate_drawn(args: &[&str]) -> Result<Vec<u8>, Failure> {
    let (seed, style, wires) = match args {
        [seed, style] => (seed, style, DEFAULT_WIRES),
        [seed, style, wires] => (seed, style, number("WIRES", wires)?),
        _ => return usage("gen drawn takes SEED STYLE [WIRES]"),
    };
    let seed = number("SEED", seed)?;
    match DrawnStyle::named(style) {
        Some(style) => Ok(style.file(seed, wires)),
        None => usage(format!("unknown STYLE '{style}'")),
    }
}

fn number<T: std::str::FromStr>(name: &str, digits: &str) -> Result<T, Failure> {
    digits.parse().or_else(|_| usage(format!("{name} is '{digits}', not a number")))
}

pub fn questions(args: &[&str]) -> Result<Vec<u8>, Failure> {
    let [name] = args else { return usage("questions takes NAME") };
    match Kind::named(name) {
        Some(kind) => Ok(question::file(&kind.questions(), 1)),
        None => usage(format!("unknown NAME '{name}'")),
    }
}
