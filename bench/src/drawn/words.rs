//! What a program printed for the drawn wires of a text, in plain words.

use super::Finding;
use crate::board::Board;
use crate::code::{Blocked, Code};
use crate::geometry::Point;
use crate::limits::MAX_CORNERS;
use crate::record::Record;
use crate::text::{Content, Line};
use crate::wire::Wire;

/// A line for each drawn wire of a text, by what a program printed for it. A
/// record that is refused is told too, since the board is not what one reads
/// then; the program says nothing of it, so that is the second router's word.
pub fn told(lines: &[Line], printed: &[u8]) -> Result<String, String> {
    let printed = String::from_utf8_lossy(printed);
    let mut answers: Vec<&str> = printed.lines().collect();
    let last = answers.pop().unwrap_or("nothing");
    let mut answers = answers.into_iter().zip(1..);
    let mut board = Board::default();
    let mut told = String::new();
    for line in lines {
        let said = match &line.content {
            Content::Record(bytes) => said_of_record(&mut board, bytes),
            Content::Draw(numbers) => Some(match answers.next() {
                Some((answer, number)) => said_of_wire(numbers, answer, number)?,
                None if last == "end" => return Err("the program left out a wire".to_string()),
                None => "not judged".to_string(),
            }),
            Content::Rest(_) => None,
        };
        if let Some(said) = said {
            told += &format!("line {}: {}: {said}\n", line.number, line.words.join(" "));
        }
    }
    match (last, answers.next()) {
        ("end", None) => Ok(told),
        ("bad" | "cut", None) => Ok(told + &format!("the program read no further: {last}\n")),
        (_, None) => Err(format!("the program ends with '{last}'")),
        (_, Some(_)) => Err("the program prints more lines than there are wires".to_string()),
    }
}

fn said_of_record(board: &mut Board, bytes: &[u8]) -> Option<String> {
    let code = board.take(bytes).code;
    let asks = Record::read(bytes).is_some_and(|record| record.is_ask());
    let harmless = code == Code::Accepted || asks;
    let (number, why) = (code.number(), said_of_pin(code));
    (!harmless).then(|| format!("refused with {number}{why}, so it changes nothing"))
}

/// The pin and the item that a code tells, if it does.
fn said_of_pin(code: Code) -> String {
    match code {
        Code::PinInKeepout(Blocked { pin, id }) => {
            format!(": pin {pin} lies inside keep-out {id}")
        }
        Code::PinNearWire(Blocked { pin, id }) => {
            format!(": pin {pin} is nearer than the clearance to wire {id}")
        }
        _ => String::new(),
    }
}

/// The verdict in the line that a program printed for the wire of that number.
fn said_of_wire(numbers: &[u16], answer: &str, number: usize) -> Result<String, String> {
    let mut words = answer.split(' ');
    let numbered = words.next() == Some(number.to_string().as_str());
    let code = words.next().and_then(|code| code.parse().ok());
    let value = words.next().map(|value| value.parse().ok());
    let said = if numbered { verdict(numbers, code, value) } else { None };
    said.ok_or_else(|| format!("the program printed '{answer}' for wire {number}"))
}

/// A code, and the number after it, in words.
fn verdict(numbers: &[u16], code: Option<u8>, value: Option<Option<u32>>) -> Option<String> {
    let finding = Finding::numbered(code?)?;
    let said = match (finding, value) {
        (Finding::Legal, Some(Some(0))) => "legal, as short as can be".to_string(),
        (Finding::Legal, Some(Some(1))) => "legal, 1 unit longer than the shortest".to_string(),
        (Finding::Legal, Some(Some(excess))) => {
            format!("legal, {excess} units longer than the shortest")
        }
        (Finding::NoBounds, None) => "the board has no bounds yet (2)".to_string(),
        (Finding::EndsEqual, None) => "both ends are at one node (10)".to_string(),
        (Finding::CornerCount, None) => {
            format!("{} numbers are not 2 to {MAX_CORNERS} corners (22)", numbers.len())
        }
        (finding, Some(Some(run))) => of_run(finding, numbers, run as usize)?,
        _ => return None,
    };
    Some(said)
}

fn of_run(finding: Finding, numbers: &[u16], run: usize) -> Option<String> {
    let wire = Wire::drawn(numbers);
    let &[from, to] = wire.corners().get(run.checked_sub(1)?..=run)? else { return None };
    let what = match finding {
        Finding::BadShape => misshape(from, to),
        Finding::OffBoard => "has a corner off the board",
        Finding::InKeepout => "enters a keep-out",
        Finding::NearWire => "is nearer than the clearance to a laid wire",
        _ => return None,
    };
    let code = finding.number();
    Some(format!("run {run} from {}:{} to {}:{} {what} ({code})", from.x, from.y, to.x, to.y))
}

/// What is wrong with the shape of a run that a program has refused.
fn misshape(from: Point, to: Point) -> &'static str {
    match (from.x == to.x, from.y == to.y) {
        (true, true) => "is empty",
        (false, false) => "is slanted",
        _ => "goes along the axis of the run before it",
    }
}
