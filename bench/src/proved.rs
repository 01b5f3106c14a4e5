//! Another program's sheet, read: what the proved router said of each record.

use crate::code::Code;
use crate::geometry::Point;
use crate::wire::Wire;

/// What a line of a sheet says.
#[derive(Clone, PartialEq, Eq, Debug)]
pub struct Said {
    pub code: u8,
    pub told: Told,
}

/// What follows a code.
#[derive(Clone, PartialEq, Eq, Debug)]
pub enum Told {
    Nothing,
    /// An accepted lay or ask.
    Found {
        length: u32,
        detour: u32,
        wire: Wire,
    },
    /// The pin and the item of 11 and 18.
    Blocked {
        pin: u8,
        id: u16,
    },
}

impl Said {
    pub fn accepted(&self) -> bool {
        self.code == Code::Accepted.number()
    }

    pub fn wire(&self) -> Option<&Wire> {
        match &self.told {
            Told::Found { wire, .. } => Some(wire),
            _ => None,
        }
    }

    /// The item that blocks a pin, with 11 and 18.
    pub fn blocker(&self) -> Option<u16> {
        match self.told {
            Told::Blocked { id, .. } => Some(id),
            _ => None,
        }
    }

    /// Reads a line without its end; None if it is no line of a sheet.
    pub fn read(line: &str) -> Option<Said> {
        let mut words = line.split(' ').skip(1);
        let code = words.next()?.parse().ok()?;
        let rest: Vec<&str> = words.collect();
        let told = match rest[..] {
            [] => Told::Nothing,
            [pin, id] => Told::Blocked { pin: pin.parse().ok()?, id: id.parse().ok()? },
            [length, detour, ..] => Told::Found {
                length: length.parse().ok()?,
                detour: detour.parse().ok()?,
                wire: Wire::through(
                    rest[2..].iter().map(|word| corner(word)).collect::<Option<_>>()?,
                )?,
            },
            [_] => return None,
        };
        Some(Said { code, told })
    }
}

/// A corner as x:y.
pub fn corner(word: &str) -> Option<Point> {
    let (x, y) = word.split_once(':')?;
    let number = |digits: &str| digits.parse::<u16>().ok().map(i32::from);
    Some(Point::new(number(x)?, number(y)?))
}
