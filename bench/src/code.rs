//! The code that answers a record.

/// Document 01's table of codes, with 11 split into 11 and 18 as document 02's
/// order 2 asks.
///
/// Codes 16 (answer slice too short) and 17 (board handed in not well formed)
/// are missing: a sheet lends enough numbers and begins with a fresh board, so
/// no file can reach them.
#[derive(Clone, Copy, PartialEq, Eq, Debug)]
pub enum Code {
    Accepted,
    BadRecord,
    NoBounds,
    OutOfRange,
    IdInUse,
    IdNotInUse,
    BadRectangle,
    MeetsKeepout,
    MeetsWire,
    PinOffBoard,
    PinsEqual,
    PinInKeepout(Blocked),
    NoWire,
    TooManyRuns,
    TooManyBlocks,
    NothingKept,
    PinNearWire(Blocked),
}

/// What is told of a blocked pin. With the other codes pin and id are 0 and not
/// printed, so those have none.
#[derive(Clone, Copy, PartialEq, Eq, Debug)]
pub struct Blocked {
    /// 1 is s, 2 is t.
    pub pin: u8,
    /// The smallest id of an item of the code's sort that blocks the pin.
    pub id: u16,
}

impl Code {
    /// The numbers that a file can reach.
    pub const NUMBERS: [u8; 17] = [0, 1, 2, 3, 4, 5, 6, 7, 8, 9, 10, 11, 12, 13, 14, 15, 18];

    pub fn number(self) -> u8 {
        match self {
            Code::Accepted => 0,
            Code::BadRecord => 1,
            Code::NoBounds => 2,
            Code::OutOfRange => 3,
            Code::IdInUse => 4,
            Code::IdNotInUse => 5,
            Code::BadRectangle => 6,
            Code::MeetsKeepout => 7,
            Code::MeetsWire => 8,
            Code::PinOffBoard => 9,
            Code::PinsEqual => 10,
            Code::PinInKeepout(_) => 11,
            Code::NoWire => 12,
            Code::TooManyRuns => 13,
            Code::TooManyBlocks => 14,
            Code::NothingKept => 15,
            Code::PinNearWire(_) => 18,
        }
    }

    /// The pin and the item that are told with it, if any.
    pub fn blocked(self) -> Option<Blocked> {
        match self {
            Code::PinInKeepout(blocked) | Code::PinNearWire(blocked) => Some(blocked),
            _ => None,
        }
    }
}
