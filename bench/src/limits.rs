//! The numbers of the documents, each named once.

/// Bytes of one record.
pub const RECORD_BYTES: usize = 12;
/// Records the sheet prints before it is cut.
pub const MAX_RECORDS: usize = 65_535;
/// Largest width and height of a board; the smallest is 1.
pub const MAX_SIDE: i32 = 30_000;
/// Largest clearance; the smallest is 1.
pub const MAX_CLEARANCE: i32 = 200;
/// Keep-outs plus runs of wires on one board.
pub const MAX_BLOCKS: usize = 46;
/// Runs of one wire.
pub const MAX_RUNS: usize = 24;
/// Changes kept for undo.
pub const MAX_KEPT: usize = 32;
/// Corners of a drawn wire; the fewest is 2.
pub const MAX_CORNERS: usize = MAX_RUNS + 1;
/// Pieces of a file with drawn wires that are read before it is cut.
pub const MAX_PIECES: usize = 65_535;
/// Numbers the sheet lends for an answer: x and y of each corner.
pub const ANSWER_NUMBERS: usize = 50;
/// Boards of up to this many nodes are searched node by node.
pub const UNIT_SEARCH_NODES: i64 = 4_000_000;

// The lent numbers hold the longest wire that can be answered, so the sheet
// never meets code 16.
const _: () = assert!(2 * MAX_CORNERS <= ANSWER_NUMBERS);
