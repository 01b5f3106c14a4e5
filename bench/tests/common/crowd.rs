//! Crowding sheets of record files.

use bench::board::Board;
use bench::crowd::slip::Slip;
use bench::crowd::{sheet as crowding, Crowd};
use bench::fault::Fault;
use bench::route::{Method, Router};

/// The crowding sheet of a file, as the program prints it.
pub fn sheet(file: &[u8]) -> String {
    sheet_by(file, Method::BySize, Fault::None, Slip::None)
}

/// The sheet by unit edges or by blocks, perhaps with a planted fault or slip.
pub fn sheet_by(file: &[u8], method: Method, fault: Fault, slip: Slip) -> String {
    let mut board = Board::with_router(Router::new(method, fault));
    let last = crowding::take_all(file, &mut board, |_| {}).expect("memory can be read");
    let (mut lines, crowd) = (Vec::new(), Crowd::of(&mut board, slip));
    crowding::print(&mut lines, crowd.as_ref(), last, slip).expect("memory can be written");
    String::from_utf8(lines).expect("a sheet is text")
}
