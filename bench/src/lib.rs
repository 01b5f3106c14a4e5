//! The board designer's bench: a second router and the tools around it.
//!
//! It is written from the customer's documents alone, so that another router
//! can be compared with it byte for byte. "Document 01" in the comments is the
//! page that gives the router's rules, "document 02" that of change requests.
//!
//! Read it in this order: `limits` and `geometry` name things, `record` reads
//! twelve bytes, `board` keeps the items and decides the codes, `cells` says which
//! seams between keep-outs are closed, `blocked` what blocks a pin, `route` picks
//! one of the two searches (`unit`, `wide`, each with its `straight` for kinds 8 and
//! 9), `sheet` prints. `drawn` judges wires drawn by hand, `crowd` counts open edges of tracks. The other tools are `generate`,
//! `tally` (with `reopened`), `text`, and for the designer's day `story`: a file with its
//! proved sheet (`proved`) record by record, what `stand`s after each, the answer in
//! `words` (`reach` says how far a wire could get). `draw` makes pictures of it, `page` a
//! page to step through, `diff` compares two boards. `looks` tells text from records.
//! `fault` is there for the tests, and for `reopened`.
//! Another router's sheets are compared by `compare`, and `cases` makes a fixed
//! file for it. Speed is measured by `question` (the file), `questions` (what is
//! asked), `timing` and `sheet_timing`, beside the `peer`. `launch` starts other
//! programs, with what the `kit` has.

pub mod blocked;
pub mod board;
pub mod cases;
pub mod cells;
pub mod code;
pub mod compare;
pub mod crowd;
pub mod diff;
pub mod draw;
pub mod drawn;
pub mod fault;
pub mod generate;
pub mod geometry;
pub mod item;
pub mod kit;
pub mod launch;
pub mod limits;
pub mod looks;
pub mod page;
pub mod peer;
pub mod proved;
pub mod question;
pub mod questions;
pub mod reach;
pub mod record;
pub mod reopened;
pub mod rng;
pub mod route;
pub mod scratch;
pub mod sheet;
pub mod sheet_timing;
pub mod stand;
pub mod stopwatch;
pub mod story;
pub mod tally;
pub mod text;
pub mod timing;
pub mod unit;
pub mod wide;
pub mod wire;
pub mod words;
