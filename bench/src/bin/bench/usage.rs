//! What the command line can be.

use bench::generate::drawn::{DEFAULT_WIRES, OWN_STYLES};
use bench::generate::{crowd, DEFAULT_COUNT, STYLES};
use bench::questions::KINDS;

const COMMANDS: &str = "\
usage: bench COMMAND, reading standard input and writing standard output;
--help prints this

  print                   records -> the sheet's lines
  gen SEED STYLE [COUNT]  nothing -> a random record file
  tally                   records -> how often each code came, 11 and 18 by pin,
                          and kinds 8 and 9 beside kind 4
  pack                    readable text -> records
  unpack                  records -> readable text
  draw [--sheet SHEET] [--after N] [--window x0 y0 x1 y1] [--crowd]
                          records or text -> an SVG picture of the board after
                          all records, or after N of them, or of a part of it,
                          with the last lay or ask; its wires are those of SHEET,
                          or else the second router's; with --crowd its tracks,
                          edge by edge, in place of the last answer
  board --sheet SHEET [--to NAME] [FILE]
                          FILE (or standard input), text or records, with its
                          sheet -> each answer in words; NAME.svg, a picture, and
                          NAME.html, a page to step through (NAME is FILE unless
                          given); ./board makes the sheet with the proved program
  records [FILE]          FILE (or standard input), text or records -> records
  diff [--svg PICTURE] A B
                          the boards that two files leave, text or records ->
                          items added, gone and changed; PICTURE shows both
  compare [--records N] [--seed S] [--program PROGRAM] [FILE...]
                          nothing -> the first difference of PROGRAM's sheets
                          (trackprint's unless given) from this router's, on
                          random files of N records in all, or on the FILEs
  cases stdin             nothing -> the record file of the fixed cases
  cases stdout            nothing -> the sheet of that file
  questions NAME          nothing -> a file of questions to time
  time [PROGRAM]          nothing -> a table: the peer's speed and PROGRAM's
                          (the proved router's unless given), on questions
                          of kind 4 and of kind 8
  time sheet [PROGRAM]    the same for whole files of records (trackprint
                          unless given)

the same for wires drawn by hand; pieces are records and drawn wires:

  judge [--program PROGRAM] FILE
                          FILE, a text with 'draw' lines -> what PROGRAM
                          (checkprint unless given) says of each wire, in words
  print drawn             pieces -> a line for each drawn wire
  gen drawn SEED STYLE [WIRES]
                          nothing -> random pieces
  tally drawn             pieces -> how often each code came
  pack drawn              readable text -> pieces
  unpack drawn            pieces -> readable text
  compare drawn [--wires N] [--seed S] [--program PROGRAM] [FILE...]
                          nothing -> the first difference of PROGRAM's lines
                          (checkprint's unless given) from this router's, on
                          random pieces with N wires in all, or on the FILEs

the crowding sheet of the board that records leave:

  print crowd             records -> a line for each track
  compare crowd [--files N] [--seed S] [--program PROGRAM] [FILE...]
                          nothing -> the first difference of PROGRAM's sheets
                          (crowdprint's unless given) from this router's, on N
                          random files, or on the FILEs
";

/// The commands, with the styles of the generators and the names of questions.
pub fn text() -> String {
    let mut text = String::from(COMMANDS);
    let mut list = |head: String, entries: Vec<(&str, &str)>| {
        text += &format!("\n{head}:\n");
        for (name, about) in entries {
            text += &format!("  {name:<8} {about}\n");
        }
    };
    list(
        format!("styles of gen (COUNT is {DEFAULT_COUNT} records unless given)"),
        STYLES.iter().chain(&crowd::OWN_STYLES).map(|style| (style.name, style.about)).collect(),
    );
    list(
        format!("more styles of gen drawn (WIRES is {DEFAULT_WIRES} unless given)"),
        OWN_STYLES.iter().map(|(name, about, _)| (*name, *about)).collect(),
    );
    list(
        "names of questions".to_string(),
        KINDS.iter().map(|kind| (kind.name, kind.about)).collect(),
    );
    text
}
