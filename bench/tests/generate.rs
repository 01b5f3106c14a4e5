//! The generator: what its files reach.

use bench::code::Code;
use bench::generate::crowd::OWN_STYLES;
use bench::generate::{Style, DEFAULT_COUNT, STYLES};
use bench::limits::{MAX_RECORDS, RECORD_BYTES};
use bench::tally::Tally;

fn tally(style: &Style, seeds: std::ops::Range<u64>) -> Tally {
    let mut all = Tally::default();
    for seed in seeds {
        let file = style.file(seed, DEFAULT_COUNT);
        all.add(&Tally::of(file.as_slice()).expect("memory can be read"));
    }
    all
}

#[test]
fn the_styles_reach_every_code_and_many_wires() {
    let mut all = Tally::default();
    for style in &STYLES {
        let tally = tally(style, 0..6);
        assert!(5 * tally.wires > tally.records(), "{}: few wires\n{tally}", style.name);
        assert!(4 * tally.detours > tally.wires, "{}: few detours\n{tally}", style.name);
        all.add(&tally);
    }
    for number in Code::NUMBERS {
        assert!(all.code(number) >= 20, "code {number}\n{all}");
    }
    for (runs, count) in all.runs.iter().enumerate().skip(1) {
        assert!(*count >= 5, "{runs} runs came {count} times\n{all}");
    }
}

#[test]
fn mazes_reach_the_limits() {
    let tally = tally(Style::named("maze").expect("a style"), 0..10);
    assert!(tally.runs[24] >= 20, "{tally}");
    assert!(tally.code(13) >= 100, "{tally}");
    assert!(tally.code(14) >= 100, "{tally}");
    // Stairs, where kind 4 has too many runs and kind 8 few.
    assert!(tally.straight.past_limit >= 25, "{tally}");
    assert!(5 * tally.straight.unlike >= tally.straight.accepted(), "{tally}");
}

/// About a third of the lays and asks of each style want the fewest runs.
#[test]
fn every_style_has_kinds_8_and_9() {
    for style in STYLES.iter().chain(&OWN_STYLES) {
        let mut kinds = [0; 256];
        let file: Vec<u8> = (0..4).flat_map(|seed| style.file(seed, 700)).collect();
        file.chunks(RECORD_BYTES).for_each(|piece| kinds[usize::from(piece[0])] += 1);
        for (straight, plain) in [(kinds[8], kinds[4]), (kinds[9], kinds[3])] {
            let share = 100 * straight / (straight + plain);
            assert!((20..=48).contains(&share), "{}: {share} %", style.name);
        }
    }
}

/// With either pin, by either sort of item, and where several are in the way.
#[test]
fn pins_are_blocked_in_every_way() {
    let tally = tally(Style::named("pins").expect("a style"), 0..4);
    for count in [tally.in_keepout, tally.near_wire].concat() {
        assert!(20 * count >= tally.records(), "{tally}");
    }
    assert!(10 * tally.in_both >= tally.records(), "{tally}");
    assert!(30 * tally.near_several >= tally.records(), "{tally}");
}

/// Asks and lays that seams change, pins on seams, and keep-outs that would close
/// one over a wire.
#[test]
fn bricks_reach_seams() {
    let tally = tally(Style::named("bricks").expect("a style"), 0..6);
    assert!(3 * tally.changed_by_seams >= tally.records(), "{tally}");
    assert!(50 * tally.closing_seams >= tally.records(), "{tally}");
    for count in tally.in_keepout {
        assert!(100 * count >= tally.records(), "{tally}");
    }
}

#[test]
fn a_seed_always_gives_the_same_file() {
    for style in &STYLES {
        assert_eq!(style.file(7, 300), style.file(7, 300), "{}", style.name);
        assert_ne!(style.file(7, 300), style.file(8, 300), "{}", style.name);
    }
}

#[test]
fn a_file_is_as_long_as_asked() {
    for style in &STYLES {
        for count in [0, 1, 2, 57] {
            let records = style.file(3, count).chunks(RECORD_BYTES).count();
            assert_eq!(records, count, "{}", style.name);
        }
    }
    let small = Style::named("small").expect("a style");
    let past_the_sheet = small.file(3, MAX_RECORDS + 1);
    assert_eq!(past_the_sheet.len(), (MAX_RECORDS + 1) * RECORD_BYTES);
    let tally = Tally::of(past_the_sheet.as_slice()).expect("memory can be read");
    assert!(tally.cut && tally.records() == MAX_RECORDS);
}

#[test]
fn broken_files_end_in_a_short_piece() {
    let broken = Style::named("broken").expect("a style");
    let mut lengths: Vec<usize> =
        (0..200).map(|seed| broken.file(seed, 20).len() - 19 * RECORD_BYTES).collect();
    lengths.sort_unstable();
    lengths.dedup();
    assert_eq!(lengths, Vec::from_iter(1..RECORD_BYTES));
}
