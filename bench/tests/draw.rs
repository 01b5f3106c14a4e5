//! The picture of a board. How it looks is for the eye; here is what must
//! stand in it.

mod common;

use bench::draw::{Scene, Versus};
use bench::generate::Style;
use bench::geometry::{Point, Rect};
use bench::record::Pins;
use bench::wire::Wire;
use common::{ask, bounds, keepout, lay, takeout, undo};

fn svg(records: &[Vec<u8>]) -> String {
    Scene::of(records.concat().as_slice()).expect("memory can be read").svg()
}

/// Every tag that is opened is closed, in order.
fn assert_well_formed(svg: &str) {
    let mut open = Vec::new();
    for tag in svg.split('<').skip(1) {
        let tag = tag.split('>').next().expect("a tag");
        let name = tag.trim_start_matches('/').split([' ', '/']).next().expect("a name");
        if tag.starts_with('/') {
            assert_eq!(open.pop(), Some(name), "{tag}");
        } else if !tag.ends_with('/') {
            open.push(name);
        }
    }
    assert!(open.is_empty(), "{open:?}");
}

/// The value of an attribute in the first line that holds `what`.
fn value(svg: &str, what: &str, attribute: &str) -> f64 {
    let line = svg.lines().find(|line| line.contains(what)).expect(what);
    let rest = line.split(&format!(" {attribute}=\"")).nth(1).expect(attribute);
    rest.split('"').next().expect("a value").parse().expect("a number")
}

#[test]
fn every_item_is_drawn() {
    let svg = svg(&[
        bounds(10, 12, 1),
        keepout(1234, 3, 2, 6, 8),
        keepout(4321, 6, 2, 7, 8),
        lay(77, 0, 10, 10, 10),
        ask(1, 5, 8, 5),
    ]);
    assert_well_formed(&svg);
    for text in [">10 \u{d7} 12, clearance 1<", ">1234<", ">4321<", ">77<", "detour 3"] {
        assert!(svg.contains(text), "{text} is missing");
    }
    for text in
        [">s (1,5)<", ">t (8,5)<", ">3 of 46 blocks: 2 keep-outs, 1 wire; 3 of 32 changes kept<"]
    {
        assert!(svg.contains(text), "{text} is missing");
    }
    // Each once more in the legend.
    let count = |what: &str| svg.matches(what).count();
    assert_eq!(count("class=\"keepout\""), 2 + 1);
    assert_eq!(count("class=\"rim\""), 2 + 1);
    assert_eq!(count("class=\"wire\""), 1 + 1);
    assert_eq!(count("class=\"last\""), 1 + 1);
    assert_eq!(count("class=\"box\""), 1 + 1);
}

/// A closed seam has no line: every rim is drawn before every area.
#[test]
fn a_seam_is_covered() {
    let svg = svg(&[bounds(10, 10, 1), keepout(1, 2, 2, 5, 8), keepout(2, 5, 2, 8, 8)]);
    // The last of either is in the legend.
    let places = |what: &str| {
        let mut places: Vec<usize> = svg.match_indices(what).map(|(at, _)| at).collect();
        places.pop();
        places
    };
    let (rims, areas) = (places("class=\"rim\""), places("class=\"keepout\""));
    assert_eq!((rims.len(), areas.len()), (2, 2));
    assert!(rims[1] < areas[0]);
}

#[test]
fn two_answers_are_drawn() {
    let file = [bounds(10, 10, 1), keepout(1, 3, 2, 6, 8), ask(0, 0, 9, 9)].concat();
    let (s, t) = (Point::new(1, 5), Point::new(8, 5));
    let svg = |own: &[Point], other: &[Point]| {
        let versus = Versus { pins: Some(Pins { s, t }), own: own.to_vec(), other: other.to_vec() };
        Scene::of(file.as_slice()).expect("memory can be read").with(versus).svg()
    };
    let lines = |svg: &str, class: &str| {
        let line = |line: &&str| line.starts_with("<polyline ") && line.contains(class);
        svg.lines().filter(line).count()
    };
    let both = svg(&[s, Point::new(1, 8), Point::new(8, 8), t], &[s, t]);
    assert_well_formed(&both);
    assert_eq!((lines(&both, "\"last\""), lines(&both, "\"other\"")), (1, 1));
    for text in
        [">second router<", ">program<", ">s (1,5)<", ">t (8,5)<", "two answers that differ"]
    {
        assert!(both.contains(text), "{text} is missing");
    }
    // One of them may have no wire; the pins are there all the same.
    let one = svg(&[], &[s, t]);
    assert_well_formed(&one);
    assert_eq!((lines(&one, "\"last\""), lines(&one, "\"other\"")), (0, 1));
    assert!(one.contains(">s (1,5)<") && one.contains(">t (8,5)<"));
}

#[test]
fn a_drawn_wire_is_drawn() {
    let file = [bounds(10, 10, 1), keepout(1, 3, 2, 6, 8), ask(0, 0, 9, 9)].concat();
    let svg = |numbers: &[u16]| {
        let scene = Scene::of(file.as_slice()).expect("memory can be read");
        scene.with_drawn(Wire::drawn(numbers)).svg()
    };
    let pins = |svg: &str| svg.matches("class=\"pin\"").count();
    let wire = svg(&[1, 5, 8, 5, 8, 9]);
    assert_well_formed(&wire);
    assert!(wire.contains(">drawn wire, from s to t<") && !wire.contains("last answer"));
    assert_eq!((pins(&wire), wire.matches("<polyline ").count()), (2, 1));
    // It may be no wire at all, or lie off the board.
    for numbers in [&[][..], &[1], &[1, 5], &[0, 0, 65_535, 65_535]] {
        assert_well_formed(&svg(numbers));
    }
}

/// P11's board: nine tracks with 31 edges, of which the seam is shut and the last of
/// the track at 5 is open behind it.
#[test]
fn crowding_is_drawn() {
    let crowd = |records: &[Vec<u8>]| {
        let scene = Scene::of(records.concat().as_slice()).expect("memory can be read");
        scene.with_crowd().svg()
    };
    let board = [bounds(10, 10, 1), keepout(1, 2, 2, 5, 8), keepout(2, 5, 2, 8, 8)];
    let svg = crowd(&[&board[..], &[ask(0, 0, 9, 9)]].concat());
    assert_well_formed(&svg);
    let edges = |class: &str| {
        let edge = |line: &&str| line.starts_with("<line ") && line.contains(class);
        svg.lines().filter(edge).count()
    };
    assert_eq!((edges("\"shut\""), edges("\"open\""), edges("\"stretch\"")), (1, 1, 29));
    assert_eq!(svg.matches("class=\"mark\"").count(), 9);
    for text in ["; 30 of 31 edges", ">2/3<", ">3/3<", ">4/4<", ">shut<"] {
        assert!(svg.contains(text), "{text} is missing");
    }
    // The last answer is not there; where no board is, that is said as ever.
    assert!(!svg.contains("class=\"pin\"") && !svg.contains("last answer"));
    assert!(crowd(&[ask(0, 0, 9, 9)]).contains("no board"));
    // Any size fits the paper, and the legend too.
    for (w, h) in [(1, 1), (30_000, 30_000), (30_000, 1), (1, 30_000)] {
        let svg = crowd(&[bounds(w, h, 1), keepout(1, 0, 0, 1, 1)]);
        assert_well_formed(&svg);
        assert!((700.0..=1_100.0).contains(&value(&svg, "<svg", "width")), "{w} x {h}");
    }
}

#[test]
fn y_points_up() {
    let low = svg(&[bounds(10, 10, 1), keepout(1, 0, 0, 2, 2)]);
    let high = svg(&[bounds(10, 10, 1), keepout(1, 0, 8, 2, 10)]);
    let y = |svg: &str| value(svg, "class=\"keepout\"", "y");
    assert_eq!(y(&low) - y(&high), 4.0 * value(&low, "class=\"keepout\"", "height"));
}

#[test]
fn any_size_fits_the_paper() {
    for (w, h) in [(1, 1), (10, 10), (30_000, 30_000), (30_000, 1), (1, 30_000), (7, 400)] {
        let svg = svg(&[bounds(w, h, 1), ask(0, 0, w, h)]);
        assert_well_formed(&svg);
        let (wide, high) = (value(&svg, "<svg", "width"), value(&svg, "<svg", "height"));
        let board = |attribute| value(&svg, "class=\"board\"", attribute);
        assert!(board("width") >= 100.0 && board("height") >= 100.0, "{w} x {h}");
        assert!(board("x") + board("width") < wide && board("y") + board("height") < high);
        assert!(wide <= 1_100.0 && high <= 1_100.0, "{w} x {h}");
    }
}

#[test]
fn a_new_board_has_no_answer_yet() {
    let svg = svg(&[bounds(10, 10, 1), ask(0, 0, 5, 5), bounds(9, 9, 1)]);
    assert!(svg.contains("no answer yet") && !svg.contains("class=\"pin\""));
}

#[test]
fn refused_bounds_keep_the_answer() {
    let svg = svg(&[bounds(10, 10, 1), ask(0, 0, 5, 5), bounds(0, 9, 1)]);
    assert!(svg.contains("length 10, detour 0") && svg.contains("class=\"pin\""));
}

#[test]
fn no_board_is_said() {
    let svg = svg(&[bounds(0, 0, 0)]);
    assert_well_formed(&svg);
    assert!(svg.contains("no board"));
}

/// The last lay or ask is there whatever came of it, as long as the board is the one that
/// was asked.
#[test]
fn a_refused_question_is_drawn() {
    let board = [bounds(10, 10, 2), keepout(1, 3, 2, 6, 8), lay(7, 1, 5, 8, 5)];
    let with = |more: &[Vec<u8>]| svg(&[&board[..], more].concat());
    let near = with(&[ask(1, 1, 9, 9)]);
    assert_well_formed(&near);
    for text in [
        ">s (1,1)<",
        ">t (9,9)<",
        "refused, 18: pin 2 (9,9) is within 2 of wire 7",
        "class=\"blocker\"",
    ] {
        assert!(near.contains(text), "{text} is missing");
    }
    // The wire of the lay before it is no answer any more.
    assert!(!near.contains("class=\"last\""));
    let inside = with(&[ask(4, 4, 9, 1)]);
    assert!(inside.contains("refused, 11: pin 1 (4,4) lies inside keep-out 1 (3,2)-(6,8)"));
    let off = with(&[ask(11, 4, 9, 1)]);
    assert_well_formed(&off);
    assert!(off.contains(">s (11,4), out of sight<") && off.contains("refused, 9: "));
    // An id in use: what lies there is another wire.
    let used = with(&[lay(7, 0, 0, 9, 0)]);
    assert!(used.contains(">s (0,0)<") && used.contains("refused, 4: id 7 is in use, by wire 7"));
}

#[test]
fn what_s_reaches_is_shaded() {
    let svg = svg(&[bounds(10, 10, 1), lay(5, 5, 0, 5, 10), ask(2, 5, 8, 5)]);
    assert_well_formed(&svg);
    assert!(svg.contains("class=\"reach\"") && svg.contains(">reached from s<"));
    assert!(svg.contains("a wire gets as far as (4,5), 4 from (8,5)"));
    assert!(svg.contains(">as far as (4,5)<"));
}

#[test]
fn an_answer_that_no_longer_stands_is_not_drawn() {
    let asked = [bounds(10, 10, 1), keepout(1, 3, 2, 6, 8), ask(1, 5, 8, 5)];
    let laid = [bounds(10, 10, 1), keepout(1, 3, 2, 6, 8), lay(7, 1, 5, 8, 5)];
    let after = |before: &[Vec<u8>], more: &[Vec<u8>]| svg(&[before, more].concat());
    for gone in [after(&asked, &[takeout(1)]), after(&laid, &[takeout(7)]), after(&laid, &[undo()])]
    {
        assert!(gone.contains("no longer stands") && !gone.contains("class=\"pin\""));
    }
    // A laid wire stands while it lies there, an answer while the board is the same.
    for stands in [after(&laid, &[keepout(2, 0, 0, 1, 1)]), after(&asked, &[takeout(1), undo()])] {
        assert!(stands.contains("detour 3") && stands.contains("class=\"pin\""));
    }
}

/// Numbers at round places, at both ends, and never too near.
#[test]
fn axes_have_numbers() {
    let numbers = |svg: &str, axis: &str| -> Vec<i32> {
        let lines = svg.lines().filter(|line| line.contains(&format!("class=\"axis {axis}\"")));
        lines.map(|line| text_of(line).parse().expect("a number")).collect()
    };
    let small = svg(&[bounds(10, 10, 1)]);
    assert_eq!(numbers(&small, "below"), (0..=10).collect::<Vec<i32>>());
    let wide = svg(&[bounds(30_000, 7, 1)]);
    let below = numbers(&wide, "below");
    assert_eq!((below[0], below[1], below[below.len() - 1]), (0, 2_000, 30_000));
    assert_eq!(numbers(&wide, "beside"), (0..=7).collect::<Vec<i32>>());
    let odd = svg(&[bounds(999, 999, 1)]);
    assert_eq!(numbers(&odd, "below").iter().rev().take(2).collect::<Vec<_>>(), [&999, &950]);
}

fn text_of(line: &str) -> &str {
    line.split('>').nth(1).and_then(|rest| rest.split('<').next()).expect("a text")
}

#[test]
fn a_part_of_the_board() {
    let file = [bounds(100, 100, 1), keepout(1, 0, 0, 9, 9), lay(7, 20, 50, 90, 50)].concat();
    let scene = Scene::of(file.as_slice()).expect("memory can be read");
    let svg = scene.within(Rect::new(40, 40, 60, 60)).svg();
    assert_well_formed(&svg);
    assert!(svg.contains("a part of the board") && svg.contains(">7<") && !svg.contains(">1<"));
    assert!(svg.contains(">s (20,50), out of sight<"));
}

/// Where each label is, by the sizes that the placing goes by.
fn label_boxes(svg: &str) -> Vec<[f64; 4]> {
    let labels = svg.lines().filter(|line| {
        line.starts_with("<text ") && (line.contains("\"label") || line.contains("\"pinname"))
    });
    let area = |line: &str| {
        let number = |name: &str| {
            let rest = line.split(&format!(" {name}=\"")).nth(1).expect(name);
            rest.split('"').next().expect("a value").parse::<f64>().expect("a number")
        };
        let half = text_of(line).chars().count() as f64 * 7.2 / 2.0;
        let (x, y) = (number("x"), number("y") - 4.0);
        [x - half, y - 6.0, x + half, y + 6.0]
    };
    labels.map(area).collect()
}

/// On dense boards no label lies over another, and none leaves the picture.
#[test]
fn labels_keep_apart() {
    let mut labels = 0;
    for (seed, style) in
        [(1, "full"), (2, "full"), (3, "bricks"), (4, "crowded"), (5, "pins"), (6, "maze")]
    {
        let file = Style::named(style).expect("a style").file(seed, 90);
        let svg = Scene::of(file.as_slice()).expect("memory can be read").svg();
        let (wide, high) = (value(&svg, "<svg", "width"), value(&svg, "<svg", "height"));
        let boxes = label_boxes(&svg);
        labels += boxes.len();
        for (index, a) in boxes.iter().enumerate() {
            assert!(a[0] >= 0.0 && a[1] >= 0.0 && a[2] <= wide && a[3] <= high, "{style}: {a:?}");
            let apart = |b: &[f64; 4]| a[2] <= b[0] || b[2] <= a[0] || a[3] <= b[1] || b[3] <= a[1];
            assert!(boxes[..index].iter().all(apart), "{style}: {a:?}");
        }
    }
    assert!(labels > 60, "only {labels} labels");
}

/// Two wires just the clearance apart, on the largest board: their lines leave half of the
/// room between them.
#[test]
fn what_is_apart_is_drawn_apart() {
    let svg =
        svg(&[bounds(30_000, 30_000, 43), lay(1, 0, 500, 9_000, 500), lay(2, 0, 543, 9_000, 543)]);
    let lines: Vec<&str> = svg.lines().filter(|line| line.starts_with("<polyline ")).collect();
    let y = |line: &str| -> f64 {
        line.split([',', ' ']).nth(2).expect("a corner").parse().expect("a number")
    };
    let broad: f64 =
        svg.lines().find(|line| line.starts_with(".wire { stroke-width: ")).map_or(9.0, |line| {
            line.split([':', ';']).nth(1).expect("a width").trim().parse().expect("a number")
        });
    let gap = (y(lines[0]) - y(lines[1])).abs();
    assert!(gap > 3.0 && 2.0 * broad <= gap + 0.1, "{gap} apart, {broad} broad");
}
