//! Where copper is tight: the edges of a board's tracks, open or shut, and at the
//! ends of each track how much of it is open.

use super::marks::Mark;
use super::paper::Paper;
use crate::crowd::{Crowd, Track};
use crate::geometry::{Point, Rect};

/// What the lines mean.
pub const LEGEND: [(&str, &str); 3] =
    [("stretch", "open from the low end"), ("open", "open"), ("shut", "shut")];

/// With more tracks on an axis than this the lines are thin ones.
const MOST_BROAD: usize = 24;

/// The colours of a track without an open edge, of one half open, and of one that is
/// wide open, each as red, green and blue.
const RAMP: [[f64; 3]; 3] = [[200.0, 38.0, 29.0], [226.0, 160.0, 20.0], [38.0, 148.0, 72.0]];

pub fn note(crowd: &Crowd) -> String {
    let edges: usize = crowd.tracks().map(|track| track.open.len()).sum();
    let open: usize = crowd.tracks().map(Track::open_edges).sum();
    format!("; {open} of {edges} edges of tracks are open")
}

/// Draws each edge, the shut ones last, since they matter most.
pub fn add_edges(crowd: &Crowd, paper: &mut Paper) {
    paper.begin_group(thickness(crowd));
    let (xs, ys) = (places(&crowd.vertical), places(&crowd.level));
    let vertical = |at: i32, low: usize| Rect::new(at, ys[low], at, ys[low + 1]);
    let level = |at: i32, low: usize| Rect::new(xs[low], at, xs[low + 1], at);
    for class in ["open", "stretch", "shut"] {
        for track in &crowd.vertical {
            add_edges_of(class, track, vertical, paper);
        }
        for track in &crowd.level {
            add_edges_of(class, track, level, paper);
        }
    }
    paper.end_group();
}

/// The marks go beside the board, where its edges are not seen.
pub fn add_marks(crowd: &Crowd, paper: &mut Paper) {
    paper.begin_group(thickness(crowd));
    paper.add_marks_below(crowd.vertical.iter().map(mark));
    paper.add_marks_beside(crowd.level.iter().map(mark));
    paper.end_group();
}

fn thickness(crowd: &Crowd) -> &'static str {
    let most = crowd.vertical.len().max(crowd.level.len());
    if most > MOST_BROAD {
        "fine"
    } else {
        "broad"
    }
}

fn places(tracks: &[Track]) -> Vec<i32> {
    tracks.iter().map(|track| track.at).collect()
}

/// The edges of a track that are of one class; `edge` says where one is, by its
/// number from the low end.
fn add_edges_of(class: &str, track: &Track, edge: impl Fn(i32, usize) -> Rect, paper: &mut Paper) {
    let stretch = track.stretch();
    for (number, open) in track.open.iter().enumerate() {
        let own = match open {
            false => "shut",
            true if number < stretch => "stretch",
            true => "open",
        };
        if own == class {
            let Rect { x0, y0, x1, y1 } = edge(track.at, number);
            paper.add_line(Point::new(x0, y0), Point::new(x1, y1), class);
        }
    }
}

/// From red to green, the more the greener.
fn colour(track: &Track) -> String {
    let share = track.open_edges() as f64 / track.open.len() as f64;
    let (from, part) = if share < 0.5 { (0, 2.0 * share) } else { (1, 2.0 * share - 1.0) };
    let mixed = |place: usize| RAMP[from][place] * (1.0 - part) + RAMP[from + 1][place] * part;
    format!("#{:02x}{:02x}{:02x}", mixed(0) as u8, mixed(1) as u8, mixed(2) as u8)
}

fn mark(track: &Track) -> Mark {
    let told = format!("{}/{}", track.open_edges(), track.open.len());
    Mark { at: track.at, colour: colour(track), told }
}
