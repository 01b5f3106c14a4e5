//! How broad lines may be, so that what lies apart is seen apart.

use crate::geometry::Rect;

/// The least distance in pixels between two parts that do not touch: runs of wires, and
/// keep-outs.
pub fn least_gap(parts: &[Rect], x_scale: f64, y_scale: f64) -> Option<f64> {
    let mut least: Option<f64> = None;
    for (index, a) in parts.iter().enumerate() {
        for b in &parts[..index] {
            let gap = distance(*a, *b, x_scale, y_scale);
            if gap > 0.0 {
                least = Some(least.map_or(gap, |least| least.min(gap)));
            }
        }
    }
    least
}

/// How far two closed rectangles are apart, in pixels.
fn distance(a: Rect, b: Rect, x_scale: f64, y_scale: f64) -> f64 {
    let apart = |low: i32, high: i32| f64::from((low - high).max(0));
    let dx = apart(a.x0, b.x1).max(apart(b.x0, a.x1)) * x_scale;
    let dy = apart(a.y0, b.y1).max(apart(b.y0, a.y1)) * y_scale;
    dx.hypot(dy)
}

/// The part of its full breadth that a line may have: a full wire is 3 pixels, and two of
/// them side by side fill half the gap between them.
pub fn breadth(gap: Option<f64>) -> f64 {
    gap.map_or(1.0, |gap| (gap / 6.0).clamp(LEAST_BREADTH, 1.0))
}

/// A thinner line is not seen any more.
const LEAST_BREADTH: f64 = 0.12;

/// Are things nearer to each other than the thinnest lines can show?
pub fn too_near(gap: Option<f64>) -> bool {
    gap.is_some_and(|gap| gap < 6.0 * LEAST_BREADTH)
}
