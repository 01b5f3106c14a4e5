//! The numbers along both axes.

use super::labels::text_width;
use super::paper::{Paper, OVERHANG};

const SIZE: f64 = 12.0;
const TICK: f64 = 5.0;

/// Where ticks go from low to high so that numbers are at least `apart` from each other:
/// at both ends, and at round numbers between.
pub fn ticks(low: i32, high: i32, per_unit: f64, apart: f64) -> Vec<i32> {
    let steps = (0..10).flat_map(|power| [1, 2, 5].map(|digit| digit * 10_i64.pow(power)));
    let step = steps.into_iter().find(|&step| step as f64 * per_unit >= apart).unwrap_or(i64::MAX);
    let far = |at: i64, end: i32| (at - i64::from(end)).abs() as f64 * per_unit >= apart;
    let first = (i64::from(low) + step - 1).checked_div(step).unwrap_or(0).saturating_mul(step);
    let between = (0..).map(|count| first.saturating_add(step.saturating_mul(count)));
    let between = between.take_while(|&at| at < i64::from(high));
    let between = between.filter(|&at| far(at, low) && far(at, high));
    let mut ticks = vec![low];
    ticks.extend(between.map(|at| at as i32));
    ticks.push(high);
    ticks
}

impl Paper {
    pub fn add_axes(&mut self) {
        let view = self.view();
        let widest = text_width(&view.x1.to_string(), SIZE);
        let base = self.y(view.y0) + OVERHANG;
        for at in ticks(view.x0, view.x1, self.x_scale(), widest + 14.0) {
            let x = self.x(at);
            self.pixel_line(x, base, x, base + TICK, "tick");
            self.text(x, base + TICK + 13.0, "axis below", &at.to_string());
        }
        let base = self.x(view.x0) - OVERHANG;
        for at in ticks(view.y0, view.y1, self.y_scale(), 30.0) {
            let y = self.y(at);
            self.pixel_line(base, y, base - TICK, y, "tick");
            self.text(base - TICK - 3.0, y + 4.0, "axis beside", &at.to_string());
        }
    }
}
