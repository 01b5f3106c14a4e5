//! How things look.

const STYLE: &str = "\
text { font-family: 'DejaVu Sans', Verdana, sans-serif; fill: #22262b; }
.title { font-size: 20px; font-weight: bold; }
.note { font-size: 13px; fill: #555c66; }
.asked { font-size: 13px; fill: #a83505; }
.label { font-size: 12px; text-anchor: middle; }
.label, .pinname { paint-order: stroke; stroke: #fff; stroke-width: 3px; }
.wirename { fill: #14517e; }
.axis { font-size: 12px; fill: #555c66; }
.below { text-anchor: middle; }
.beside { text-anchor: end; }
.tick { stroke: #22262b; stroke-width: 1; }
.board { fill: #fbf9f3; }
.edge { fill: none; stroke: #22262b; stroke-width: 1.5; }
.grid { stroke: #e4dfd1; stroke-width: 1; }
.keepout { fill: #cfd4da; shape-rendering: crispEdges; }
.rim { fill: none; stroke: #666e78; }
.box { fill: #1b6ca8; }
.wire { stroke: #1b6ca8; }
.last { stroke: #d4480b; }
.other { stroke: #7a2fa0; stroke-dasharray: 9 9; }
.wire, .last, .other, .blocker, .gone, .added { fill: none; stroke-linejoin: round; stroke-linecap: round; }
.blocker { stroke: #c8261d; }
.reach { fill: #2f9e58; stroke: #2f9e58; stroke-width: 0; }
line.reach { stroke-width: 2; }
.pale { opacity: 0.3; }
.gone { stroke: #c8261d; stroke-dasharray: 7 5; }
.added { stroke: #1f8a43; }
.open { stroke: #7cc48f; stroke-width: 3; }
.stretch { stroke: #1f8a43; stroke-width: 5; }
.shut { stroke: #c8261d; stroke-width: 3; stroke-dasharray: 5 4; }
.mark { stroke-width: 5; }
.fine .open, .fine .mark { stroke-width: 1.5; }
.fine .stretch { stroke-width: 2; }
.fine .shut { stroke-width: 1.5; stroke-dasharray: 3 2; }
.told { font-size: 10px; text-anchor: middle; }
.pin { fill: #d4480b; }
.ring { fill: none; stroke: #d4480b; stroke-width: 1.5; }
.pinname { font-size: 12px; font-weight: bold; text-anchor: middle; fill: #d4480b; }
";

/// The style of a picture whose lines have this part of their full breadth.
pub fn style(breadth: f64) -> String {
    let mut style = String::from(STYLE);
    for (class, full) in [
        ("rim", 3.0),
        ("wire", 3.0),
        ("last", 4.0),
        ("other", 4.0),
        ("blocker", 4.0),
        ("gone", 4.0),
        ("added", 4.0),
    ] {
        style += &format!(".{class} {{ stroke-width: {:.2}; }}\n", full * breadth);
    }
    style
}
