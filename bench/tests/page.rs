//! The page to step through a file: that all it needs is in it, and, where a browser is
//! installed, what it does.

mod common;

use std::fs;
use std::path::PathBuf;
use std::process::{Command, Stdio};

use bench::page::Page;
use bench::story::{tell, Script};
use bench::text::records;
use common::programs::{say, scratch};
use common::sheet;

const TEXT: &str =
    "bounds 10 10 2\nkeepout 1 3 2 6 8\nlay 7 1 5 8 5\nask 1 1 9 9\ntakeout 7\nask 1 5 9 9\n\
                    undo\nundo\nlay 5 5 0 5 10\n";

fn page(name: &str, text: &str) -> String {
    let script = Script::of_text(&records(text.as_bytes()).expect("it can be read"));
    let (mut page, printed) = (Page::of(name), sheet(&script.file));
    tell(&script, Some(&printed), usize::MAX, |step| page.add(&step, step.answered.words()))
        .expect("the sheets agree");
    page.html()
}

#[test]
fn all_it_needs_is_in_it() {
    let html = page("a <b> & \"c\".txt", TEXT);
    for outside in ["src=", "href=", "@import", "url(http", "fetch(", "XMLHttpRequest", "import("] {
        assert!(!html.contains(outside), "{outside}");
    }
    // The one address in it is the name of a sort of picture.
    assert_eq!(html.matches("://").count(), html.matches("http://www.w3.org/2000/svg").count());
    assert!(html.contains("<title>a &lt;b&gt; &amp; &quot;c&quot;.txt</title>"));
    assert!(html.contains("default-src 'none'"));
    assert_eq!(html.matches("</script>").count(), 2);
}

#[test]
fn each_step_tells_what_changed() {
    let html = page("x", TEXT);
    let steps: Vec<&str> = html.lines().filter(|line| line.starts_with("{\"p\":")).collect();
    assert_eq!(steps.len(), 9);
    for (step, told) in [
        (0, "\"f\":[10,10,2]"),
        (1, "\"a\":[{\"id\":1,\"r\":[3,2,6,8]}]"),
        (2, "\"a\":[{\"id\":7,\"c\":[[1,5],[3,5],[3,8],[8,8],[8,5]]}],\"pins\":[1,5,8,5],\"wire\":[[1,5]"),
        (3, "\"c\":18,\"b\":5,\"k\":2,\"pins\":[1,1,9,9],\"by\":7"),
        (4, "\"g\":[7]"),
        (6, "\"a\":[{\"id\":7,"),
    ] {
        assert!(steps[step].contains(told), "{}", steps[step]);
    }
    let refused =
        page("x", "bounds 9 9 1\nkeepout 1 2 2 4 4\nkeepout 2 3 3 5 5\nkeepout 3 6 6 6 7\n");
    assert!(refused.contains("\"no\":[3,3,5,5]") && refused.matches("\"no\":").count() == 1);
    let shut = page("x", "bounds 4 4 1\nlay 5 2 0 2 4\nask 0 0 4 4\n");
    assert!(shut.contains("\"reach\":[[0,0,1,4]],\"far\":[1,4]"), "{shut}");
}

/// Keys, buttons, the list, hovering and zooming, one after another; what is seen after each
/// goes to the end of the page.
const DRIVER: &str = r#"
const seen = [], note = (what) => seen.push(what + ' | ' + find('place').textContent + ' | ' + find('answer').textContent);
const key = (name) => document.dispatchEvent(new KeyboardEvent('keydown', { key: name, bubbles: true }));
const ticks = () => [...document.querySelectorAll('.axis')].map((tick) => tick.textContent).join(' ');
const box = svg.getBoundingClientRect(), all = ticks();
note('start');
key('ArrowRight'); key('ArrowRight'); note('two keys');
document.querySelector('.hit').dispatchEvent(new PointerEvent('pointermove', { bubbles: true, clientX: 400, clientY: 300 }));
seen.push('hover wire | ' + find('tip').textContent + ' | ' + find('tip').hidden);
document.querySelector('.keepout').dispatchEvent(new PointerEvent('pointermove', { bubbles: true, clientX: 400, clientY: 300 }));
seen.push('hover keep-out | ' + find('tip').textContent);
find('forward').click(); note('button');
seen.push('drawn | ' + document.querySelectorAll('.wire').length + ' wires, ' + document.querySelectorAll('.blocker').length + ' blocker, ' + document.querySelectorAll('.pin').length + ' pins');
document.querySelector('.row[data-number="2"]').click(); note('list');
seen.push('row | ' + document.querySelector('.row.now').textContent);
find('back').click(); note('back');
key('End'); note('end');
key('Home'); note('home');
seen.push('empty | ' + document.querySelectorAll('#board *').length);
key('PageDown');
svg.dispatchEvent(new WheelEvent('wheel', { deltaY: -1, clientX: box.left + 300, clientY: box.top + 300, cancelable: true }));
find('nearer').click(); key('+');
seen.push('zoomed | ' + (ticks() !== all));
key('-'); find('farther').click(); find('fit').click();
seen.push('whole again | ' + (ticks() === all));
const pull = (name, x) => svg.dispatchEvent(new PointerEvent(name, { bubbles: true, clientX: box.left + x, clientY: box.top + 200 }));
const before = view.x; pull('pointerdown', 200); pull('pointermove', 260); pull('pointerup', 260);
seen.push('moved | ' + (view.x < before) + ' by ' + Math.round((before - view.x) * scale));
const end = document.createElement('pre'); end.id = 'seen'; end.textContent = '\n' + seen.join('\n') + '\n'; document.body.append(end);
"#;

const SEEN: &str = "\
start | record 1 of 9 | line 1: bounds 10 10 2: a new board, 10 \u{d7} 10, clearance 2
two keys | record 3 of 9 | line 3: lay 7 1 5 8 5: laid: length 13, detour 3, 4 runs: 1:5 3:5 3:8 8:8 8:5; 5 of 46 blocks
hover wire | wire 7: 1:5 3:5 3:8 8:8 8:5 | false
hover keep-out | keep-out 1 (3,2)-(6,8)
button | record 4 of 9 | line 4: ask 1 1 9 9: refused, 18: pin 2 (9,9) is within 2 of wire 7
drawn | 1 wires, 1 blocker, 2 pins
list | record 2 of 9 | line 2: keepout 1 3 2 6 8: added; 1 of 46 blocks
row | line 2keepout 1 3 2 6 8
back | record 1 of 9 | line 1: bounds 10 10 2: a new board, 10 \u{d7} 10, clearance 2
end | record 9 of 9 | line 9: lay 5 5 0 5 10: laid: length 12, detour 1, 3 runs: 5:0 6:0 6:10 5:10; 4 of 46 blocks
home | record 0 of 9 | before the first record
empty | 0
zoomed | true
whole again | true
moved | true by 60
";

/// The first browser that is installed.
fn browser() -> Option<PathBuf> {
    let path = std::env::var_os("PATH")?;
    let names = ["chromium", "chromium-browser", "google-chrome"];
    let folders: Vec<PathBuf> = std::env::split_paths(&path).collect();
    names
        .iter()
        .flat_map(|name| folders.iter().map(move |folder| folder.join(name)))
        .find(|at| at.is_file())
}

#[test]
fn it_is_driven_in_a_browser() {
    let Some(browser) = browser() else {
        say("skipped: the page was not driven, as no browser is installed (chromium would do)");
        return;
    };
    let file = scratch("page.html");
    let html =
        page("worked", TEXT).replace("</body>", &format!("<script>{DRIVER}</script></body>"));
    fs::write(&file, html).expect("a folder to write to");
    let output = Command::new(browser)
        .args([
            "--headless",
            "--no-sandbox",
            "--disable-gpu",
            "--window-size=1200,800",
            "--dump-dom",
        ])
        .arg(format!("--user-data-dir={}", scratch("browser").display()))
        .arg(format!("file://{}", file.display()))
        .stderr(Stdio::null())
        .output()
        .expect("the browser starts");
    let dom = String::from_utf8_lossy(&output.stdout);
    let seen = dom.split("<pre id=\"seen\">").nth(1).and_then(|rest| rest.split("</pre>").next());
    assert_eq!(seen.expect("the driver came to its end").trim_start(), SEEN);
}
