//! The commands of the designer's day: a file in words, as a picture and as a page.

use std::fmt::Write as _;

use bench::diff;
use bench::draw::Scene;
use bench::geometry::Rect;
use bench::limits::MAX_RECORDS;
use bench::page::Page;
use bench::scratch::write as write_file;
use bench::sheet::Last;
use bench::story::{last, tell, Script};
use bench::words::count;

use crate::doors::{read, read_file, read_standard, script, script_warned};
use crate::options::Options;
use crate::outcome::{usage, write, Failure, Progress};

const BOARD_TAKES: &str = "board takes --sheet SHEET [--to NAME] [FILE]";
const DRAW_TAKES: &str = "draw takes nothing on the command line but --crowd, --sheet SHEET, \
                          --after N and --window x0 y0 x1 y1";

/// Text or records from a file, as records. What is hardly meant is told here; `board`, which
/// goes on with the same file, does not tell it again.
pub fn records(args: &[&str]) -> Result<(), Failure> {
    let takes = "records takes [FILE]";
    let path = one(Options::of(args).rest(takes)?, takes)?;
    let (name, bytes) = read(path)?;
    write(&script_warned(&name, bytes)?.file)
}

/// One name at most.
fn one<'a>(names: Vec<&'a str>, takes: &str) -> Result<Option<&'a str>, Failure> {
    match names[..] {
        [] => Ok(None),
        [name] => Ok(Some(name)),
        _ => usage(takes),
    }
}

pub fn board(args: &[&str]) -> Result<(), Failure> {
    let mut options = Options::of(args);
    let (sheet, to) = (options.value("--sheet")?, options.value("--to")?);
    let path = one(options.rest(BOARD_TAKES)?, BOARD_TAKES)?;
    let Some(sheet) = sheet else { return usage(BOARD_TAKES) };
    let sheet = sheet_text(sheet)?;
    let (name, bytes) = read(path)?;
    let script = script(&name, bytes)?;
    let told = told(&name, &script, &sheet)?;
    let to = to.or(path.filter(|path| *path != "-")).unwrap_or("board");
    let (picture, page) = (format!("{to}.svg"), format!("{to}.html"));
    write_file(picture.as_ref(), told.scene.svg().as_bytes()).map_err(Failure::Told)?;
    write_file(page.as_ref(), told.page.html().as_bytes()).map_err(Failure::Told)?;
    write(format!("{}picture {picture}\npage {page}\n", told.text).as_bytes())
}

fn sheet_text(path: &str) -> Result<String, Failure> {
    Ok(String::from_utf8_lossy(&read_file(path)?).into_owned())
}

/// All that is said of a file.
struct Told {
    text: String,
    scene: Scene,
    page: Page,
}

fn told(name: &str, script: &Script, sheet: &str) -> Result<Told, Failure> {
    let kind = if script.is_text() { "text" } else { "records" };
    let mut text = format!("{name}: {kind}, {}\n", count(script.count(), "record"));
    let (mut scene, mut page) = (Scene::before(script, true), Page::of(name));
    let (mut accepted, mut refused) = (0, 0);
    let mut progress = Progress::of("board");
    tell(script, Some(sheet), usize::MAX, |step| {
        progress.now_and_then(|| format!("{} of {} records", step.number, script.count()));
        scene.see(&step);
        let words = step.answered.words();
        let _ = writeln!(text, "{}: {}: {words}", step.place(), step.text());
        page.add(&step, words);
        *(if step.answered.said.accepted() { &mut accepted } else { &mut refused }) += 1;
    })
    .map_err(Failure::Told)?;
    if last(script) == Last::Cut {
        let _ = writeln!(text, "cut: a sheet ends after {MAX_RECORDS} records");
    }
    let _ = writeln!(text, "{accepted} accepted, {refused} refused; both routers say the same");
    Ok(Told { text, scene, page })
}

pub fn draw(args: &[&str]) -> Result<(), Failure> {
    let mut options = Options::of(args);
    let crowd = options.flag("--crowd");
    let (sheet, after) = (options.value("--sheet")?, options.numbers::<1>("--after")?);
    let window = options.numbers::<4>("--window")?;
    if !options.rest(DRAW_TAKES)?.is_empty() {
        return usage(DRAW_TAKES);
    }
    let sheet = sheet.map(sheet_text).transpose()?;
    let script = script_warned("standard input", read_standard()?)?;
    let after = after.map(|[after]| usize::from(after));
    if after.is_some_and(|after| after > script.count()) {
        return Err(Failure::Told(format!(
            "--after: there are only {}",
            count(script.count(), "record")
        )));
    }
    let mut progress = Progress::of("draw");
    let watch =
        |number| progress.now_and_then(|| format!("{number} of {} records", script.count()));
    let scene = Scene::told(&script, sheet.as_deref(), after, watch).map_err(Failure::Told)?;
    let scene = if crowd { scene.with_crowd() } else { scene };
    write(windowed(scene, window)?.svg().as_bytes())
}

/// The part of a scene that was asked for.
fn windowed(scene: Scene, window: Option<[u16; 4]>) -> Result<Scene, Failure> {
    let (Some(numbers), Some(frame)) = (window, scene.frame()) else { return Ok(scene) };
    let [x0, y0, x1, y1] = numbers.map(i32::from);
    if !(x0 < x1 && x1 <= frame.w && y0 < y1 && y1 <= frame.h) {
        let what = format!(
            "--window {x0} {y0} {x1} {y1} is no part of the board, which is {} \u{d7} {}",
            frame.w, frame.h
        );
        return Err(Failure::Told(what));
    }
    Ok(scene.within(Rect::new(x0, y0, x1, y1)))
}

pub fn diff(args: &[&str]) -> Result<(), Failure> {
    let takes = "diff takes [--svg PICTURE] A B";
    let mut options = Options::of(args);
    let picture = options.value("--svg")?;
    let [a, b] = options.rest(takes)?[..] else { return usage(takes) };
    let scripts =
        [a, b].map(|path| read(Some(path)).and_then(|(name, bytes)| script(&name, bytes)));
    let [one, other] = scripts;
    let found = diff::Diff::of(&one?, &other?).map_err(Failure::Told)?;
    if let Some(picture) = picture {
        write_file(picture.as_ref(), found.svg().as_bytes()).map_err(Failure::Told)?;
    }
    write(found.text(a, b).as_bytes())
}
