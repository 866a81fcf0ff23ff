//! The tables, in Markdown.

use crate::shapes::{Form, Shape};
use crate::{Row, geos, sift};
use std::fmt::Write;

fn form(form: Form) -> String {
    format!("{} {}", if form.axes == 4 { "xyzm" } else { "xy" }, if form.little { "LE" } else { "BE" })
}

fn micros(seconds: f64) -> String {
    let us = seconds * 1e6;
    if us < 100.0 { format!("{us:.2}") } else { format!("{us:.0}") }
}

fn line(text: &mut String, row: &Row) {
    let [ours, original, envelope, bare] = row.seconds;
    writeln!(
        text,
        "| {} | {} | {} | {} | {} | {} | {:.2} | {:.1} | {:.1} |",
        row.shape.name(),
        form(row.form),
        micros(ours),
        micros(original),
        micros(envelope),
        micros(bare),
        ours / bare,
        original / ours,
        envelope / ours,
    )
    .expect("text");
}

fn machine() -> String {
    let info = std::fs::read_to_string("/proc/cpuinfo").unwrap_or_default();
    let model = info.lines().find_map(|l| l.strip_prefix("model name")).unwrap_or(": unknown");
    model.trim_start_matches([' ', '\t', ':']).to_string()
}

/// The least ratio of another way's time to ours, over the rows that count.
fn least(rows: &[Row], way: usize, counts: impl Fn(Shape) -> bool) -> f64 {
    let rows = rows.iter().filter(|row| counts(row.shape));
    rows.map(|row| row.seconds[way] / row.seconds[0]).fold(f64::INFINITY, f64::min)
}

/// Each target, with the worst of the rows that it speaks of.
fn targets(text: &mut String, rows: &[Row], pages: &[sift::Row]) {
    let line = |s| matches!(s, Shape::Line(_));
    let long = |s| line(s) || matches!(s, Shape::Polygon(..));
    let parts = |s| matches!(s, Shape::MultiPoint(_) | Shape::Deep(_) | Shape::Wide(_));
    let bare = 1.0 / least(rows, BARE, line);
    let window = pages.iter().filter(|row| row.pages == 4096).flat_map(|row| row.seconds[..2].to_vec()).fold(0.0, f64::max);
    let met = |yes: bool| if yes { "yes" } else { "no" };
    let ratios = [
        ("Rust / ours, every shape", 1.0, least(rows, RUST, |_| true)),
        ("Rust / ours, long lines", 2.0, least(rows, RUST, line)),
        ("GEOS / ours, lines and polygons", 10.0, least(rows, GEOS, long)),
        ("GEOS / ours, multipoints and collections", 4.0, least(rows, GEOS, parts)),
    ];
    *text += "\nTargets, and the worst measured of the rows that each speaks of:\n\n| | Target | Measured | Met |\n|---|---:|---:|---|\n";
    for (name, target, found) in ratios {
        writeln!(text, "| {name} | above {target:.0} | {found:.2} | {} |", met(found > target)).expect("text");
    }
    writeln!(text, "| ours / bare pass, long lines | at most 1.3 | {bare:.2} | {} |", met(bare <= 1.3)).expect("text");
    writeln!(text, "| one window on 4,096 pages | below 1000 µs | {} µs | {} |", micros(window), met(window < 0.001)).expect("text");
}

const RUST: usize = 1;
const GEOS: usize = 2;
const BARE: usize = 3;

pub fn tables(rows: &[Row], growth: &[Row], pages: &[sift::Row]) -> String {
    let mut text = String::new();
    let (version, model) = (geos::version(), machine());
    writeln!(text, "Measured on {model}, one thread, with GEOS {version}.\n").expect("text");
    text += "| Shape | Form | Ours, µs | Rust, µs | GEOS, µs | Bare pass, µs | Ours / bare | Rust / ours | GEOS / ours |\n";
    text += "|---|---|---:|---:|---:|---:|---:|---:|---:|\n";
    for row in rows {
        line(&mut text, row);
    }
    text += "\nHow the time of a line grows (xy LE):\n\n";
    text += "| Points | Bytes | Ours, µs | Ours, ns a point | Bare pass, ns a point |\n|---:|---:|---:|---:|---:|\n";
    for row in growth {
        let (n, [ours, _, _, bare]) = (row.points as f64, row.seconds);
        writeln!(text, "| {} | {} | {} | {:.2} | {:.2} |", row.points, row.bytes, micros(ours), ours * 1e9 / n, bare * 1e9 / n)
            .expect("text");
    }
    text += "\nOne window over closed pages (the median over rounds of 1,000 windows each):\n\n";
    text += "| Pages | Ordinary, µs | Wraparound, µs | Wraparound, ns a page | Four comparisons, µs | Kept |\n|---:|---:|---:|---:|---:|---:|\n";
    for row in pages {
        let [ordinary, wrapping, plain] = row.seconds;
        writeln!(
            text,
            "| {} | {} | {} | {:.1} | {} | {:.1} % |",
            row.pages,
            micros(ordinary),
            micros(wrapping),
            wrapping * 1e9 / row.pages as f64,
            micros(plain),
            row.kept * 100.0
        )
        .expect("text");
    }
    targets(&mut text, rows, pages);
    text
}

/// Puts the tables into a file, between its lines `<!-- measured -->` and `<!-- end -->` where it has them.
pub fn record(path: &str, text: &str) -> std::io::Result<()> {
    let (begin, end) = ("<!-- measured -->\n", "<!-- end -->\n");
    let old = std::fs::read_to_string(path).unwrap_or_default();
    let new = match (old.split_once(begin), old.split_once(end)) {
        (Some((before, _)), Some((_, after))) => format!("{before}{begin}\n{text}\n{end}{after}"),
        _ => text.to_string(),
    };
    std::fs::write(path, new)
}
