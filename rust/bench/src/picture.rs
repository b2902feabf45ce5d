//! The picture of docs/BENCHMARK.md: time a byte of forum-like posts, and growth of the hard ones.

use crate::{
    runs::Runs,
    table::{grouped, short},
};
use std::fmt::Write;

const WIDTH: f64 = 960.0;
const LEFT: f64 = 230.0;
const RIGHT: f64 = 40.0;
const BAR: f64 = 20.0;
const ROW: f64 = 22.0;

const CARVE: &str = "#1b6e5a";
const CMARK: &str = "#b8860b";
const ORIGINAL: &str = "#a33b2a";
const MEMCPY: &str = "#8a8a8a";

/// What has been drawn, and how far down.
struct Sheet {
    body: String,
    y: f64,
}

impl Sheet {
    fn text(&mut self, x: f64, y: f64, anchor: &str, class: &str, words: &str) {
        let words = words.replace('&', "&amp;").replace('<', "&lt;");
        writeln!(self.body, r#"<text x="{x:.1}" y="{y:.1}" text-anchor="{anchor}" class="{class}">{words}</text>"#).expect("a String takes all");
    }

    fn line(&mut self, x1: f64, y1: f64, x2: f64, y2: f64, class: &str) {
        writeln!(self.body, r#"<line x1="{x1:.1}" y1="{y1:.1}" x2="{x2:.1}" y2="{y2:.1}" class="{class}"/>"#).expect("a String takes all");
    }

    fn bar(&mut self, x: f64, y: f64, width: f64, height: f64, colour: &str) {
        writeln!(self.body, r#"<rect x="{x:.1}" y="{y:.1}" width="{width:.1}" height="{height:.1}" fill="{colour}"/>"#).expect("a String takes all");
    }

    fn dot(&mut self, x: f64, y: f64, fill: &str, stroke: &str) {
        writeln!(self.body, r#"<circle cx="{x:.1}" cy="{y:.1}" r="5" fill="{fill}" stroke="{stroke}" stroke-width="1.6"/>"#)
            .expect("a String takes all");
    }
}

/// The place on a log scale from `low` to `high`.
fn log(x: f64, low: f64, high: f64) -> f64 {
    let share = (x / low).log10() / (high / low).log10();
    LEFT + share.clamp(0.0, 1.0) * (WIDTH - LEFT - RIGHT)
}

fn forum(sheet: &mut Sheet, runs: &Runs) {
    let (low, high) = (0.01, 100_000.0);
    sheet.text(20.0, sheet.y, "start", "head", "Forum-like posts: nanoseconds a byte, log scale");
    let top = sheet.y + 16.0;
    let bottom = top + runs.forum.len() as f64 * (4.0 * BAR + 14.0);
    let mut tick = low;
    while tick <= high * 1.001 {
        let x = log(tick, low, high);
        sheet.line(x, top, x, bottom, "grid");
        let label = if tick < 1.0 { format!("{tick}") } else { grouped(tick.round() as u64) };
        sheet.text(x, bottom + 16.0, "middle", "tick", &label);
        tick *= 10.0;
    }
    let mut y = top + 6.0;
    for f in &runs.forum {
        sheet.text(20.0, y + 2.0 * BAR + 4.0, "start", "label", &format!("{} bytes", grouped(f.n as u64)));
        for (name, time, colour) in
            [("memcpy", f.memcpy, MEMCPY), ("libcarve", f.carve, CARVE), ("cmark", f.cmark, CMARK), ("Rust original", f.original, ORIGINAL)]
        {
            let a_byte = time / f.n as f64;
            let end = log(a_byte, low, high);
            sheet.text(LEFT - 8.0, y + 14.0, "end", "label", name);
            sheet.bar(LEFT, y + 2.0, end - LEFT, BAR - 4.0, colour);
            sheet.text(end + 6.0, y + 14.0, "start", "value", &short(a_byte));
            y += BAR;
        }
        y += 14.0;
    }
    sheet.y = bottom + 56.0;
}

fn growth(sheet: &mut Sheet, runs: &Runs) {
    let (low, high) = (1.0, 8.0);
    sheet.text(20.0, sheet.y, "start", "head", "Hard posts: t(2n) / t(n), log scale");
    let legend = sheet.y + 22.0;
    sheet.dot(26.0, legend - 4.0, CARVE, CARVE);
    sheet.text(38.0, legend, "start", "label", "libcarve, the greater of n = 64 Ki and 128 Ki");
    sheet.dot(366.0, legend - 4.0, "none", ORIGINAL);
    sheet.text(378.0, legend, "start", "label", "Rust original, at the longest post that it was given");
    let top = legend + 26.0;
    let bottom = top + runs.hard.len() as f64 * ROW + 4.0;
    for (tick, words, class) in [
        (1.0, "1", "grid"),
        (2.0, "2: linear", "grid"),
        (2.5, "", "bound"),
        (4.0, "4: quadratic", "grid"),
        (4.5, "", "bound"),
        (8.0, "8 and more", "grid"),
    ] {
        let x = log(tick, low, high);
        sheet.line(x, top, x, bottom, class);
        if words.is_empty() {
            sheet.text(x, top - 6.0, "middle", "tick", &format!("{tick}"));
        }
        sheet.text(x, bottom + 16.0, "middle", "tick", words);
    }
    let mut y = top + ROW / 2.0 + 2.0;
    for h in &runs.hard {
        sheet.text(LEFT - 8.0, y + 4.0, "end", "label", h.family.name);
        sheet.line(LEFT, y, WIDTH - RIGHT, y, "row");
        if h.original.growth.is_finite() {
            sheet.dot(log(h.original.growth, low, high), y, "none", ORIGINAL);
        }
        sheet.dot(log(h.growth(), low, high), y, CARVE, CARVE);
        y += ROW;
    }
    sheet.y = bottom + 40.0;
}

pub fn of(runs: &Runs) -> String {
    let mut sheet = Sheet { body: String::new(), y: 32.0 };
    forum(&mut sheet, runs);
    growth(&mut sheet, runs);
    format!(
        r#"<svg xmlns="http://www.w3.org/2000/svg" width="{WIDTH}" height="{height:.0}" viewBox="0 0 {WIDTH} {height:.0}" role="img" aria-label="Benchmark">
<style>
text {{ font-family: "DejaVu Sans", Verdana, sans-serif; fill: #222 }}
.head {{ font-size: 15px; font-weight: bold }}
.label {{ font-size: 12px }}
.value {{ font-size: 11px }}
.tick {{ font-size: 11px; fill: #555 }}
.grid {{ stroke: #d5d5d5 }}
.row {{ stroke: #efefef }}
.bound {{ stroke: #555; stroke-dasharray: 4 3 }}
</style>
<rect width="100%" height="100%" fill="white"/>
{body}</svg>
"#,
        height = sheet.y,
        body = sheet.body
    )
}
