//! The tables of docs/BENCHMARK.md.

use crate::runs::{Beside, Hard, Runs, MOST};
use std::fmt::Write;

pub const BEGIN: &str = "<!-- tables: rust/bench/run writes what stands from here -->\n";
pub const END: &str = "<!-- up to here -->\n";

/// The page with other tables in it.
pub fn replaced(page: &str, tables: &str) -> Option<String> {
    let (front, rest) = page.split_once(BEGIN)?;
    let (_, behind) = rest.split_once(END)?;
    Some(format!("{front}{BEGIN}{tables}{END}{behind}"))
}

/// Three digits that say something.
pub fn short(x: f64) -> String {
    match x {
        x if x >= 99.95 => grouped(x.round() as u64),
        x if x >= 9.995 => format!("{x:.1}"),
        x => format!("{x:.2}"),
    }
}

/// A number with commas.
pub fn grouped(n: u64) -> String {
    let digits = n.to_string();
    let mut out = String::new();
    for (i, digit) in digits.chars().enumerate() {
        if i > 0 && (digits.len() - i) % 3 == 0 {
            out.push(',');
        }
        out.push(digit);
    }
    out
}

fn met(yes: bool) -> &'static str {
    if yes {
        "met"
    } else {
        "**missed**"
    }
}

fn targets(runs: &Runs) -> String {
    let forum = runs.forum.iter().find(|f| f.n == 65_536).expect("64 KiB are timed");
    let (original, cmark) = (forum.original / forum.carve, forum.cmark / forum.carve);
    let worst = |search: bool| {
        runs.hard
            .iter()
            .filter(|h| h.family.search == search)
            .max_by(|a, b| a.growth().total_cmp(&b.growth()))
            .expect("there are families of both kinds")
    };
    let (linear, search) = (worst(false), worst(true));
    format!(
        "| target | seen | |\n|---|---|---|\n\
         | forum-like post of 64 KiB: at least 100 times the Rust original | {} times | {} |\n\
         | forum-like post of 64 KiB: at least 4 times cmark | {} times | {} |\n\
         | every family but the line search: t(2n) / t(n) below 2.5 | at most {} ({}) | {} |\n\
         | the line search: t(2n) / t(n) below 4.5 | {} | {} |\n\n",
        short(original),
        met(original >= 100.0),
        short(cmark),
        met(cmark >= 4.0),
        short(linear.growth()),
        linear.family.name,
        met(linear.growth() < 2.5),
        short(search.growth()),
        met(search.growth() < 4.5),
    )
}

fn forum(runs: &Runs) -> String {
    let mut out = String::from(
        "### Forum-like posts\n\n| bytes | libcarve, ns a byte | Rust original / libcarve | cmark / libcarve | the same, calls in a row | libcarve / memcpy |\n|---:|---:|---:|---:|---:|---:|\n",
    );
    for f in &runs.forum {
        writeln!(
            out,
            "| {} | {} | {} | {} | {} | {} |",
            grouped(f.n as u64),
            short(f.carve / f.n as f64),
            short(f.original / f.carve),
            short(f.cmark / f.carve),
            short(f.in_a_row),
            short(f.carve / f.memcpy)
        )
        .expect("a String takes all");
    }
    out + "\n"
}

fn beside(b: &Beside) -> String {
    format!("{} | {} | {}", grouped(b.n as u64), short(b.its / b.carve), short(b.growth))
}

fn row(h: &Hard) -> String {
    format!(
        "| {} | {} | {} | {} | {} | {} | {} | {} |\n",
        h.family.name,
        h.number,
        short(h.carve[2] / MOST as f64),
        short(h.carve[1] / h.carve[0]),
        short(h.carve[2] / h.carve[1]),
        h.memcpy.map_or("".into(), |m| short(h.carve[2] / m)),
        beside(&h.original),
        beside(&h.cmark)
    )
}

fn hard(runs: &Runs) -> String {
    let mut out = String::from(
        "### Hard posts\n\n\
         | family | answer | ns a byte | t(128 Ki) / t(64 Ki) | t(256 Ki) / t(128 Ki) | libcarve / memcpy | original: bytes | original / libcarve | its growth | cmark: bytes | cmark / libcarve | its growth |\n\
         |---|---:|---:|---:|---:|---:|---:|---:|---:|---:|---:|---:|\n",
    );
    out.extend(runs.hard.iter().map(row));
    out + "\n"
}

fn shapes(runs: &Runs) -> String {
    let mut out = String::from("| family | its posts |\n|---|---|\n");
    for h in &runs.hard {
        writeln!(out, "| {} | {} |", h.family.name, h.family.shape).expect("a String takes all");
    }
    out + "\n"
}

pub fn of(runs: &Runs) -> String {
    ["\n", &targets(runs), &forum(runs), &hard(runs), &shapes(runs)].concat()
}
