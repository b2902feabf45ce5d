//! What a call takes, counted without a clock by valgrind: instructions, and the cache lines that a simulated second cache fetches. Neither depends on
//! the caches of the machine that counts, nor on what runs beside it.

use crate::{
    cmark,
    lent::Lent,
    posts,
    runs::LENGTHS,
    table::{grouped, short},
};
use std::{env, hint::black_box, process::Command};

/// The simulated caches: a first one of 48 KiB and a second one of 2 MiB, with lines of 64 bytes.
const CACHES: [&str; 2] = ["--D1=49152,12,64", "--LL=2097152,16,64"];
const LINE: f64 = 64.0;

/// The contenders, and the post that is no family's, as `calls` is asked for them.
const LIBCARVE: &str = "libcarve";
const CMARK: &str = "cmark";
const FORUM: &str = "forum-like";

/// The forum-like post, or a family's.
fn post(name: &str, n: usize) -> Option<Vec<u8>> {
    if name == FORUM {
        return Some(posts::forum(n));
    }
    let family = posts::FAMILIES.iter().find(|family| family.name == name)?;
    Some((family.make)(n))
}

/// Makes so many calls of a contender on a post; the proved converter's stand behind those that find out how much memory to lend.
pub fn calls(contender: &str, name: &str, n: usize, times: usize) -> Option<()> {
    let post = post(name, n)?;
    match contender {
        LIBCARVE => {
            let mut lent = Lent::for_post(&post);
            for _ in 0..times {
                black_box(lent.convert(black_box(&post)));
            }
        }
        CMARK => {
            for _ in 0..times {
                cmark::convert(black_box(&post));
            }
        }
        _ => return None,
    }
    Some(())
}

/// The number behind a word of valgrind's summary.
fn number(summary: &str, word: &str) -> f64 {
    let digits: String = summary
        .split_once(word)
        .unwrap_or_else(|| panic!("valgrind says nothing of {word:?}: {summary}"))
        .1
        .trim_start()
        .chars()
        .take_while(|c| c.is_ascii_digit() || *c == ',')
        .filter(char::is_ascii_digit)
        .collect();
    digits.parse().expect("a number")
}

/// Instructions, and bytes of the lines fetched, of a run with so many calls.
fn of_run(contender: &str, name: &str, n: usize, times: usize) -> [f64; 2] {
    let output = Command::new("valgrind")
        .args(["--tool=cachegrind", "--cache-sim=yes", "--cachegrind-out-file=/dev/null"])
        .args(CACHES)
        .arg(env::current_exe().expect("this program has a path"))
        .args(["calls", contender, name, &n.to_string(), &times.to_string()])
        .output()
        .expect("valgrind can be run");
    let summary = String::from_utf8_lossy(&output.stderr);
    [number(&summary, "I   refs:"), LINE * number(&summary, "LLd misses:")]
}

/// The same of one call, for a byte of the post: two calls more are counted, and halved.
fn of_call(contender: &str, name: &str, n: usize) -> [f64; 2] {
    let [few, more] = [1, 3].map(|times| of_run(contender, name, n, times));
    [0, 1].map(|k| (more[k] - few[k]) / 2.0 / n as f64)
}

/// Prints the instructions of both contenders on the forum-like post.
fn forum() {
    let n = 65_536;
    let [carve, cmark] = [LIBCARVE, CMARK].map(|contender| of_call(contender, FORUM, n)[0]);
    println!("| forum-like post, bytes | libcarve, instructions a byte | cmark, instructions a byte | cmark / libcarve |");
    println!("|---:|---:|---:|---:|");
    println!("| {} | {carve:.1} | {cmark:.1} | {} |", grouped(n as u64), short(cmark / carve));
}

/// Prints all families but the line search's, which is quadratic by its rule.
fn families() {
    println!("| family | instructions a byte at 64, 128, 256 KiB | | | bytes fetched a byte at 64, 128, 256 KiB | | |");
    println!("|---|---:|---:|---:|---:|---:|---:|");
    for family in posts::FAMILIES.iter().filter(|family| !family.search) {
        let [a, b, c] = LENGTHS.map(|n| of_call(LIBCARVE, family.name, n));
        println!("| {} | {:.1} | {:.1} | {:.1} | {:.1} | {:.1} | {:.1} |", family.name, a[0], b[0], c[0], a[1], b[1], c[1]);
    }
}

/// Prints both tables.
pub fn tables() {
    forum();
    println!();
    families();
}
