//! What is timed, and what comes of it.

use crate::{
    cmark,
    lent::Lent,
    posts::{self, Family},
    time,
};
use std::{hint::black_box, time::Duration};

/// How much time the least of a contender's samples is looked for: longer than a neighbour on the machine disturbs most samples.
const EACH: Duration = Duration::from_millis(400);
/// In how many lots of memory a hard post is timed: one may be slower for all of its samples. All families are timed in one lot before the next, and half
/// of the lots come before the other contenders and half behind them, minutes later: what disturbs the machine for a while spoils a few lots only.
const LOTS: u32 = 6;
/// A contender that takes longer than a quarter of this for a post is not given a longer one.
const PATIENCE: Duration = Duration::from_millis(600);

pub const MOST: usize = 262_144;

/// Nanoseconds of one call on posts of one length.
pub struct Forum {
    pub n: usize,
    pub carve: f64,
    pub original: f64,
    pub cmark: f64,
    pub memcpy: f64,
    /// cmark's time by the proved converter's, where each makes its calls in a row.
    pub in_a_row: f64,
}

/// A contender on the longest post that it was given, beside the proved converter on the same one.
pub struct Beside {
    pub n: usize,
    pub its: f64,
    pub carve: f64,
    /// Its time for this length by its time for half of it.
    pub growth: f64,
}

pub struct Hard {
    pub family: &'static Family,
    pub number: u32,
    /// The proved converter at 65,536, 131,072 and 262,144 bytes.
    pub carve: [f64; 3],
    /// Copying the result's cells at 262,144 bytes, where there is a result.
    pub memcpy: Option<f64>,
    pub original: Beside,
    pub cmark: Beside,
}

impl Hard {
    /// The greater of the two growths.
    pub fn growth(&self) -> f64 {
        (self.carve[1] / self.carve[0]).max(self.carve[2] / self.carve[1])
    }
}

pub struct Runs {
    pub forum: Vec<Forum>,
    pub hard: Vec<Hard>,
}

fn string(post: &[u8]) -> &str {
    std::str::from_utf8(post).expect("posts are UTF-8")
}

/// Copies the cells of a result: its bytes and their origins.
fn copy(from: &Lent, to: &mut (Vec<u8>, Vec<u32>)) {
    let n = from.length();
    to.0[..n].copy_from_slice(&from.out[..n]);
    to.1[..n].copy_from_slice(&from.origins[..n]);
    black_box(to);
}

/// The Rust original must answer the same, but for attributions that it would split, or the times say nothing.
fn agree(name: &str, post: &[u8], lent: &mut Lent) {
    if lent.convert(post) == 0 {
        let (text, losses) = oracle::post(string(post), compare::attribution::stands_in);
        assert!(text.as_bytes() == &lent.out[..lent.length()], "{name}, {} bytes: the texts differ", post.len());
        assert!(losses.len() == lent.losses(), "{name}, {} bytes: the losses differ", post.len());
    }
}

fn forum(n: usize) -> Forum {
    let post = posts::forum(n);
    let mut lent = Lent::for_post(&post);
    agree("forum", &post, &mut lent);
    let mut cells = (vec![0; lent.out.len()], vec![0; lent.out.len()]);
    let mut result = Lent::for_post(&post);
    assert_eq!(result.convert(&post), 0, "a forum-like post is converted");
    let times = time::in_turns(
        EACH,
        &mut [
            &mut || {
                black_box(lent.convert(black_box(&post)));
            },
            &mut || cmark::convert(black_box(&post)),
        ],
    );
    let memcpy = time::in_turns(EACH, &mut [&mut || copy(black_box(&result), &mut cells)])[0];
    let row = time::in_a_row(
        EACH,
        &mut [
            &mut || {
                black_box(lent.convert(black_box(&post)));
            },
            &mut || cmark::convert(black_box(&post)),
        ],
    );
    let original = time::bounded(4 * PATIENCE, || {
        black_box(oracle::post(black_box(string(&post)), oracle::NO_RULE));
    });
    Forum { n, carve: times[0], cmark: times[1], memcpy, original, in_a_row: row[1] / row[0] }
}

/// Gives a contender posts of doubled length, up to the greatest, as long as it stays within `PATIENCE`.
fn beside(family: &Family, mut call: impl FnMut(&[u8])) -> Beside {
    let mut n = 1024;
    let mut half = f64::NAN;
    loop {
        let post = (family.make)(n);
        let its = time::bounded(PATIENCE, || call(black_box(&post)));
        if n == MOST || its > PATIENCE.as_nanos() as f64 / 4.0 {
            let mut lent = Lent::for_post(&post);
            let carve = time::in_turns(
                EACH / 2,
                &mut [&mut || {
                    black_box(lent.convert(black_box(&post)));
                }],
            )[0];
            return Beside { n, its, carve, growth: its / half };
        }
        (n, half) = (2 * n, its);
    }
}

pub const LENGTHS: [usize; 3] = [MOST / 4, MOST / 2, MOST];

/// Times the proved converter on posts of all families, in so many lots of memory; the least counts.
fn in_lots(lots: u32, least: &mut [[f64; 3]]) {
    for _ in 0..lots {
        for (family, least) in posts::FAMILIES.iter().zip(&mut *least) {
            let posts = LENGTHS.map(family.make);
            let [mut a, mut b, mut c] = posts.each_ref().map(|post| Lent::for_post(post));
            let times = time::in_turns_of_a_lot(
                EACH / 3,
                &mut [
                    &mut || {
                        black_box(a.convert(black_box(&posts[0])));
                    },
                    &mut || {
                        black_box(b.convert(black_box(&posts[1])));
                    },
                    &mut || {
                        black_box(c.convert(black_box(&posts[2])));
                    },
                ],
            );
            for (least, time) in least.iter_mut().zip(times) {
                *least = least.min(time);
            }
        }
    }
}

/// The other contenders on a family's posts; the proved converter's times come later.
fn hard(family: &'static Family) -> Hard {
    let post = (family.make)(MOST);
    let mut lent = Lent::for_post(&post);
    let number = lent.convert(&post);
    let mut cells = (vec![0; lent.out.len()], vec![0; lent.out.len()]);
    let memcpy = (number == 0).then(|| time::in_turns(EACH / 4, &mut [&mut || copy(black_box(&lent), &mut cells)])[0]);
    let short = (family.make)(4096);
    agree(family.name, &short, &mut Lent::for_post(&short));
    Hard {
        family,
        number,
        carve: [f64::INFINITY; 3],
        memcpy,
        original: beside(family, |post| {
            black_box(oracle::post(string(post), oracle::NO_RULE));
        }),
        cmark: beside(family, cmark::convert),
    }
}

/// All runs, with a line on standard error for each.
pub fn all() -> Runs {
    let forum: Vec<Forum> = [1024, 65_536, MOST].map(forum).into_iter().collect();
    for f in &forum {
        eprintln!(
            "forum-like, {} bytes: {:.2} ns a byte, {:.0} times the original, {:.2} times cmark ({:.2} in a row)",
            f.n,
            f.carve / f.n as f64,
            f.original / f.carve,
            f.cmark / f.carve,
            f.in_a_row
        );
    }
    let mut least = vec![[f64::INFINITY; 3]; posts::FAMILIES.len()];
    in_lots(LOTS / 2, &mut least);
    let mut hard: Vec<Hard> = posts::FAMILIES
        .iter()
        .map(|family| {
            eprintln!("{}, the other contenders", family.name);
            hard(family)
        })
        .collect();
    in_lots(LOTS - LOTS / 2, &mut least);
    for (h, least) in hard.iter_mut().zip(least) {
        h.carve = least;
        eprintln!("{}: answer {}, {:.2} ns a byte, growth {:.2}", h.family.name, h.number, h.carve[2] / MOST as f64, h.growth());
    }
    Runs { forum, hard }
}
