//! Times whole posts in one run: the proved converter, the Rust original, cmark and memcpy. Writes the table into the page that is named first
//! and the picture into the file that is named second. `count` counts instead, and prints two tables; it runs this program with `calls`.

mod cmark;
mod count;
mod lent;
mod picture;
mod posts;
mod runs;
mod table;
mod time;

use std::{env, fs, process::exit};

fn times(page: &str, picture: &str) {
    let before = fs::read_to_string(page).unwrap_or_else(|e| {
        eprintln!("bench: {page}: {e}");
        exit(2);
    });
    let runs = runs::all();
    let Some(after) = table::replaced(&before, &table::of(&runs)) else {
        eprintln!("bench: {page} has no place for the table, between {:?} and {:?}", table::BEGIN, table::END);
        exit(2);
    };
    fs::write(page, after).expect("the page can be written");
    fs::write(picture, picture::of(&runs)).expect("the picture can be written");
}

fn calls(contender: &str, name: &str, n: &str, times: &str) -> Option<()> {
    count::calls(contender, name, n.parse().ok()?, times.parse().ok()?)
}

fn main() {
    let arguments: Vec<String> = env::args().skip(1).collect();
    let understood = match arguments.iter().map(String::as_str).collect::<Vec<_>>()[..] {
        ["count"] => {
            count::tables();
            true
        }
        ["calls", contender, name, n, times] => calls(contender, name, n, times).is_some(),
        [page, picture] => {
            times(page, picture);
            true
        }
        _ => false,
    };
    if !understood {
        eprintln!("usage: bench PAGE.md PICTURE.svg | bench count | bench calls libcarve|cmark forum-like|FAMILY BYTES TIMES");
        exit(2);
    }
}
