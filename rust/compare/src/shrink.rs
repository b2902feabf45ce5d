//! Shrinks a text that differs, chunk by chunk, while it still differs.

use std::time::{Duration, Instant};

/// The longest time that shrinking may take.
const MOST: Duration = Duration::from_secs(120);

pub fn shrink(text: &str, differs: impl Fn(&str) -> bool) -> String {
    let until = Instant::now() + MOST;
    let mut left: Vec<char> = text.chars().collect();
    let mut chunk = left.len() / 2;
    while chunk > 0 {
        let (mut at, mut shrunk) = (0, false);
        while at < left.len() && Instant::now() < until {
            let without: String = left[..at].iter().chain(&left[(at + chunk).min(left.len())..]).collect();
            if differs(&without) {
                left = without.chars().collect();
                shrunk = true;
            } else {
                at += chunk;
            }
        }
        if !(shrunk && chunk == 1) || Instant::now() >= until {
            chunk /= 2;
        }
    }
    left.into_iter().collect()
}

#[cfg(test)]
mod tests {
    use super::shrink;

    #[test]
    fn what_matters_stays() {
        let text = format!("{}[b]é{}[/b]{}", "x".repeat(500), "y".repeat(300), "z".repeat(77));
        assert_eq!(shrink(&text, |t| t.contains("[b]") && t.contains("[/b]")), "[b][/b]");
        assert_eq!(shrink("abc", |_| true), "");
    }
}
