//! A converted post with the way of every byte: copied, written by a rule, or taken out.

use carve::Converted;

#[derive(Clone, Copy, PartialEq, Eq)]
enum Way {
    Copied,
    Written,
    TakenOut,
}

/// How the ways are told apart.
#[derive(Clone, Copy, PartialEq, Eq)]
pub enum Style {
    /// Colours, for a terminal.
    Colour,
    /// Signs around what was not copied.
    Signs,
}

impl Style {
    fn around(self, way: Way) -> (&'static str, &'static str) {
        match (self, way) {
            (_, Way::Copied) => ("", ""),
            (Style::Colour, Way::Written) => ("\x1b[32m", "\x1b[0m"),
            (Style::Colour, Way::TakenOut) => ("\x1b[31;9m", "\x1b[0m"),
            (Style::Signs, Way::Written) => ("{+", "+}"),
            (Style::Signs, Way::TakenOut) => ("[-", "-]"),
        }
    }
}

/// The converted text with what was taken out shown where it stood, and a line that counts the bytes. A line feed that was taken out shows as `↵`.
pub fn explanation(post: &[u8], converted: &Converted, style: Style) -> String {
    let mut parts: Vec<(Way, Vec<u8>)> = Vec::new();
    let mut add = |way: Way, bytes: &[u8]| match parts.last_mut() {
        Some((last, part)) if *last == way => part.extend(bytes),
        _ => parts.push((way, bytes.to_vec())),
    };
    // Up to here the post is shown.
    let mut from = 0;
    for (at, byte) in converted.text.bytes().enumerate() {
        match converted.position(at) {
            None => add(Way::Written, &[byte]),
            Some(position) => {
                if from < position {
                    add(Way::TakenOut, &post[from..position]);
                }
                add(Way::Copied, &[byte]);
                from = position + 1;
            }
        }
    }
    if from < post.len() {
        add(Way::TakenOut, &post[from..]);
    }
    let mut out = String::new();
    for (way, part) in in_order(parts) {
        let (before, behind) = style.around(way);
        out.push_str(before);
        // A copied, written or left out part is whole characters.
        for ch in String::from_utf8_lossy(&part).chars() {
            match ch {
                '\n' if way == Way::TakenOut => out.push('↵'),
                '\n' if way == Way::Written && style == Style::Colour => out.push_str("↵\n"),
                '\n' | '\t' => out.push(ch),
                ch if ch.is_control() => out.extend(ch.escape_unicode()),
                ch => out.push(ch),
            }
        }
        out.push_str(behind);
    }
    if !out.ends_with('\n') {
        out.push('\n');
    }
    let copied = converted.copied();
    out.push_str(&format!(
        "-- {} bytes: {copied} copied, {} taken out; {} written\n",
        post.len(),
        post.len() - copied,
        converted.text.len() - copied
    ));
    out
}

/// What was taken out stands before what was written in its place.
fn in_order(mut parts: Vec<(Way, Vec<u8>)>) -> Vec<(Way, Vec<u8>)> {
    for i in 1..parts.len() {
        if parts[i - 1].0 == Way::Written && parts[i].0 == Way::TakenOut {
            parts.swap(i - 1, i);
        }
    }
    parts
}

#[cfg(test)]
mod tests {
    use super::*;
    use carve::Converter;

    fn shown(post: &str, style: Style) -> String {
        let converted = Converter::new().convert(post.as_bytes()).expect("converted");
        explanation(post.as_bytes(), &converted, style)
    }

    #[test]
    fn a_mark() {
        assert_eq!(shown("a [b]x[/b]", Style::Signs), "a [-[b]-]{+*+}x[-[/b]-]{+*+}\n-- 10 bytes: 3 copied, 7 taken out; 2 written\n");
        assert!(shown("a [b]x[/b]", Style::Colour).starts_with("a \x1b[31;9m[b]\x1b[0m\x1b[32m*\x1b[0mx"));
    }

    #[test]
    fn a_line_feed_in_a_quote_is_written_anew() {
        assert_eq!(
            shown("[quote]a\nb[/quote]", Style::Signs),
            "[-[quote]-]{+\n\n> +}a[-↵-]{+\n> +}b[-[/quote]-]{+\n\n+}\n-- 18 bytes: 2 copied, 16 taken out; 9 written\n"
        );
    }

    #[test]
    fn control_characters_do_not_reach_the_terminal() {
        assert!(shown("\x1b[2Jx", Style::Colour).starts_with("\\u{1b}[2Jx\n"));
    }

    #[test]
    fn signs_taken_away_give_the_text_and_the_post() {
        let post = "[quote=Ann;7 rank=3]Seed [b]late[/b][/quote] é [list][*]a[*] [/list]";
        let signed = shown(post, Style::Signs);
        let signed = &signed[..signed.rfind("-- ").expect("the counts")];
        let without = |text: &str, open: &str, close: &str, other: [&str; 2]| {
            let mut rest = text.to_string();
            while let Some(from) = rest.find(open) {
                let to = from + rest[from..].find(close).expect("a closing sign") + close.len();
                rest.replace_range(from..to, "");
            }
            other.iter().fold(rest, |rest, sign| rest.replace(sign, ""))
        };
        let text = Converter::new().convert(post.as_bytes()).expect("converted").text;
        assert_eq!(without(signed, "[-", "-]", ["{+", "+}"]).trim_end(), text.trim_end());
        assert_eq!(without(signed, "{+", "+}", ["[-", "-]"]).trim_end(), post);
    }
}
