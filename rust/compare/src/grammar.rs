//! Random posts: tags that nest, then cross and break.

use crate::pieces::Draws;

/// The 25 blanks of document 01 but CR, which no text may have.
pub const BLANKS: &[&str] = &[
    " ", "\t", "\n", "\u{b}", "\u{c}", "\u{85}", "\u{a0}", "\u{1680}", "\u{2000}", "\u{2001}", "\u{2002}", "\u{2003}", "\u{2004}", "\u{2005}",
    "\u{2006}", "\u{2007}", "\u{2008}", "\u{2009}", "\u{200a}", "\u{2028}", "\u{2029}", "\u{202f}", "\u{205f}", "\u{3000}",
];
/// Letters of each width, the long s and the Kelvin sign among them; U+200B and U+FEFF are not blank.
const LETTERS: &[&str] =
    &["a", "Z", "9", "é", "ſ", "ß", "\u{212a}", "中", "\u{200b}", "\u{feff}", "\u{fffd}", "\u{1f600}", "\u{10ffff}", "\u{7f}", "\u{1}"];
const WORDS: &[&str] =
    &["seed", "late", "x", "two words", "snake_case", "a/b", "1", "2.", "- dash", "> quoted", "^ caption", "[not a tag]", "[", "]"];
const SIGNS: &[&str] = &["*", "/", "_", "~", "=", "{", "}", "\\", "\\\\", "#", "@", ":", "\"", "'", ";", ">", "^", "-", ".", ")"];
const MASKS: &[(&str, &str)] = &[
    ("[code]", "[/code]"),
    ("[code=x y]", "[/CODE]"),
    ("[c]", "[/c]"),
    ("[icode]", "[/icode]"),
    ("[C]", "[/icode]"),
    ("[noparse]", "[/noparse]"),
    ("[noparſe]", "[/noparſe]"),
    ("[code=", "[/code]"),
];
const LIST_VALUES: &[&str] = &["", "", "", "=1", "=1", "= 1", "=1\u{2003}", "=\u{a0}1 ", "=a", "=", "=01", "=1 1", "=\n1", "=[list]", "=[b]1[/b]"];
const STRAY: &[&str] = &[
    "[/b]",
    "[/i]",
    "[/u]",
    "[/s]",
    "[/quote]",
    "[/list]",
    "[*]",
    "[b]",
    "[u]",
    "[quote]",
    "[list]",
    "[/code]",
    "[code]",
    "[quote=",
    "[quote ",
    "[list=",
    "[liſt]",
    "[ſ]",
    "[/ſ]",
    "[b ]",
    "[ b]",
    "[bb]",
    "[/ b]",
    "[*",
    "*]",
    "[quote\n]",
    "[quote\t=a]",
    "[quotes]",
    "[/quote",
    "[li",
    "st]",
];

const KEYS: &[&str] = &["name", "author", "post_id", "id", "date", "time", "k", "rank", "NAME", "Id", "Post_ID", "_a-1", "tíme", "9k"];
const VALUES: &[&str] = &[
    "Ann",
    "B",
    "7",
    "42",
    "007",
    "951782400",
    "99999999999",
    "12345678",
    "123456789012",
    "12:30",
    "d",
    "a=b",
    "x;7",
    "é",
    "ſ",
    ";",
    "a\\b",
    "[b]x[/b]",
    "\u{a0}",
    "",
];
const APART: &[&str] = &[" ", " ", " ", "  ", "\t", "\n", "\u{c}", "", "\u{b}", "\u{a0}", "\u{3000}"];

/// A part of an attribution: a field, a quoted text or a run, closed or not.
fn attribution_part(draws: &mut Draws) -> String {
    let value = draws.pick(VALUES);
    let other = draws.pick(VALUES);
    let key = draws.pick(KEYS);
    match draws.below(16) {
        0..=2 => format!("{key}={value}"),
        3 | 4 => format!("{key}=\"{value} {other}\""),
        5 => format!("{key}='{value}'"),
        6 => format!("{key}=\"{value}"),
        7 => format!("{key}=\"\""),
        8 => format!("\"{value}\""),
        9 => format!("'{value} {other}'"),
        10 => format!("\"{value}"),
        11 => format!("{value};{other}"),
        12 => "\"\"".to_string(),
        13 => format!(";{other}"),
        14 => format!("{value}\"{other}"),
        _ => value.to_string(),
    }
}

pub fn attribution(draws: &mut Draws) -> String {
    let mut out = String::new();
    for _ in 0..draws.below(6) {
        out.push_str(&attribution_part(draws));
        out.push_str(draws.pick(APART));
    }
    out
}

/// Around `;digits`: parts before it, what it follows in its own text, its digits or not quite digits, and what comes behind it.
const BEFORE: &[&str] = &[
    "\"42\" ",
    "'42'",
    "\"\" ",
    "name=N ",
    "author='A B' ",
    "NAME= ",
    "id=5 ",
    "Id=x ",
    "post_id=3 ",
    "date=d ",
    "time=951782400 ",
    "k=1 ",
    "a ",
    "\"b\" ",
    "é\u{a0}",
    "\n",
];
const NUMBERED: &[&str] = &["", "", "Ann", "Ann", "Rook", "x ", "x\n", "a b", "ſ", "7", ";", "Ann;7", "k=", "\"", "\u{b}"];
const NUMBERS: &[&str] = &["2", "7", "8", "42", "007", "951782400", "123456789012", "7a", "", "\u{663}"];
const BEHIND: &[&str] =
    &[" ", "\t", " id=8", " post_id=", " name=M", " date=d", " time=12:30", " rank=3", " \"3\"", " \"\"", " a", ";", ";8", "'", "\u{3000}"];

/// An attribution with `;digits`, or with what is not quite that: in a run or in quotes, once or twice, with other parts before and behind it.
pub fn numbered(draws: &mut Draws) -> String {
    let mut out = String::new();
    for _ in 0..draws.below(3) {
        out.push_str(draws.pick(BEFORE));
    }
    for _ in 0..1 + draws.below(4) / 3 {
        let (text, number) = (draws.pick(NUMBERED), draws.pick(NUMBERS));
        out.push_str(&match draws.below(6) {
            0 => format!("\"{text};{number}\""),
            1 => format!("'{text};{number}' "),
            _ => format!("{text};{number}"),
        });
    }
    for _ in 0..draws.below(5) / 2 {
        out.push_str(draws.pick(BEHIND));
    }
    out
}

/// A tag's letters in either case.
fn cased(draws: &mut Draws, tag: &str) -> String {
    match draws.below(6) {
        0 => tag.to_ascii_uppercase(),
        1 => tag.chars().map(|ch| if draws.below(2) == 0 { ch.to_ascii_uppercase() } else { ch }).collect(),
        _ => tag.to_string(),
    }
}

struct Growing<'a> {
    draws: &'a mut Draws,
    pieces: Vec<String>,
    /// How many more pieces may come.
    room: usize,
}

impl Growing<'_> {
    fn put(&mut self, piece: impl Into<String>) {
        self.pieces.push(piece.into());
        self.room = self.room.saturating_sub(1);
    }

    fn tag(&mut self, tag: &str) {
        let tag = cased(self.draws, tag);
        self.put(tag);
    }

    fn one_of(&mut self, pieces: &[&str]) {
        let piece = self.draws.pick(pieces);
        self.put(piece);
    }

    fn content(&mut self, depth: usize) {
        for _ in 0..1 + self.draws.below(5) {
            if self.room == 0 {
                return;
            }
            match self.draws.below(if depth == 0 { 11 } else { 20 }) {
                0..=3 => self.one_of(WORDS),
                4 => self.one_of(SIGNS),
                5 => self.one_of(LETTERS),
                6 => self.one_of(BLANKS),
                7 => self.put(" "),
                8 | 9 => self.put("\n"),
                10 => self.one_of(STRAY),
                11..=14 => {
                    let kind = self.draws.pick(&["b", "i", "u", "s"]);
                    self.tag(&format!("[{kind}]"));
                    self.content(depth - 1);
                    self.tag(&format!("[/{kind}]"));
                }
                15 | 16 => {
                    let attribution = attribution(self.draws).replace(']', "");
                    let opener = match self.draws.below(5) {
                        0 => "[quote]".to_string(),
                        1 => format!("[quote {attribution}]"),
                        _ => format!("[quote={attribution}]"),
                    };
                    self.put(opener);
                    self.content(depth - 1);
                    self.tag("[/quote]");
                }
                17 | 18 => {
                    let value = self.draws.pick(LIST_VALUES);
                    self.tag(&format!("[list{value}]"));
                    if self.draws.below(3) == 0 {
                        self.content(depth - 1);
                    }
                    for _ in 0..self.draws.below(4) {
                        self.put("[*]");
                        if self.draws.below(5) > 0 {
                            self.content(depth - 1);
                        }
                    }
                    self.tag("[/list]");
                }
                _ => {
                    let (open, close) = MASKS[self.draws.below(MASKS.len())];
                    self.tag(open);
                    self.content(depth - 1);
                    self.tag(close);
                }
            }
        }
    }

    /// Takes pieces out, doubles them, and exchanges them, so that tags cross and break.
    fn breaks(&mut self, times: usize) {
        for _ in 0..times {
            let many = self.pieces.len();
            if many < 2 {
                return;
            }
            let (at, other) = (self.draws.below(many), self.draws.below(many));
            match self.draws.below(5) {
                0 => drop(self.pieces.remove(at)),
                1 => self.pieces.insert(at, self.pieces[other].clone()),
                2 => self.pieces.swap(at, other),
                3 => self.pieces.swap(at, (at + 1) % many),
                _ => {
                    // Only a part of it is left.
                    let piece = &mut self.pieces[at];
                    let most = piece.chars().count();
                    *piece = piece.chars().take(self.draws.below(most + 1)).collect();
                }
            }
        }
    }
}

/// A post of at most about `room` pieces.
pub fn post(draws: &mut Draws, room: usize) -> String {
    let mut growing = Growing { draws, pieces: Vec::new(), room };
    while growing.room > 0 {
        let depth = 1 + growing.draws.below(5);
        growing.content(depth);
        if growing.draws.below(3) == 0 {
            break;
        }
    }
    let times = growing.draws.below(5).saturating_sub(1) * (1 + growing.pieces.len() / 20);
    growing.breaks(times);
    growing.pieces.concat()
}

/// A post of `size` bytes, or of up to three fewer where a character would be cut.
pub fn long(draws: &mut Draws, size: usize) -> String {
    let mut out = String::new();
    while out.len() < size {
        out.push_str(&post(draws, 400));
        out.push('\n');
        // What was left open would soon be too deep.
        out.push_str(&"[/quote]".repeat(draws.below(3)));
        out.push_str(&"[/list]".repeat(draws.below(3)));
    }
    let end = (0..=size.min(out.len())).rev().find(|&end| out.is_char_boundary(end)).unwrap_or(0);
    out.truncate(end);
    out
}

#[cfg(test)]
mod tests {
    use super::*;

    #[test]
    fn every_blank_is_one_and_there_are_25_with_cr() {
        assert!(BLANKS.iter().all(|blank| blank.chars().all(char::is_whitespace)));
        assert_eq!(BLANKS.len() + 1, (0..0x11_0000).filter_map(char::from_u32).filter(|ch| ch.is_whitespace()).count());
    }

    #[test]
    fn a_long_post_is_as_long_as_asked_for() {
        for size in [1, 1000, 262_144] {
            let text = long(&mut Draws::at(1, size as u64), size);
            assert!(text.len() <= size && text.len() + 3 >= size);
        }
    }

    #[test]
    fn most_long_posts_are_not_too_deep() {
        let deep = |number: u64| {
            let post = crate::model::post(&long(&mut Draws::at(2, number), 262_144).replace('ſ', "s"));
            post.quotes.too_deep || post.lists.too_deep
        };
        assert!((0..8).filter(|&number| deep(number)).count() <= 4);
    }
}
