//! Posts to time: forum-like ones, and families that are hard on a converter.

/// Draws by a linear congruential generator, so that every run times the same posts.
struct Draws(u64);

impl Draws {
    fn below(&mut self, n: usize) -> usize {
        self.0 = self.0.wrapping_mul(6364136223846793005).wrapping_add(1442695040888963407);
        (self.0 >> 33) as usize % n
    }

    fn of<'a>(&mut self, words: &[&'a str]) -> &'a str {
        words[self.below(words.len())]
    }
}

const WORDS: &[&str] = &[
    "the", "round", "pairing", "rating", "player", "board", "colour", "bye", "seed", "late", "estimate", "arbiter", "list", "import", "forum",
    "missing", "zero", "swiss", "system", "table", "result", "draw", "points", "score", "tie", "break", "half", "is", "of", "and", "to", "a",
];
const LETTERS: &[&str] = &["Größe", "naïve", "Łódź", "Ελλάδα", "東京", "señor", "—", "50 €"];

fn word(draws: &mut Draws, post: &mut String) {
    let plain = if draws.below(30) == 0 { draws.of(LETTERS) } else { draws.of(WORDS) };
    match draws.below(100) {
        0..=2 => post.extend(["[b]", plain, "[/b]"]),
        3..=4 => post.extend(["[i]", plain, "[/i]"]),
        5 => post.extend(["[u]", plain, " ", draws.of(WORDS), "[/u]"]),
        6 => post.extend(["[b]", plain, " [i]", draws.of(WORDS), "[/i][/b]"]),
        7 => post.extend(["[S]", plain, "[/S],"]),
        _ => post.push_str(plain),
    }
}

fn paragraph(draws: &mut Draws, post: &mut String) {
    for _ in 0..12 + draws.below(30) {
        word(draws, post);
        post.push(' ');
    }
    post.push_str(draws.of(&["end.\n", "end?\n", "so (1 * 2).\n", "C:\\dir.\n"]));
}

/// Every shape of an attribution, with fields that are lost among them.
fn attribution(draws: &mut Draws) -> String {
    let id = 1 + draws.below(99_999);
    match draws.below(9) {
        0 => String::new(),
        1 => "=Dora".into(),
        2 => format!("=Ann;{id}"),
        3 => format!("=\"Bert\" post_id={id}"),
        4 => format!(" name=Cleo date=2011-03-04 rank={id}"),
        5 => format!("=\"{id}\" Emil"),
        6 => format!(" author='Ida May' time={} id={id}", 1_200_000_000 + id),
        7 => format!("=Jörg Müller;{id}"),
        _ => format!("=Ann name=Kay guest x=\"{id}\""),
    }
}

fn quote(draws: &mut Draws, post: &mut String, depth: usize) {
    post.extend(["[quote", &attribution(draws), "]"]);
    if depth < 3 && draws.below(5) < 2 {
        quote(draws, post, depth + 1);
    }
    paragraph(draws, post);
    post.push_str("[/quote]\n");
}

fn list(draws: &mut Draws, post: &mut String, depth: usize) {
    post.push_str(draws.of(&["[list]\n", "[list=1]\n", "[LIST]\n"]));
    for _ in 0..2 + draws.below(5) {
        post.push_str("[*]");
        paragraph(draws, post);
        if depth < 2 && draws.below(6) == 0 {
            list(draws, post, depth + 1);
        }
    }
    post.push_str("[/list]\n");
}

/// A forum-like post of n bytes: paragraphs with marks, quotes with every attribution and quotes in them, lists, code, letters of more bytes.
pub fn forum(n: usize) -> Vec<u8> {
    let draws = &mut Draws(8);
    let mut post = String::new();
    while post.len() < n {
        match draws.below(20) {
            0..=4 => quote(draws, &mut post, 0),
            5..=6 => list(draws, &mut post, 0),
            7 => post.extend(["[code]if a[i] < 2 {\n  ", draws.of(WORDS), "[0] = 1;\n}[/code]\n"]),
            8 => post.extend(["Use [c]", draws.of(WORDS), "[/c] or [noparse][b]", draws.of(WORDS), "[/b][/noparse] here.\n"]),
            _ => paragraph(draws, &mut post),
        }
        post.push('\n');
    }
    cut(post, n)
}

/// The first n bytes, filled up with `x` where a character of more bytes would be cut.
fn cut(mut post: String, n: usize) -> Vec<u8> {
    let mut end = n;
    while !post.is_char_boundary(end) {
        end -= 1;
    }
    post.truncate(end);
    while post.len() < n {
        post.push('x');
    }
    post.into_bytes()
}

/// A family of posts, one for each length.
pub struct Family {
    pub name: &'static str,
    pub shape: &'static str,
    pub make: fn(usize) -> Vec<u8>,
    /// Quadratic by document 01's own rule: every quote is searched among all tags.
    pub search: bool,
}

/// A piece again and again.
fn again(piece: &str, n: usize) -> Vec<u8> {
    cut(piece.repeat(n / piece.len() + 1), n)
}

/// A quote that loses a field, so that the lines of the post are read, and then a piece again and again.
fn behind_a_loss(piece: &str, n: usize) -> Vec<u8> {
    cut(["[quote=k=][/quote]", &piece.repeat(n / piece.len() + 1)].concat(), n)
}

/// Blocks that open `depth` times and close as often.
fn nested(open: &str, inside: &str, close: &str, depth: usize, n: usize) -> Vec<u8> {
    again(&[&open.repeat(depth), inside, &close.repeat(depth)].concat(), n)
}

const fn family(name: &'static str, shape: &'static str, make: fn(usize) -> Vec<u8>) -> Family {
    Family { name, shape, make, search: false }
}

pub const FAMILIES: &[Family] = &[
    family("quote opener without ]", "`[quote=a ` again and again", |n| again("[quote=a ", n)),
    family("list opener without ]", "`[list=1 ` again and again", |n| again("[list=1 ", n)),
    family("code opener without ]", "`[quote=k=][/quote]`, then `[code=a ` again and again", |n| behind_a_loss("[code=a ", n)),
    family("quotes never closed", "`[quote]a` again and again", |n| again("[quote]a", n)),
    family("lists never closed", "`[list][*]a` again and again", |n| again("[list][*]a", n)),
    Family {
        name: "line search",
        shape: "`[quote=a[/b]xyz][/quote]`: no tag of the post has the attribution `axyz`, and all have its length",
        make: |n| again("[quote=a[/b]xyz][/quote]", n),
        search: true,
    },
    Family {
        name: "line search, one weight",
        shape:
            "`[quote=a[/b]NOO][/quote]`: no tag of the post has the attribution `aNOO`, and all, `a[/b`, have its length and the same sum of bytes",
        make: |n| again("[quote=a[/b]NOO][/quote]", n),
        search: true,
    },
    family("line search, one attribution", "`[quote=Ann rank=3]a[/quote]` again and again: each tag is found at once", |n| {
        again("[quote=Ann rank=3]a[/quote]", n)
    }),
    family("quotes 64 deep", "64 `[quote]`, a line, 64 `[/quote]`", |n| nested("[quote]", "a line\n", "[/quote]", 64, n)),
    family("lists 64 deep", "64 `[list][*]`, a line, 64 `[/list]`", |n| nested("[list][*]", "a line\n", "[/list]", 64, n)),
    family("lines in quotes 8 deep", "8 `[quote]`, then lines of one letter", |n| cut(["[quote]".repeat(8), "a\n".repeat(n / 2)].concat(), n)),
    family("one long attribution", "`[quote=` and words to the last byte, `]`", |n| {
        cut(["[quote=", &"ab ".repeat(n / 3), "]"].concat(), n - 1).into_iter().chain([b']']).collect()
    }),
    family("one attribution of fields", "`[quote=` and `x=1 ` again and again, `]`", |n| {
        cut(["[quote=", &"x=1 ".repeat(n / 4), "]"].concat(), n - 1).into_iter().chain([b']']).collect()
    }),
    family("one attribution of unnamed losses", "`[quote=name=N ` and `a \"b\" ` again and again, `]`", |n| {
        cut(["[quote=name=N ", &"a \"b\" ".repeat(n / 6), "]"].concat(), n - 1).into_iter().chain([b']']).collect()
    }),
    family("stray [/quote]", "`[/quote]` again and again", |n| again("[/quote]", n)),
    family("stray [/list] and [*]", "`[*][/list]` again and again", |n| again("[*][/list]", n)),
    family("marks never closed", "`[b]a[i]` again and again", |n| again("[b]a[i]", n)),
    family("marks of their own kind", "`[b]a` in one half, `[/b]` in the other", |n| {
        cut(["[b]a".repeat(n / 8), "[/b]".repeat(n / 8 + 1)].concat(), n)
    }),
    family("empty marks", "`[b][i][/i][/b]` again and again", |n| again("[b][i][/i][/b]", n)),
    family("empty marks, then text", "`[b]`, then `[i][/i]` again and again, `a[/b]`", |n| {
        cut(["[b]", &"[i][/i]".repeat(n / 7), "a[/b]"].concat(), n)
    }),
    family("marks of four kinds", "`[b][i][u][s]a[/s][/u][/i][/b]` again and again", |n| again("[b][i][u][s]a[/s][/u][/i][/b]", n)),
    family("braced marks", "`a[b]a[/b]` again and again: every mark takes braces", |n| again("a[b]a[/b]", n)),
    family("backslashes before a mark", "backslashes, `*[b]{[/b]`", |n| cut(["\\".repeat(n - 10), "*[b]{[/b]".into()].concat(), n)),
    family("backslashes between marks", "`\\\\*[b]\\\\{[/b]` again and again", |n| again("\\\\*[b]\\\\{[/b]", n)),
    family("code never closed", "`[quote=k=][/quote]`, then `[code]a` again and again", |n| behind_a_loss("[code]a", n)),
    family("code never opened", "`[quote=k=][/quote]`, then `[/code]a` again and again", |n| behind_a_loss("[/code]a", n)),
    family("masks of all kinds", "`[quote=k=][/quote]`, then `[code]a[/code][c]b[/icode][noparse]c[/noparse]` again and again", |n| {
        behind_a_loss("[code]a[/code][c]b[/icode][noparse]c[/noparse]", n)
    }),
    family("empty items", "`[list]`, then `[*]` again and again", |n| cut(["[list]", &"[*]".repeat(n / 3)].concat(), n)),
    family("lines of an item", "`[list=1][*]`, then lines of one letter", |n| cut(["[list=1][*]", &"a\n".repeat(n / 2)].concat(), n)),
    family("blanks", "`[list][*]`, then U+3000 again and again", |n| cut(["[list][*]", &"\u{3000}".repeat(n / 3)].concat(), n)),
    family("opening brackets", "`[` again and again", |n| again("[", n)),
    family("letters q", "`q` again and again", |n| again("q", n)),
    family("letters q behind a quote", "`[quote=k=][/quote]`, then `q` again and again", |n| behind_a_loss("q", n)),
    family("quote tags begun", "`[q[/q` again and again", |n| again("[q[/q", n)),
    family("line feeds in a quote", "`[quote]a`, then line feeds, then `a`", |n| cut(["[quote]a", &"\n".repeat(n - 9), "a"].concat(), n)),
];
