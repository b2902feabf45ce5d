//! The cases that the program `replay` replays (crates/replay/data/cases): what each shows, its post, and the listing that `thread` has to print of
//! it. Text and losses are the original's, with the model's reading of an attribution that the original would split; `copied` is the model's, a
//! refusal's number is document 01's by what `thread` lends.

use crate::families::READINGS;
use crate::grammar::{self, BLANKS};
use crate::judge::{Answer, Operation, Sizes};
use crate::model;
use crate::pieces::{self, sequence, sequences, Draws};
use std::collections::{BTreeSet, HashSet};
use std::fmt::Write;

/// The longest post that `thread` takes.
const POST_MOST: usize = 1024;
/// What it lends: output bytes, loss records, loss bytes.
const LENT: (usize, usize, usize) = (2048, 64, 1024);
const SEED: u64 = 20_261_115;

/// Further posts that document 01 or a reading of it is shown by, each with what it shows.
const POSTS: &[(&str, &str)] = &[
    ("an empty item still counts", "[list=1][*]a[*][*]b[/list]"),
    ("tags in either case", "[B]x[/b][QUOTE=A]y[/Quote][LIST=1][*]z[/List]"),
    ("the long s is an ordinary letter", "[ſ]x[/ſ][liſt][*]a[/liſt]"),
    ("the long s is an ordinary letter in a mask", "[noparſe][quote=k=]x[/noparſe]\n[quote=k=]y"),
    ("an unclosed outer mark does not count for merging", "[b]x[i]y[b]z[/b][/i]"),
    ("a mark merges at any depth", "[b]x[i]y[b]z[/b][/i][/b]"),
    ("an empty mark writes nothing", "a[b][i][/i][/b]b"),
    ("all four kinds", "[b]a[/b] [i]b[/i] [u]c[/u] [s]d[/s]"),
    ("underlining behind # @ :", "#[u]x[/u] @[u]y[/u] :[u]z[/u]"),
    ("italics and underlining behind /", "/[i]x[/i] /[u]y[/u] /[b]z[/b]"),
    ("LF behind [quote is text", "[quote\n=a]x[/quote]"),
    ("a tab behind [quote is text", "[quote\ta]x[/quote]"),
    ("an opener with no ] behind is text", "[quote=a"),
    ("an attribution with line feeds", "[quote=a\nk=1\nb]x[/quote]"),
    ("the attribution behind a space", "[quote name=Ann id=7 k=]x[/quote]"),
    ("blanks that part nothing", "[quote=a\u{b}b c\u{a0}d k=\u{3000}1]x[/quote]"),
    ("blanks that part", "[quote=a\tb\nc\u{c}d e]x[/quote]"),
    ("a key as spelled", "[quote=RANK=3 _a-1=x]y[/quote]"),
    ("kinds of fields in either case", "[quote=AUTHOR=Ann Post_ID=7 Date=d]y[/quote]"),
    ("ids that are passed over", "[quote=id=1 post_id=2 id=3]x[/quote]"),
    ("a day replaces the date", "[quote=date=d time=951782400]x[/quote]"),
    ("12 digits are no day", "[quote=time=123456789012]x[/quote]"),
    ("8 digits are no day", "[quote=time=12345678]x[/quote]"),
    ("9 digits", "[quote=time=000000000]x[/quote]"),
    ("a number behind a semicolon stays in the name", "[quote=Rook;2]x[/quote]"),
    ("a number behind a semicolon stays in the name, before a date", "[quote=Rook;2 date=d]x[/quote]"),
    ("a number behind a semicolon stays in the name, in quotes", "[quote=\"Rook II;2\"]x[/quote]"),
    ("a number behind a semicolon stays in the name, behind a line feed", "[quote=a\n;7]x[/quote]"),
    ("a number behind a semicolon stays in the unnamed loss", "[quote=name=N k= x;7]x[/quote]"),
    ("a second quote of one attribution takes the next tag", "[quote=k=1]a[/quote]\n[quote=k=1]b[/quote]"),
    ("a quote without losses moves on too", "[quote=a]x[/quote]\n[quote=a]y[/quote]\n[quote=a k=1]z[/quote]"),
    ("a search that fails does not move on", "[quote= [i]x[/i] k=1]a[/quote]\n[quote= [i]y[/i] k=2]b[/quote]"),
    ("a quote in code has no line", "[code][quote=k=1]x[/code]\n[quote=k=1]y"),
    ("a code with a value", "[code=x y][quote=k=1]x[/code]\n[quote=k=1]y"),
    ("a code with no closer hides nothing", "[code][quote=k=1]x\n[quote=k=1]y"),
    ("c to the closer of icode", "[c][quote=k=1]x[/icode]\n[quote=k=1]y"),
    ("noparse", "[noparse][quote=k=1]x[/noparse]\n[quote=k=1]y"),
    ("code is masked before noparse", "[noparse][code][/noparse][quote=k=1]\n[/code][quote=k=1]y"),
    ("no tag left", "[code][quote=k=1]x[/code]"),
    ("a list in a quote in a list", "[list][*]a[quote=A;7]b[list=1][*]c[/list][/quote][/list]"),
    ("lists alternate their markers", "[list][*]a[/list][list][*]b[/list][list=1][*]c[/list][list=1][*]d[/list]"),
    ("lists alternate anew under an item", "[list][*]a[list][*]b[/list][list][*]c[/list][*]d[list][*]e[/list][/list]"),
    ("continuation lines", "[list=1][*]a\nb\n\nc[/list]"),
    ("ten items", "[list=1][*]a[*]b[*]c[*]d[*]e[*]f[*]g[*]h[*]i[*]j\nk[/list]"),
    ("a lead", "[list]a \n b [*]c[/list]"),
    ("items and closers outside a list are text", "[*]a[/list]"),
    ("a list that is left open", "[list][*]a[list=1][*]b"),
    ("quotes that are left open", "[quote=A]a[quote=B]b"),
    ("line feeds outside are copied", "a\n\nb"),
    ("written signs make no new marks", "[b]*[/b][b]/[/b]"),
];

/// A case: what it shows, its post.
type Case = (String, Vec<u8>);

/// An attribution alone is shown by a quote, a number of seconds by its time.
fn readings() -> Vec<Case> {
    let mut all: Vec<Case> = Vec::new();
    let mut put = |shows: &str, post: String| all.push((shows.to_string(), post.into_bytes()));
    for text in READINGS {
        put("a position or reading", text.to_string());
        if !text.is_empty() && !text.contains('[') {
            put("a position or reading, as an attribution", format!("[quote={text}]x[/quote]"));
        }
        if text.bytes().all(|b| b.is_ascii_digit()) && !text.is_empty() {
            put("a position or reading, as a time", format!("[quote=time={text}]x[/quote]"));
        }
    }
    for (shows, post) in POSTS {
        put(shows, post.to_string());
    }
    // From 2000-03-01 on, each day before, at and behind the start of a month for a year.
    let mut day = 11_017;
    for length in [31, 30, 31, 30, 31, 31, 30, 31, 30, 31, 31, 28] {
        let times: String = [day - 1, day, day + 1].iter().map(|day| format!("[quote=time={}]x[/quote]", day * 86_400)).collect();
        put("days around the start of a month", times);
        day += length;
    }
    for blank in BLANKS {
        let name = format!("blank U+{:04X}", blank.chars().next().map_or(0, u32::from));
        put(&name, format!("[quote]{blank}a{blank}[/quote][list={blank}1{blank}][*]{blank}a{blank}[*]{blank}[/list]"));
    }
    put("U+200B and U+FEFF are not blank", "[quote]\u{200b}[/quote][list=\u{feff}1][*]\u{feff}[/list]".to_string());
    all
}

/// Posts at the limits of what `thread` lends, and behind them, with their numbers.
fn limits() -> Vec<(u32, Case)> {
    let mut all: Vec<(u32, Case)> = Vec::new();
    let mut put = |number: u32, shows: &str, post: &[u8]| all.push((number, (shows.to_string(), post.to_vec())));
    let many = |unit: &str, times: usize| unit.repeat(times);
    put(0, "1,024 bytes", many("a", 1024).as_bytes());
    put(1, "1,025 bytes", many("a", 1025).as_bytes());
    put(1, "too long, and not UTF-8", &[0xFF; 1025]);
    for (shows, bytes) in [
        ("a byte that is never UTF-8", &b"a\xFF"[..]),
        ("a byte that is never UTF-8, and a byte 0", b"\xFF\0"),
        ("a byte 0, and an end that is cut", b"\0\xE2\x82"),
        ("a byte that only goes on", b"\x80"),
        ("two bytes for one", b"\xC0\x80"),
        ("three bytes for two", b"\xE0\x9F\xBF"),
        ("four bytes for three", b"\xF0\x8F\xBF\xBF"),
        ("a surrogate", b"\xED\xA0\x80"),
        ("above U+10FFFF", b"\xF4\x90\x80\x80"),
        ("a character that is cut by a tag", b"\xC3[b]x[/b]"),
    ] {
        put(3, shows, bytes);
    }
    put(4, "a byte 0", b"a\0");
    put(4, "a byte 13", b"a\r\nb");
    put(0, "64 quotes are open", many("[quote]", 64).as_bytes());
    put(5, "65 quotes are open", many("[quote]", 65).as_bytes());
    put(5, "65 quotes are open, closed later", format!("{}{}", many("[quote]", 65), many("[/quote]", 65)).as_bytes());
    put(5, "65 quotes are open, and 65 losses", many("[quote=k=]", 65).as_bytes());
    put(0, "65 quotes, no more than 64 of them open", format!("{}[/quote][quote]", many("[quote]", 64)).as_bytes());
    put(0, "64 lists are open", many("[list]", 64).as_bytes());
    put(5, "65 lists are open", many("[list]", 65).as_bytes());
    put(5, "65 lists are open, by items", many("[list][*]", 65).as_bytes());
    put(0, "64 losses", format!("[quote={}]x", many("k= ", 64)).as_bytes());
    put(7, "65 losses", format!("[quote={}]x", many("k= ", 65)).as_bytes());
    put(7, "65 losses, in two quotes", format!("[quote={}]x[/quote][quote=k=]", many("k= ", 64)).as_bytes());
    put(0, "100 empty items are trimmed", format!("[list][*]a{}[/list]", many("[*]", 100)).as_bytes());
    put(0, "100 spaces are trimmed", format!("[quote]{}[/quote]", many(" ", 100)).as_bytes());
    let lined = |opener: &str, depth: usize, lines: usize| format!("{}{}", opener.repeat(depth), "x\n".repeat(lines));
    put(7, "65 losses, and too much output", format!("[quote={}]{}", many("k= ", 65), lined("[quote]", 60, 100)).as_bytes());
    put(6, "too much output in quotes", lined("[quote]", 60, 100).as_bytes());
    put(6, "too much output in quotes, and then 65 lists", format!("{}{}", many("[list]", 65), lined("[quote]", 60, 100)).as_bytes());
    put(6, "too much output in lists", lined("[list][*]", 50, 40).as_bytes());
    for (shows, opener) in [("quotes", "[quote]"), ("lists", "[list=1][*]")] {
        let inner = lined(opener, 20, 30);
        let need = Answer::of(Operation::POST, &inner).expect("one answer").need();
        let room = LENT.0.checked_sub(need).expect("less than is lent");
        put(0, &format!("2,048 bytes needed in {shows}"), format!("{}{inner}", many("a", room)).as_bytes());
        put(6, &format!("2,049 bytes needed in {shows}"), format!("{}{inner}", many("a", room + 1)).as_bytes());
    }
    all
}

/// A sign of a text, by what the rules look at.
fn sign(byte: u8, blank: bool) -> char {
    match byte {
        b'\n' => '↵',
        _ if blank => '␣',
        b'a'..=b'z' | b'A'..=b'Z' | b'0'..=b'9' => 'x',
        b'*' | b'/' | b'_' | b'~' | b'=' | b'{' | b'}' | b'\\' | b'[' | b']' => char::from(byte),
        b'#' | b'@' | b':' => '#',
        0x80.. => 'é',
        _ => '.',
    }
}

/// The neighbours in a row, where several of one sort are one.
fn neighbours(mut row: Vec<String>) -> Vec<(String, String)> {
    row.dedup();
    row.insert(0, "⊢".to_string());
    row.push("⊣".to_string());
    row.windows(2).map(|pair| (pair[0].clone(), pair[1].clone())).collect()
}

/// What a post shows: neighbours in its text, copied signs and written bytes (in ‹›); each consumed tag (in «») with its neighbours in the post; its
/// losses.
fn shown(post: &str, answer: &Answer) -> BTreeSet<String> {
    let text = model::cells_of(std::str::from_utf8(&answer.text).expect("a text"));
    let text = text.iter().zip(&answer.origins).map(|(c, &origin)| match (origin, c.byte) {
        (0, b'\n') => "‹↵›".to_string(),
        (0, byte) if byte.is_ascii_alphanumeric() || byte >= 128 => "‹x›".to_string(),
        (0, byte) => format!("‹{}›", char::from(byte)),
        _ => sign(c.byte, c.blank).to_string(),
    });
    let mut all: BTreeSet<String> = neighbours(text.collect()).into_iter().map(|(a, b)| format!("{a}{b} in the text")).collect();
    let consumed: HashSet<u32> = answer.taken.iter().flatten().map(|c| c.origin).collect();
    let copied: HashSet<u32> = answer.origins.iter().copied().collect();
    let mut row: Vec<String> = Vec::new();
    let mut tag = String::new();
    for c in &model::cells_of(post) {
        if !consumed.contains(&c.origin) {
            let kept = if copied.contains(&c.origin) { "kept" } else { "lost" };
            row.push(match c.byte {
                b'\n' => format!("LF {kept}"),
                _ if c.blank => format!("blank {kept}"),
                _ => "text".to_string(),
            });
            continue;
        }
        tag.push(if matches!(c.byte, b' '..=b'~') { char::from(c.byte.to_ascii_lowercase()) } else { sign(c.byte, c.blank) });
        if c.byte == b']' {
            let end = tag.find(['=', ' ']).map_or(tag.len(), |end| end + 1);
            row.push(match tag.as_str() {
                "[b]" | "[i]" | "[u]" | "[s]" => "«[mark]»".to_string(),
                "[/b]" | "[/i]" | "[/u]" | "[/s]" => "«[/mark]»".to_string(),
                _ => format!("«{}»", &tag[..end]),
            });
            tag.clear();
        }
    }
    let tags = neighbours(row).into_iter().filter(|(a, b)| a.contains('«') || b.contains('«'));
    all.extend(tags.map(|(a, b)| format!("{a}{b} in the post")));
    all.insert(format!("{} losses", answer.losses.len().min(4)));
    for (quote, line, unnamed, field) in &answer.losses {
        let field: Vec<char> = model::cells_of(field).iter().map(|c| sign(c.byte, c.blank)).collect();
        let ends: String = field.first().into_iter().chain(field.last()).collect();
        let sort = if *unnamed { "unnamed" } else { "named" };
        all.insert(format!("{sort} loss {ends}"));
        all.insert(format!("loss of quote {} in line {}", quote.min(&3), line.min(&3)));
    }
    all
}

/// Short posts: all sequences of a few pieces, and random ones; the shortest first.
fn candidates() -> Vec<String> {
    let mut all: Vec<String> = Vec::new();
    for alphabet in [
        pieces::MARKS,
        pieces::MARKS_OTHER,
        pieces::QUOTES,
        pieces::QUOTES_BROKEN,
        pieces::LISTS,
        pieces::LISTS_VALUES,
        pieces::POST,
        pieces::POST_JOINED,
    ] {
        all.extend((0..sequences(alphabet.len(), 4)).map(|number| sequence(alphabet, number)));
    }
    for alphabet in [pieces::ATTRIBUTION, pieces::ATTRIBUTION_OTHER] {
        all.extend((0..sequences(alphabet.len(), 4)).map(|number| format!("[quote={}]x[/quote]", sequence(alphabet, number))));
    }
    all.extend((0..5_000).map(|number| grammar::post(&mut Draws::at(SEED, number), 8)));
    all.retain(|post| post.len() <= 120);
    all.sort_by(|a, b| (a.len(), a).cmp(&(b.len(), b)));
    all.dedup();
    all
}

/// The candidates that show what none before them does, each with the first such thing.
fn chosen(before: &[Case]) -> Vec<Case> {
    let mut seen: HashSet<String> = HashSet::new();
    let mut all = Vec::new();
    let show = |post: &str| shown(post, &Answer::of(Operation::POST, post).expect("one answer"));
    for (_, post) in before {
        seen.extend(show(std::str::from_utf8(post).expect("a text")));
    }
    for post in candidates() {
        let new: Vec<String> = show(&post).into_iter().filter(|shown| !seen.contains(shown)).collect();
        if let Some(first) = new.first() {
            all.push((first.clone(), post.into_bytes()));
            seen.extend(new);
        }
    }
    all
}

/// Document 01's number for a post that `thread` reads.
fn number(post: &[u8], answer: &Answer) -> u32 {
    if post.len() > POST_MOST {
        return 1;
    }
    let (out, records, loss_bytes) = LENT;
    let sizes = Sizes::least(Operation::POST, POST_MOST, out, records, loss_bytes);
    answer.number(Operation::POST, post, &sizes)
}

fn escaped(bytes: &[u8]) -> Vec<u8> {
    bytes
        .iter()
        .flat_map(|&b| match b {
            b'\n' => b"\\n".to_vec(),
            b'\\' => b"\\\\".to_vec(),
            _ => vec![b],
        })
        .collect()
}

/// A post as one line: also what no text may have is spelled, as `\xNN`.
fn post_line(post: &[u8]) -> Vec<u8> {
    if std::str::from_utf8(post).is_ok() && !post.iter().any(|b| matches!(b, 0 | 13)) {
        return escaped(post);
    }
    post.iter().flat_map(|&b| if b < 32 || b >= 127 { format!("\\x{b:02x}").into_bytes() } else { escaped(&[b]) }).collect()
}

/// What `thread` has to print.
fn listing(post: &[u8]) -> (u32, Vec<u8>) {
    let answer = std::str::from_utf8(post).map_or_else(|_| Answer::refused(vec![]), |text| Answer::of(Operation::POST, text).expect("one answer"));
    let number = number(post, &answer);
    let mut out = format!("result={number}\n").into_bytes();
    if number == 0 {
        let (length, copied) = (answer.text.len(), answer.origins.iter().filter(|&&origin| origin != 0).count());
        let mut lines = String::new();
        _ = write!(lines, "length={length}\ncopied={copied}\nwritten={}\nlosses={}\n", length - copied, answer.losses.len());
        out.extend(lines.into_bytes());
        for (quote, line, unnamed, field) in &answer.losses {
            out.extend(format!("quote={quote}\nline={line}\nunnamed={}\nfield=", u32::from(*unnamed)).into_bytes());
            out.extend(escaped(field.as_bytes()));
            out.push(b'\n');
        }
        out.extend(b"text=");
        out.extend(escaped(&answer.text));
        out.push(b'\n');
    }
    (number, out)
}

/// How many cases there are, and the file of them.
pub fn file() -> (usize, Vec<u8>) {
    let readings = readings();
    let chosen = chosen(&readings);
    let said = [readings, chosen].concat().into_iter().map(|case| (0, case));
    let cases: Vec<(u32, Case)> = said.chain(limits()).collect();
    let mut out = Vec::new();
    for (expected, (shows, post)) in &cases {
        let (number, listing) = listing(post);
        assert_eq!(number, *expected, "{shows}");
        assert!(!shows.contains('\n'), "{shows:?} is one line");
        out.extend(format!("shows={shows}\npost=").into_bytes());
        out.extend(post_line(post));
        out.push(b'\n');
        out.extend(listing);
        out.push(b'\n');
    }
    (cases.len(), out)
}

#[cfg(test)]
mod tests {
    use super::*;

    const COMMITTED: &str = concat!(env!("CARGO_MANIFEST_DIR"), "/../../crates/replay");

    #[test]
    fn the_committed_cases_are_the_ones_made() {
        oracle::keep_patterns();
        let (count, made) = file();
        let read = |name: &str| std::fs::read(format!("{COMMITTED}/{name}")).expect("a committed file");
        assert!(read("data/cases") == made, "crates/replay/data/cases is not what `compare cases` writes");
        assert_eq!(String::from_utf8(read("stdout")), Ok(format!("cases={count}\nequal={count}\n")));
    }

    #[test]
    fn the_listing_of_document_01() {
        let (_, listing) = listing(b"[quote=Ann;7 rank=3]Seed [b]late[/b][/quote]");
        let expected =
            "result=0\nlength=25\ncopied=9\nwritten=16\nlosses=1\nquote=1\nline=1\nunnamed=0\nfield=rank\ntext=\\n\\n> Seed *late*\\n^ Ann;7\\n\\n\n";
        assert_eq!(String::from_utf8(listing), Ok(expected.to_string()));
    }
}
