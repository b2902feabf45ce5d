//! Document 01's attributions in plain Rust, with document 02's request 10/13: `;digits` stays where it stands. Where the original would split it off,
//! this reading stands in for it; everywhere else it has to be the original's.

/// A loss: the field's key, or the words themselves where it is unnamed; whether it is unnamed.
pub type Loss = (String, bool);

/// What an attribution comes to.
#[derive(Debug, Clone, PartialEq, Eq)]
pub struct Attribution {
    pub caption: String,
    pub losses: Vec<Loss>,
    /// Whether the original would split `;digits` off its texts.
    pub would_split: bool,
}

// ---- parts

#[derive(Clone, Copy)]
enum Part<'a> {
    Field { key: &'a str, value: &'a str },
    Text { text: &'a str, quoted: bool },
}

/// What parts the parts; other blanks do not.
fn is_space(ch: char) -> bool {
    matches!(ch, ' ' | '\t' | '\n' | '\r' | '\u{c}')
}

/// The key that a text begins with, and what stands behind its `=`.
fn key(text: &str) -> Option<(&str, &str)> {
    let end = text.find(|ch: char| !ch.is_ascii_alphanumeric() && ch != '_' && ch != '-')?;
    let (key, rest) = text.split_at(end);
    let begins = key.starts_with(|ch: char| ch.is_ascii_alphabetic() || ch == '_');
    rest.strip_prefix('=').filter(|_| begins).map(|behind| (key, behind))
}

/// What a text has in quotes at its start, and what stands behind them.
fn quoted(text: &str) -> Option<(&str, &str)> {
    let quote = text.chars().next().filter(|ch| matches!(ch, '"' | '\''))?;
    text[1..].split_once(quote)
}

/// A text up to its first space, and from there on.
fn run(text: &str) -> (&str, &str) {
    text.split_at(text.find(is_space).unwrap_or(text.len()))
}

fn parts(source: &str) -> Vec<Part<'_>> {
    let mut all = Vec::new();
    let mut rest = source.trim_start_matches(is_space);
    while !rest.is_empty() {
        let (part, behind) = if let Some((key, behind)) = key(rest) {
            let (value, behind) = quoted(behind).unwrap_or_else(|| run(behind));
            (Part::Field { key, value }, behind)
        } else if let Some((text, behind)) = quoted(rest) {
            (Part::Text { text, quoted: true }, behind)
        } else {
            let (text, behind) = run(rest);
            (Part::Text { text, quoted: false }, behind)
        };
        all.push(part);
        rest = behind.trim_start_matches(is_space);
    }
    all
}

// ---- fields

/// The keys of each kind, and whether its value is digits.
type Kind = (&'static [&'static str], bool);
const NAME: Kind = (&["name", "author"], false);
const POST_ID: Kind = (&["post_id"], true);
const ID: Kind = (&["id"], true);
const DATE: Kind = (&["date"], false);
const TIME: Kind = (&["time"], false);

fn all_digits(text: &str) -> bool {
    !text.is_empty() && text.bytes().all(|b| b.is_ascii_digit())
}

/// The first usable field of a kind: its index among the parts, and its value.
fn first_usable<'a>(parts: &[Part<'a>], (keys, digits): Kind) -> Option<(usize, &'a str)> {
    parts.iter().enumerate().find_map(|(index, part)| match *part {
        Part::Field { key, value } if keys.iter().any(|k| k.eq_ignore_ascii_case(key)) => {
            let usable = if digits { all_digits(value) } else { !value.is_empty() };
            usable.then_some((index, value))
        }
        _ => None,
    })
}

// ---- texts

/// A text that is not empty, with its index among the parts.
#[derive(Clone, Copy)]
struct Words<'a> {
    index: usize,
    text: &'a str,
    quoted: bool,
}

fn texts<'a>(parts: &[Part<'a>]) -> Vec<Words<'a>> {
    let words = |(index, part): (usize, &Part<'a>)| match *part {
        Part::Text { text, quoted } if !text.is_empty() => Some(Words { index, text, quoted }),
        _ => None,
    };
    parts.iter().enumerate().filter_map(words).collect()
}

fn joined(texts: &[Words]) -> String {
    texts.iter().map(|words| words.text).collect::<Vec<_>>().join(" ")
}

/// One or more characters, `;`, one or more digits to the end.
fn ends_in_a_number(joined: &str) -> bool {
    let before = joined.trim_end_matches(|ch: char| ch.is_ascii_digit());
    before.len() < joined.len() && before.len() > 1 && before.ends_with(';')
}

// ---- the whole

pub fn read(source: &str) -> Attribution {
    let parts = parts(source);
    let [name, post_id, id, date, time] = [NAME, POST_ID, ID, DATE, TIME].map(|kind| first_usable(&parts, kind));
    let mut texts = texts(&parts);
    let leading = texts.first().copied().filter(|words| words.index == 0 && words.quoted && all_digits(words.text));
    if leading.is_some() {
        texts.remove(0);
    }
    let day = time.and_then(|(_, seconds)| oracle::day(seconds));

    // What is passed over is lost, as every field is that the caption does not say.
    let id_field = post_id.or(id);
    let said = [name, id_field, if day.is_some() { None } else { date }, time];
    let is_said = |index: usize| said.iter().flatten().any(|field| field.0 == index);
    let mut losses: Vec<(usize, Loss)> = Vec::new();
    for (index, part) in parts.iter().enumerate() {
        match part {
            Part::Field { key, .. } if !is_said(index) => losses.push((index, (key.to_string(), false))),
            _ => {}
        }
    }
    if let (Some(words), Some(_)) = (leading, id_field) {
        losses.push((words.index, ("id".to_string(), false)));
    }
    if name.is_some() {
        let runs = texts.chunk_by(|a, b| !a.quoted && !b.quoted && a.index + 1 == b.index);
        losses.extend(runs.map(|run| (run[0].index, (joined(run), true))));
    }
    losses.sort_by_key(|loss| loss.0);

    let joined = joined(&texts);
    let number = id_field.map(|field| field.1).or(leading.map(|words| words.text));
    let would_split = number.is_none() && ends_in_a_number(&joined);
    let name = name.map_or(joined, |field| field.1.to_string());
    let date = match (day, date, time) {
        (Some(day), _, _) => Some(day),
        (None, Some((_, date)), Some((_, time))) => Some(format!("{date} {time}")),
        (None, date, time) => date.or(time).map(|field| field.1.to_string()),
    };
    let caption = [Some(name).filter(|name| !name.is_empty()), date.map(|date| format!("({date})")), number.map(|id| format!("#{id}"))];
    Attribution {
        caption: caption.into_iter().flatten().collect::<Vec<_>>().join(" "),
        losses: losses.into_iter().map(|loss| loss.1).collect(),
        would_split,
    }
}

/// The rule that stands in for the original, where it would split.
pub fn stands_in(source: &str) -> Option<oracle::Attribution> {
    let read = read(source);
    read.would_split.then_some((read.caption, read.losses))
}

#[cfg(test)]
mod tests {
    use super::*;

    const KEPT: bool = false;
    const SPLIT: bool = true;

    fn is(source: &str, caption: &str, losses: &[(&str, bool)], would_split: bool) {
        let losses = losses.iter().map(|&(field, unnamed)| (field.to_string(), unnamed)).collect();
        assert_eq!(read(source), Attribution { caption: caption.to_string(), losses, would_split }, "{source:?}");
    }

    #[test]
    fn a_number_behind_a_semicolon_stays() {
        is("Ann;7", "Ann;7", &[], SPLIT);
        is("x;7", "x;7", &[], SPLIT);
        is("Ann;7;8", "Ann;7;8", &[], SPLIT);
        is("x ;7", "x ;7", &[], SPLIT);
        is("a\n;7", "a ;7", &[], SPLIT);
        is("\"a\n;7\"", "a\n;7", &[], SPLIT);
        is("é;007 date=d", "é;007 (d)", &[], SPLIT);
        is("id=x a;7", "a;7", &[("id", false)], SPLIT);
        is("name=N x;7", "N", &[("x;7", true)], SPLIT);
        is("name=N x ;7", "N", &[("x ;7", true)], SPLIT);
        is("name=N \"x\" ;7", "N", &[("x", true), (";7", true)], SPLIT);
        is("x;7 name=N k= y;8", "N", &[("x;7", true), ("k", false), ("y;8", true)], SPLIT);
    }

    #[test]
    fn the_original_would_not_split_these() {
        is(";7", ";7", &[], KEPT);
        is("name=N ;7", "N", &[(";7", true)], KEPT);
        is("Rook;2 \"3\"", "Rook;2 3", &[], KEPT);
        is("\"42\" Ann;7", "Ann;7 #42", &[], KEPT);
        is("\"9\" x;8", "x;8 #9", &[], KEPT);
        is("id=5 x;7", "x;7 #5", &[], KEPT);
        is("post_id=5 name=N x;7", "N #5", &[("x;7", true)], KEPT);
        is("x;", "x;", &[], KEPT);
        is("x;7a", "x;7a", &[], KEPT);
        is("x7", "x7", &[], KEPT);
        is("x;\u{663}", "x;\u{663}", &[], KEPT);
        is("k=x;7", "", &[("k", false)], KEPT);
        is("name=x;7", "x;7", &[], KEPT);
    }

    #[test]
    fn positions_and_readings_of_document_01() {
        is("", "", &[], KEPT);
        is("\"42\" Ann", "Ann #42", &[], KEPT);
        is("name=Ann rank=3 guest", "Ann", &[("rank", false), ("guest", true)], KEPT);
        is("name=\"A\"b", "A", &[("b", true)], KEPT);
        is("k=\"a b", "b", &[("k", false)], KEPT);
        is("a=b=c", "", &[("a", false)], KEPT);
        is("id=x id=5", "#5", &[("id", false)], KEPT);
        is("name= author=B", "B", &[("name", false)], KEPT);
        is("\"\" \"4\"", "4", &[], KEPT);
        is("\"9\" post_id=1 id=2", "#1", &[("id", false), ("id", false)], KEPT);
        is("name=N a \"\" b", "N", &[("a", true), ("b", true)], KEPT);
        is("date=d time=12:30", "(d 12:30)", &[], KEPT);
        is("date=\"\" time=t", "(t)", &[("date", false)], KEPT);
        is("DATE=d Time=951782400", "(2000-02-29)", &[("DATE", false)], KEPT);
        is("a\u{b}b\u{a0}c d", "a\u{b}b\u{a0}c d", &[], KEPT);
        is("9k=a _k-1=b -k=c", "9k=a -k=c", &[("_k-1", false)], KEPT);
    }

    #[test]
    fn the_rule_has_an_answer_where_the_original_would_split() {
        assert_eq!(stands_in("Ann;7 k="), Some(("Ann;7".to_string(), vec![("k".to_string(), false)])));
        assert_eq!(stands_in("\"42\" Ann;7"), None);
    }
}
