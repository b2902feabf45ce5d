//! The texts that are compared, family by family.

use crate::grammar;
use crate::judge::Operation;
use crate::pieces::{self, sequence, sequences, Draws};
use crate::trial::WITH_LONGEST_OUTPUT;
use carve::MAX_TEXT;

/// What a family's texts count as.
#[derive(Debug, Clone, Copy, PartialEq, Eq)]
pub enum Sort {
    Short,
    Random,
    Long,
}

/// Texts with numbers from 0, each with the operations to try it on.
pub struct Family {
    pub name: String,
    pub sort: Sort,
    pub count: u64,
    pub make: Box<dyn Fn(u64) -> (Vec<Operation>, String) + Sync>,
}

/// How much is compared.
#[derive(Debug, Clone, Copy, PartialEq, Eq)]
pub enum Extent {
    /// A few minutes.
    Gate,
    Long,
}

const PASSES: [Operation; 4] = [Operation::POST, Operation::MARKS, Operation::QUOTES, Operation::LISTS];

/// Document 01's positions, and the texts by which it, and document 02's request 10/13, can be read in one way only.
pub const READINGS: &[&str] = &[
    WITH_LONGEST_OUTPUT,
    "",
    "a",
    "a[b]b[/b]",
    "[b][i]x[/b][/i]",
    "[b]x[b]y[/b]z[/b]",
    "[i][b]x[/b][/i]",
    "{[b]x[/b]}",
    "\\[/b]*[b]x[/b]",
    "[b]x{[/b]",
    "*[b][/b][i]x[/i]",
    "\\{[b]x[/b]}",
    "{[b]x[/b][/i]}",
    "[list][*]a[*][*]b[/list]",
    "[list=1][*]a[list][*]b[/list][/list]",
    "[list=]x[/list]",
    "[list][*][*]a",
    "[list]a[list]b",
    "[list][/list][list=1][*]a",
    "[list=[list]x",
    "[list] [*]  [list]",
    "[list][*]   [list]",
    "[/quote]x",
    "[quote]a\na[/quote]",
    "[quote][/quote]",
    "[quote=Ann;7 rank=3]Seed [b]late[/b][/quote]",
    "[quote][quote=\"x\u{a0}\"]a[/quote][/quote]",
    "[list][[b]]x[/b][/list]",
    "[list][[i]list][/i]",
    "[quote=[list=][/quote]1]x",
    "[li[/quote]st][*]a",
    "[quote=[b]x[/b]]",
    "[quote=[c]é[/c]][quote=        ]\n[quote= [i]x[/i] k=1]",
    "\"42\" Ann",
    ";7",
    "name=Ann rank=3 guest",
    "name=\"A\"b",
    "k=\"a b",
    "a=b=c",
    "id=x id=5",
    "name= author=B",
    "\"\" \"4\"",
    "\"9\" post_id=1 id=2",
    "Ann;7;8",
    "x ;7",
    "name=N x ;7",
    "name=N ;7",
    "name=N \"x\" ;7",
    "Rook;2 \"3\"",
    "\"42\" Ann;7",
    "id=x a;7",
    "x;",
    "x;7a",
    "name=N a \"\" b",
    "date=d time=12:30",
    "date=\"\" time=t",
    "951782400",
    "99999999999",
    "12345678",
];

/// Families that cost the original more than a constant for each byte, and others at a limit: a start, what is repeated, an end.
const REPEATED: &[(&str, &str, &str)] = &[
    ("", "[quote=", ""),
    ("", "[list=", ""),
    ("", "[code", ""),
    ("[code]", "x", ""),
    ("", "[code]", ""),
    ("[quote=k=]", "[code]x", "[/quote]\n[quote=k=]"),
    ("[quote=k=]", "[code]\n[/code][c]é[/icode][noparse]", "\n[quote=k=]"),
    ("[list]", "[*]", "[/list]"),
    ("[list][*]a", "[*]", "[/list]b"),
    ("[quote]", "x\n", "[/quote]"),
    ("", "[b]", ""),
    ("", "[/b]", ""),
    ("", "[b]x[/b]", ""),
    ("", "[b][/b]", "x"),
    ("", "[b][i][u][s]", "x[/s][/u][/i][/b]"),
    ("", "{[b]x[/b]}", ""),
    ("", "\\", "*[b]x[/b]"),
    ("", "[quote=k=1]x[/quote]", ""),
    ("", "[quote=\\a k=]x[/quote]\n", ""),
    ("[quote=name=N ", "a ", "]x"),
    ("[quote=", "k= ", "]x"),
    ("[quote=", "\"a\" ", ";7]x"),
    ("", "[list][*]x[/list]", ""),
    ("[list][*]", "[list][*]x[/list]", "[/list]"),
    ("[quote]", "\u{3000}", "x[/quote]"),
    ("[list][*]x", "\n", "y[/list]"),
    ("", "[c]x", "[/c]"),
    ("", "é", ""),
    ("[quote]", "q", "[/quote]"),
    ("[quote]", "[/q", "[/quote]"),
];

/// `size` bytes at most: the start, the unit as often as there is room, the end.
fn repeated(which: usize, size: usize) -> String {
    let (start, unit, end) = REPEATED[which];
    format!("{start}{}{end}", unit.repeat(size.saturating_sub(start.len() + end.len()) / unit.len()))
}

/// Openers in depths around the limit of 64, with lines in them and closers behind.
fn deep(draws: &mut Draws) -> String {
    let opener = draws.pick(&["[quote]", "[quote=A k=1]", "[list]", "[list][*]", "[list=1][*]", "[quote][list][*]"]);
    let depth = 60 + draws.below(7);
    let lines = "x\n".repeat(draws.below(30));
    let closer = if opener.contains("list") { "[/list]" } else { "[/quote]" };
    let closed = draws.below(depth + 3);
    let again = opener.repeat(draws.below(4));
    format!("{}{lines}{}{again}{lines}", opener.repeat(depth), closer.repeat(closed))
}

/// Many quotes in a row, with few attributions, many of which weigh the same. A quote in a mask is converted and has no tag, and one with a closer
/// inside has another attribution than its tag: the tag that they take may stand far behind.
fn many_quotes(draws: &mut Draws) -> String {
    const LETTERS: &[&str] = &["a", "b", "c", "d", "e", "f"];
    let mut out = String::new();
    for _ in 0..1 + draws.below(120) {
        let (one, other) = (draws.pick(LETTERS), draws.pick(LETTERS));
        let between = draws.pick(&["", "", "", "", "\\", "[/i]"]);
        let quote = format!("[quote={one}{between}{other} k=1]x[/quote]");
        out.push_str(&if draws.below(4) == 0 { format!("[c]{quote}[/c]") } else { quote });
        out.push_str(&"\n".repeat(draws.below(2)));
    }
    out
}

/// Quotes whose attributions have `;digits`, or not quite that, in lines of their own or one in the other.
fn numbered_quotes(draws: &mut Draws) -> String {
    let mut out = String::new();
    for _ in 0..1 + draws.below(4) {
        let sign = draws.pick(&["=", " "]);
        let content = draws.pick(&["x[/quote]\n", "x\n[/quote]", "\n"]);
        out.push_str(&format!("[quote{sign}{}]{content}", grammar::numbered(draws)));
    }
    out
}

fn exhaustive(operation: Operation, name: &str, pieces: &'static [&'static str], longest: u32) -> Family {
    Family {
        name: format!("{name}, up to {longest} of {} pieces", pieces.len()),
        sort: Sort::Short,
        count: sequences(pieces.len(), longest),
        make: Box::new(move |number| (vec![operation], sequence(pieces, number))),
    }
}

fn family(name: &str, sort: Sort, count: u64, make: impl Fn(u64) -> (Vec<Operation>, String) + Sync + 'static) -> Family {
    Family { name: name.to_string(), sort, count, make: Box::new(make) }
}

/// The first and the last second of each day that has 9 to 11 digits, in each of these widths.
fn days() -> Family {
    const LAST: u64 = 99_999_999_999 / 86_400;
    family("days, first and last second of each", Sort::Short, 2 * (LAST + 1), |number| {
        let second = ((number / 2) * 86_400 + (number % 2) * 86_399).min(99_999_999_999);
        let width = 9 + (number / 2 % 3) as usize;
        (vec![Operation::Day], format!("{second:0width$}"))
    })
}

pub fn families(extent: Extent, seed: u64) -> Vec<Family> {
    let long = extent == Extent::Long;
    let up_to = |gate: u32, many: u32| if long { many } else { gate };
    let times = |gate: u64, many: u64| if long { many } else { gate };
    let draws = move |family: u64, number: u64| Draws::at(seed.wrapping_add(family << 56), number);
    vec![
        family("readings of document 01", Sort::Short, READINGS.len() as u64, |number| {
            (Operation::ALL.to_vec(), READINGS[number as usize].to_string())
        }),
        exhaustive(Operation::MARKS, "marks", pieces::MARKS, up_to(5, 6)),
        exhaustive(Operation::MARKS, "marks of the other kinds", pieces::MARKS_OTHER, 5),
        exhaustive(Operation::QUOTES, "quotes", pieces::QUOTES, 5),
        exhaustive(Operation::QUOTES, "quotes that break", pieces::QUOTES_BROKEN, up_to(4, 5)),
        exhaustive(Operation::LISTS, "lists", pieces::LISTS, 6),
        exhaustive(Operation::LISTS, "list values", pieces::LISTS_VALUES, 5),
        exhaustive(Operation::ATTRIBUTION, "attributions", pieces::ATTRIBUTION, 5),
        exhaustive(Operation::ATTRIBUTION, "attributions, other parts", pieces::ATTRIBUTION_OTHER, up_to(4, 5)),
        exhaustive(Operation::POST, "posts", pieces::POST, 5),
        exhaustive(Operation::POST, "posts of joined tags", pieces::POST_JOINED, up_to(4, 5)),
        days(),
        family("random posts, all passes", Sort::Random, times(100_000, 300_000), move |number| {
            let mut draws = draws(1, number);
            let room = [6, 15, 40, 150][draws.below(4)];
            (PASSES.to_vec(), grammar::post(&mut draws, room))
        }),
        family("random attributions", Sort::Random, times(200_000, 1_000_000), move |number| {
            (vec![Operation::ATTRIBUTION], grammar::attribution(&mut draws(2, number)))
        }),
        family("random attributions with ;digits", Sort::Random, times(50_000, 300_000), move |number| {
            (vec![Operation::ATTRIBUTION], grammar::numbered(&mut draws(7, number)))
        }),
        family("random quotes with ;digits", Sort::Random, times(10_000, 60_000), move |number| {
            (vec![Operation::POST, Operation::QUOTES], numbered_quotes(&mut draws(8, number)))
        }),
        family("random depths around 64", Sort::Random, times(600, 3_000), move |number| (PASSES.to_vec(), deep(&mut draws(3, number)))),
        family("random quotes, many in a row", Sort::Random, times(1_000, 10_000), move |number| {
            (vec![Operation::POST, Operation::QUOTES], many_quotes(&mut draws(6, number)))
        }),
        family("random days", Sort::Random, times(20_000, 200_000), move |number| {
            let mut draws = draws(4, number);
            let text = (0..draws.below(14)).map(|_| draws.pick(&["0", "1", "9", "5", "7", "3", "0", "2", "8", "4"])).collect::<String>();
            (vec![Operation::Day], if draws.below(9) == 0 { text + draws.pick(&["a", " ", "-1", "é", "\0"]) } else { text })
        }),
        family("repeated units", Sort::Long, times(1, 2) * REPEATED.len() as u64, move |number| {
            let which = number as usize % REPEATED.len();
            let size = if (number as usize) < REPEATED.len() { 8_192 } else { 40_000 };
            (PASSES.to_vec(), repeated(which, size))
        }),
        family("long posts", Sort::Long, times(40, 120), move |number| {
            let mut draws = draws(5, number);
            let size = match number % 4 {
                0 => MAX_TEXT,
                1 => MAX_TEXT - draws.below(9),
                _ => 8_192 + draws.below(MAX_TEXT - 8_192),
            };
            let operation = PASSES[draws.below(4)];
            (if number % 4 == 0 { vec![Operation::POST] } else { vec![operation] }, grammar::long(&mut draws, size))
        }),
        family("texts one byte too long", Sort::Long, 5, move |number| {
            let operation = Operation::ALL[number as usize];
            (vec![operation], "a[b]".repeat(MAX_TEXT / 4) + "x")
        }),
    ]
}
