//! Document 01's passes over cells in plain Rust: what is copied, written and consumed. It is compared with the original too, so that a
//! consumed byte is consumed by the rules and not by what was written.

use crate::attribution;

/// One byte of a text: its origin (1 + its position in the post, 0 for a byte that a rule wrote) and whether its character is blank.
#[derive(Clone, Copy, Debug, PartialEq, Eq)]
pub struct Cell {
    pub byte: u8,
    pub origin: u32,
    pub blank: bool,
}

pub type Text = Vec<Cell>;

fn cells(text: &str, mut origin: impl FnMut() -> u32) -> Text {
    let mut out = Text::new();
    for ch in text.chars() {
        let mut buffer = [0; 4];
        for &byte in ch.encode_utf8(&mut buffer).as_bytes() {
            out.push(Cell { byte, origin: origin(), blank: ch.is_whitespace() });
        }
    }
    out
}

/// A post's cells.
pub fn cells_of(post: &str) -> Text {
    let mut next = 0;
    cells(post, || {
        next += 1;
        next
    })
}

/// A text that a rule writes.
pub fn written(text: &str) -> Text {
    cells(text, || 0)
}

pub fn bytes(x: &[Cell]) -> Vec<u8> {
    x.iter().map(|c| c.byte).collect()
}

fn string(x: &[Cell]) -> String {
    String::from_utf8(bytes(x)).expect("a text of whole characters")
}

fn begins(x: &[Cell], word: &str) -> bool {
    x.len() >= word.len() && x.iter().zip(word.bytes()).all(|(c, b)| c.byte.to_ascii_lowercase() == b)
}

/// Of each place the first `]` at it or behind it.
fn brackets(x: &[Cell]) -> Vec<Option<usize>> {
    let mut found = None;
    let mut out: Vec<Option<usize>> = x
        .iter()
        .enumerate()
        .rev()
        .map(|(i, c)| {
            found = if c.byte == b']' { Some(i) } else { found };
            found
        })
        .collect();
    out.reverse();
    out
}

fn trim_end(x: &[Cell]) -> &[Cell] {
    let end = x.iter().rposition(|c| !c.blank).map_or(0, |i| i + 1);
    &x[..end]
}

fn trim(x: &[Cell]) -> &[Cell] {
    let x = trim_end(x);
    let start = x.iter().position(|c| !c.blank).unwrap_or(x.len());
    &x[start..]
}

fn lines(x: &[Cell]) -> Vec<Text> {
    let mut out: Vec<Text> = x.split(|c| c.byte == b'\n').map(<[Cell]>::to_vec).collect();
    if out.last().is_some_and(Vec::is_empty) {
        out.pop();
    }
    out
}

fn joined(lines: &[Text]) -> Text {
    let mut out = Text::new();
    for (i, line) in lines.iter().enumerate() {
        if i > 0 {
            out.extend(written("\n"));
        }
        out.extend(line);
    }
    out
}

/// What a pass writes, the cells that it takes out, and its need.
#[derive(Default)]
pub struct Pass {
    pub text: Text,
    pub taken: Text,
    pub need: usize,
    pub too_deep: bool,
    /// The attributions of its openers, as they stand there.
    pub attributions: Vec<String>,
}

// ---- marks

enum Item {
    Text(Text),
    Mark(u8, Vec<Item>),
}

fn mark_tag(x: &[Cell]) -> Option<(bool, u8, usize)> {
    let at = |i: usize| x.get(i).map_or(0, |c| c.byte.to_ascii_lowercase());
    let kind = |b: u8| matches!(b, b'b' | b'i' | b'u' | b's');
    if at(0) == b'[' && kind(at(1)) && at(2) == b']' {
        Some((true, at(1), 3))
    } else if at(0) == b'[' && at(1) == b'/' && kind(at(2)) && at(3) == b']' {
        Some((false, at(2), 4))
    } else {
        None
    }
}

struct Frame {
    kind: u8,
    tag: Text,
    items: Vec<Item>,
}

fn parse(x: &[Cell], taken: &mut Text) -> Vec<Item> {
    let mut frames = vec![Frame { kind: 0, tag: Text::new(), items: Vec::new() }];
    let mut openers: Vec<Text> = Vec::new();
    let (mut i, mut from) = (0, 0);
    while i < x.len() {
        let Some((opens, kind, size)) = mark_tag(&x[i..]) else {
            i += 1;
            continue;
        };
        let top = frames.last_mut().expect("the root");
        top.items.push(Item::Text(x[from..i].to_vec()));
        let tag = x[i..i + size].to_vec();
        if opens {
            frames.push(Frame { kind, tag, items: Vec::new() });
        } else {
            if top.kind == kind {
                let frame = frames.pop().expect("an open mark");
                openers.push(frame.tag);
                frames.last_mut().expect("the root").items.push(Item::Mark(frame.kind, frame.items));
            }
            taken.extend(&tag);
        }
        i += size;
        from = i;
    }
    frames.last_mut().expect("the root").items.push(Item::Text(x[from..].to_vec()));
    taken.extend(openers.iter().flatten());
    taken.sort_by_key(|c| c.origin);
    // An opener that is never closed is text, and what follows it belongs to the outermost slot.
    let mut items = Vec::new();
    for (depth, frame) in frames.into_iter().enumerate() {
        if depth > 0 {
            items.push(Item::Text(frame.tag));
        }
        items.extend(frame.items);
    }
    items
}

fn merge(items: Vec<Item>, open: &mut Vec<u8>) -> Vec<Item> {
    let mut out = Vec::new();
    for item in items {
        match item {
            Item::Text(t) => out.push(Item::Text(t)),
            Item::Mark(kind, inside) if open.contains(&kind) => out.extend(merge(inside, open)),
            Item::Mark(kind, inside) => {
                open.push(kind);
                let inside = merge(inside, open);
                open.pop();
                out.push(Item::Mark(kind, inside));
            }
        }
    }
    out
}

fn content(items: &[Item]) -> bool {
    items.iter().any(|item| match item {
        Item::Text(t) => !t.is_empty(),
        Item::Mark(_, inside) => content(inside),
    })
}

fn is_word(b: Option<u8>) -> bool {
    b.is_some_and(|b| b.is_ascii_alphanumeric() || b == b'_')
}

fn is_space(b: u8) -> bool {
    matches!(b, b' ' | b'\t' | b'\r' | b'\n')
}

/// Puts a backslash before the last byte of a piece, if an even number of backslashes precedes it there.
fn escape_last(x: &mut Text) {
    let last = x.len() - 1;
    let run = x[..last].iter().rev().take_while(|c| c.byte == b'\\').count();
    if run % 2 == 0 {
        x.insert(last, written("\\")[0]);
    }
}

fn write(items: &[Item], spans: &mut Vec<(usize, usize)>, at: usize) -> Text {
    let mut out = Text::new();
    let mut guarded = false;
    // Of each item what is written next: whether it is a mark, and its first byte.
    let mut nexts = vec![None; items.len()];
    for (i, item) in items.iter().enumerate().skip(1).rev() {
        let first = match item {
            Item::Text(t) => t.first().map(|c| (false, c.byte)),
            Item::Mark(_, inside) => content(inside).then_some((true, b'{')),
        };
        nexts[i - 1] = first.or(nexts[i]);
    }
    for (item, next) in items.iter().zip(nexts) {
        match item {
            Item::Text(t) if t.is_empty() => {}
            Item::Text(t) => {
                let mut piece = t.clone();
                if next.is_some_and(|n| n.0) && b"*/_~=".contains(&t[t.len() - 1].byte) {
                    escape_last(&mut piece);
                }
                if guarded && t[0].byte == b'}' {
                    out.extend(written("\\"));
                }
                out.extend(piece);
                guarded = false;
            }
            Item::Mark(_, inside) if !content(inside) => {}
            Item::Mark(kind, inside) => {
                let d = match kind {
                    b'b' => b'*',
                    b'i' => b'/',
                    b'u' => b'_',
                    _ => b'~',
                };
                let before = out.last().map(|c| c.byte);
                let own = spans.len();
                spans.push((0, 0));
                let mut body = write(inside, spans, 0);
                let (first, last) = (body[0].byte, body[body.len() - 1].byte);
                let braced = is_space(first)
                    || is_space(last)
                    || first == d
                    || last == d
                    || is_word(before)
                    || is_word(next.map(|n| n.1))
                    || before == Some(d)
                    || (before == Some(b'/') && (d == b'/' || d == b'_'))
                    || (d == b'_' && before.is_some_and(|b| b"#@:".contains(&b)))
                    || (d == b'/' && first == b'*' && last == b'*');
                if last == b'{' {
                    escape_last(&mut body);
                }
                let (open, close) = if braced { (vec![b'{', d], vec![d, b'}']) } else { (vec![d], vec![d]) };
                let start = at + out.len();
                for span in &mut spans[own + 1..] {
                    span.0 += start + open.len();
                    span.1 += start + open.len();
                }
                let sign = |b: &u8| Cell { byte: *b, origin: 0, blank: false };
                out.extend(open.iter().map(sign));
                out.extend(body);
                out.extend(close.iter().map(sign));
                spans[own] = (start, at + out.len());
                guarded = !braced && before == Some(b'{');
            }
        }
    }
    out
}

pub fn marks(x: &[Cell]) -> (Pass, Vec<(usize, usize)>) {
    let mut taken = Text::new();
    let items = merge(parse(x, &mut taken), &mut Vec::new());
    let mut spans = Vec::new();
    let text = write(&items, &mut spans, 0);
    let need = text.len();
    (Pass { text, taken, need, ..Pass::default() }, spans)
}

// ---- quotes

/// The end of the opener at `i`, and where its attribution stands.
fn quote_opener(x: &[Cell], brackets: &[Option<usize>], i: usize) -> Option<(usize, std::ops::Range<usize>)> {
    if begins(&x[i..], "[quote]") {
        Some((i + 7, i..i))
    } else if begins(&x[i..], "[quote=") || begins(&x[i..], "[quote ") {
        brackets[i].map(|b| (b + 1, i + 7..b))
    } else {
        None
    }
}

fn quote_block(content: &[Cell], caption: &str) -> Text {
    let mut out = written("\n\n");
    let quoted: Vec<Text> = lines(trim(content))
        .iter()
        .map(|l| {
            let mut line = written(">");
            if !trim(l).is_empty() {
                line.extend(written(" "));
                line.extend(l);
            }
            line
        })
        .collect();
    out.extend(if quoted.is_empty() { written(">") } else { joined(&quoted) });
    if !caption.is_empty() {
        out.extend(written("\n^ "));
        out.extend(written(caption));
    }
    out.extend(written("\n\n"));
    out
}

pub fn quotes(x: &[Cell]) -> Pass {
    let brackets = brackets(x);
    let mut contents = vec![Text::new()];
    let mut captions: Vec<String> = Vec::new();
    let mut pass = Pass::default();
    // All open contents together.
    let mut held = 0;
    fn close(contents: &mut Vec<Text>, caption: &str) -> (usize, usize) {
        let content = contents.pop().expect("an open quote's content");
        let block = quote_block(&content, caption);
        contents.last_mut().expect("the outermost").extend(&block);
        (content.len(), block.len())
    }
    let mut i = 0;
    while i < x.len() {
        if let Some((end, attribution)) = quote_opener(x, &brackets, i) {
            pass.too_deep |= captions.len() >= 64;
            pass.taken.extend(&x[i..end]);
            let attribution = string(&x[attribution]);
            captions.push(attribution::read(&attribution).caption);
            pass.attributions.push(attribution);
            contents.push(Text::new());
            i = end;
        } else if begins(&x[i..], "[/quote]") {
            pass.taken.extend(&x[i..i + 8]);
            if let Some(caption) = captions.pop() {
                let (content, block) = close(&mut contents, &caption);
                held = held - content + block;
            }
            i += 8;
        } else {
            contents.last_mut().expect("the outermost").push(x[i]);
            held += 1;
            i += 1;
        }
        pass.need = pass.need.max(held);
    }
    while let Some(caption) = captions.pop() {
        let (content, block) = close(&mut contents, &caption);
        held = held - content + block;
        pass.need = pass.need.max(held);
    }
    pass.text = contents.pop().expect("the outermost");
    pass
}

// ---- lists

struct List {
    ordered: bool,
    second: bool,
    /// The lead, then the items; the last one is where text goes.
    parts: Vec<Text>,
    siblings: usize,
}

/// The size of the opener at `i`, and whether the list is ordered.
fn list_opener(x: &[Cell], brackets: &[Option<usize>], i: usize) -> Option<(usize, bool)> {
    if begins(&x[i..], "[list]") {
        return Some((6, false));
    }
    if !begins(&x[i..], "[list=") {
        return None;
    }
    let end = brackets[i]?;
    // A value has no more than one cell that is not blank, so that its first two tell.
    if x[i + 6..end].iter().filter(|c| !c.blank).take(2).count() != 1 {
        return None;
    }
    let value = trim(&x[i + 6..end]);
    (value.len() == 1 && value[0].byte == b'1').then_some((end + 1 - i, true))
}

fn trim_item(x: &[Cell]) -> Text {
    let trimmed: Vec<Text> = lines(x).iter().map(|l| trim_end(l).to_vec()).collect();
    trim(&joined(&trimmed)).to_vec()
}

fn list_block(list: &List) -> Text {
    let mut out = trim_item(&list.parts[0]);
    if !out.is_empty() {
        out.extend(written("\n"));
    }
    let items: Vec<Text> = list.parts[1..]
        .iter()
        .enumerate()
        .map(|(i, part)| {
            let marker = match (list.ordered, list.second) {
                (true, false) => format!("{}. ", i + 1),
                (true, true) => format!("{}) ", i + 1),
                (false, false) => "- ".to_string(),
                (false, true) => "* ".to_string(),
            };
            let item: Vec<Text> = lines(&trim_item(part))
                .into_iter()
                .enumerate()
                .map(|(k, line)| {
                    let mut text = if k == 0 {
                        written(&marker)
                    } else if line.is_empty() {
                        Text::new()
                    } else {
                        written(&" ".repeat(marker.len()))
                    };
                    text.extend(line);
                    text
                })
                .collect();
            joined(&item)
        })
        .collect();
    out.extend(joined(&items));
    trim_end(&out).to_vec()
}

pub fn lists(x: &[Cell]) -> Pass {
    let brackets = brackets(x);
    let mut root = Text::new();
    let mut root_lists = 0;
    let mut open: Vec<List> = Vec::new();
    let mut pass = Pass::default();
    // The outermost text and all parts of open lists together.
    let mut held = 0;
    fn close(root: &mut Text, open: &mut Vec<List>, held: &mut usize) {
        let list = open.pop().expect("an open list");
        *held -= list.parts.iter().map(Vec::len).sum::<usize>();
        let block = list_block(&list);
        let (into, before, behind) = match open.last_mut() {
            None => (root, "\n\n", "\n\n"),
            Some(parent) => {
                let is_item = parent.parts.len() > 1;
                let part = parent.parts.last_mut().expect("the lead");
                let parted = is_item && part.last().is_some_and(|c| c.byte != b'\n');
                (part, if parted { "\n" } else { "" }, "\n")
            }
        };
        let from = into.len();
        into.extend(written(before));
        into.extend(block);
        into.extend(written(behind));
        *held += into.len() - from;
    }
    let mut i = 0;
    while i < x.len() {
        let rest = &x[i..];
        if let Some((size, ordered)) = list_opener(x, &brackets, i) {
            pass.too_deep |= open.len() >= 64;
            let siblings = open.last_mut().map_or(&mut root_lists, |l| &mut l.siblings);
            let second = *siblings % 2 == 1;
            *siblings += 1;
            open.push(List { ordered, second, parts: vec![Text::new()], siblings: 0 });
            pass.taken.extend(&rest[..size]);
            i += size;
        } else if !open.is_empty() && begins(rest, "[*]") {
            let list = open.last_mut().expect("an open list");
            list.parts.push(Text::new());
            list.siblings = 0;
            pass.taken.extend(&rest[..3]);
            i += 3;
        } else if !open.is_empty() && begins(rest, "[/list]") {
            close(&mut root, &mut open, &mut held);
            pass.taken.extend(&rest[..7]);
            i += 7;
        } else {
            match open.last_mut() {
                None => root.push(x[i]),
                Some(list) => list.parts.last_mut().expect("the lead").push(x[i]),
            }
            held += 1;
            i += 1;
        }
        pass.need = pass.need.max(held);
    }
    while !open.is_empty() {
        close(&mut root, &mut open, &mut held);
        pass.need = pass.need.max(held);
    }
    pass.text = root;
    pass
}

/// A whole post: the three passes one behind the other, and all that they take out.
pub struct Post {
    pub marks: Pass,
    pub quotes: Pass,
    pub lists: Pass,
    pub taken: Text,
}

pub fn post(text: &str) -> Post {
    let (marks, _) = marks(&cells_of(text));
    let quotes = quotes(&marks.text);
    let lists = lists(&quotes.text);
    let taken = [&marks.taken, &quotes.taken, &lists.taken].into_iter().flatten().copied().collect();
    Post { marks, quotes, lists, taken }
}

/// Demand 3, cut by cut, of a text with its origins: at each cut copied bytes equal the post's, origins rise strictly, and every post byte that is not
/// blank, up to the last origin before the cut, is copied before the cut or consumed, never both; uncut this holds for the whole post.
///
/// One walk covers each cut. Origins rise, so that a byte behind a cut has a greater origin than all before it: what is copied before the cut, of the
/// bytes up to its last origin, is what is copied at all. The walk settles the bytes up to each origin when it comes to it, which is what the cut behind
/// that byte asks for beyond the cut before it; a cut behind a written byte asks for nothing new.
pub fn demand3(post: &str, text: &[u8], origins: &[u32], taken: &[Cell]) -> Result<(), String> {
    let bytes = post.as_bytes();
    let blank: Vec<bool> = cells_of(post).iter().map(|c| c.blank).collect();
    let mut consumed = vec![false; bytes.len() + 1];
    for c in taken {
        consumed[c.origin as usize] = true;
    }
    let settled = |p: usize, copied: bool| {
        if !blank[p] && copied == consumed[p + 1] {
            return Err(format!("post byte {p} is copied: {copied}, consumed: {}", consumed[p + 1]));
        }
        Ok(())
    };
    let mut last = 0;
    for (k, (&byte, &origin)) in text.iter().zip(origins).enumerate() {
        let origin = origin as usize;
        if origin == 0 {
            continue;
        }
        if bytes.get(origin - 1) != Some(&byte) {
            return Err(format!("byte {k} of the text is not the post's byte {}", origin - 1));
        }
        if origin <= last {
            return Err(format!("the origin of byte {k} of the text does not rise"));
        }
        (last..origin - 1).try_for_each(|p| settled(p, false))?;
        settled(origin - 1, true)?;
        last = origin;
    }
    (last..bytes.len()).try_for_each(|p| settled(p, false))
}
