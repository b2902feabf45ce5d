//! The operations over lent memory that is full of garbage: what they leave in it, refusals among them.

use carve::{numbers_size, spans_size, work_size, Lent, Operation, Record};

/// What a call leaves: document 01's number, the counts, and the lent slices whole.
struct Left {
    number: u32,
    counts: [u32; 3],
    out: Vec<u8>,
    origins: Vec<u32>,
    spans: Vec<u32>,
    records: Vec<Record>,
    loss_bytes: Vec<u8>,
}

/// Lends `m` output bytes, `records` records, `loss_bytes` loss bytes, and no more work memory than is asked for.
fn call_with(operation: Operation, text: &[u8], m: usize, records: usize, loss_bytes: usize) -> Left {
    const GARBAGE: u32 = 0xAAAA_AAAA;
    let record = Record { quote: GARBAGE, line: GARBAGE, unnamed: GARBAGE, start: GARBAGE, length: GARBAGE };
    let n = text.len();
    let mut left = Left {
        number: GARBAGE,
        counts: [GARBAGE; 3],
        out: vec![0xAA; m],
        origins: vec![GARBAGE; m],
        spans: vec![GARBAGE; spans_size(n)],
        records: vec![record; records],
        loss_bytes: vec![0xAA; loss_bytes],
    };
    left.number = Lent {
        out: &mut left.out,
        origins: &mut left.origins,
        spans: &mut left.spans,
        records: &mut left.records,
        loss_bytes: &mut left.loss_bytes,
        work: &mut vec![0xAA; work_size(n, m)],
        numbers: &mut vec![GARBAGE; numbers_size(n, m)],
        counts: &mut left.counts,
    }
    .call(operation, text);
    left
}

fn call(operation: Operation, text: &[u8], m: usize) -> Left {
    call_with(operation, text, m, 10, 64)
}

fn zero_behind(left: &Left) -> bool {
    let [length, losses, bytes] = left.counts.map(|count| count as usize);
    left.out[length..].iter().all(|&b| b == 0)
        && left.origins[length..].iter().all(|&o| o == 0)
        && left.records[losses..].iter().all(|&r| r == Record::default())
        && left.loss_bytes[bytes..].iter().all(|&b| b == 0)
}

#[test]
fn a_post_with_a_quote_a_mark_and_a_loss() {
    let text = b"[quote=Ann;7 rank=3]Seed [b]late[/b][/quote]";
    let left = call(Operation::Post, text, 256);
    assert_eq!((left.number, left.counts), (0, [25, 1, 4]));
    assert_eq!(&left.out[..25], b"\n\n> Seed *late*\n^ Ann;7\n\n");
    assert_eq!(left.records[0], Record { quote: 1, line: 1, unnamed: 0, start: 0, length: 4 });
    assert_eq!(&left.loss_bytes[..4], b"rank");
    assert!(zero_behind(&left));
    for (byte, origin) in left.out.iter().zip(&left.origins).filter(|(_, o)| **o != 0) {
        assert_eq!(*byte, text[*origin as usize - 1]);
    }
}

#[test]
fn a_post_with_a_list() {
    let left = call(Operation::Post, b"[list][*]a[*][i]b[/i][/list]", 256);
    assert_eq!((left.number, left.counts), (0, [13, 0, 0]));
    assert_eq!(&left.out[..13], b"\n\n- a\n- /b/\n\n");
    assert!(zero_behind(&left));
}

#[test]
fn a_refusal_leaves_zeros() {
    let loss = b"[quote=k=]";
    for (text, m, records, loss_bytes, number) in [
        (&[b'a'; 262_145][..], 9, 0, 0, 1),
        (b"\xFF", 9, 0, 0, 3),
        (b"a\r", 9, 0, 0, 4),
        (&b"[list]".repeat(65), 500, 0, 0, 5),
        (b"[quote=Ann]x[/quote]", 3, 0, 0, 6),
        (loss, 99, 0, 9, 7),
        (loss, 99, 1, 0, 8),
    ] {
        let left = call_with(Operation::Post, text, m, records, loss_bytes);
        assert_eq!((left.number, left.counts), (number, [0; 3]));
        assert!(zero_behind(&left));
    }
}

#[test]
fn a_size_one_short_is_2() {
    let (text, m) = (b"[b]x[/b]", 8);
    let n = text.len();
    for short in 0..4 {
        let size = |which: usize, size: usize| size - usize::from(short == which);
        let mut out = vec![1; m];
        let mut spans = vec![1; size(1, spans_size(n))];
        let mut counts = [1; 3];
        let number = Lent {
            out: &mut out,
            origins: &mut vec![1; size(0, m)],
            spans: &mut spans,
            records: &mut [],
            loss_bytes: &mut [],
            work: &mut vec![1; size(2, work_size(n, m))],
            numbers: &mut vec![1; size(3, numbers_size(n, m))],
            counts: &mut counts,
        }
        .call(Operation::Marks, text);
        assert_eq!((number, counts), (2, [0; 3]));
        assert!(out.iter().all(|&b| b == 0) && spans.iter().all(|&s| s == 0));
    }
}

#[test]
fn a_day() {
    let day = |text: &[u8], m| {
        let (mut out, mut counts) = (vec![0xAA; m], [7; 3]);
        (Lent::day(text, &mut out, &mut counts), counts, out)
    };
    assert_eq!(day(b"1700000000", 12), (0, [10, 0, 0], b"2023-11-14\0\0".to_vec()));
    assert_eq!(day(b"17", 10), (9, [0; 3], vec![0; 10]));
    assert_eq!(day(b"1700000000", 9), (2, [0; 3], vec![0; 9]));
}

#[test]
fn the_passes_alone() {
    let text = b"[quote=Ann;7 rank=3]Seed [b]late[/b][/quote]";
    let left = call(Operation::Quotes, text, 256);
    assert_eq!((left.number, left.counts), (0, [30, 1, 4]));
    assert_eq!(&left.out[..30], b"\n\n> Seed [b]late[/b]\n^ Ann;7\n\n");
    assert!(zero_behind(&left));
    let left = call_with(Operation::Lists, b"[list][*]a[*][i]b[/i][/list]", 64, 0, 0);
    assert_eq!((left.number, left.counts), (0, [18, 0, 0]));
    assert_eq!(&left.out[..18], b"\n\n- a\n- [i]b[/i]\n\n");
    assert!(zero_behind(&left));
    let left = call(Operation::Attribution, b"Ann;7 rank=3", 64);
    assert_eq!((left.number, left.counts), (0, [5, 1, 4]));
    assert_eq!(&left.out[..5], b"Ann;7");
    assert_eq!(left.records[0], Record { length: 4, ..Record::default() });
    assert!(zero_behind(&left) && left.origins.iter().all(|&o| o == 0));
    let left = call_with(Operation::Marks, b"a [b]x[/b]", 64, 0, 0);
    assert_eq!((left.number, left.counts), (0, [5, 1, 0]));
    assert_eq!(&left.out[..5], b"a *x*");
    assert_eq!(left.spans, [2, 5, 0, 0, 0, 0]);
}
