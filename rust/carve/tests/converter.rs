//! The converter with memory of its own: sizes tried upwards, losses, refusals.

use carve::{day, Converter, Loss, Refusal, MAX_TEXT};

#[test]
fn many_losses_with_long_fields_are_listed_whole() {
    let key = "k".repeat(300);
    let post: String = (0..200).map(|i| format!("[quote=name=N {key}{i}=v guest][/quote]\n")).collect();
    let losses = Converter::new().convert(post.as_bytes()).expect("converted").losses;
    assert_eq!(losses.len(), 400);
    for (i, pair) in losses.chunks_exact(2).enumerate() {
        let (quote, line) = (i as u32 + 1, i as u32 + 1);
        assert_eq!(pair[0], Loss { quote, line, unnamed: false, field: format!("{key}{i}") });
        assert_eq!(pair[1], Loss { quote, line, unnamed: true, field: "guest".into() });
    }
}

#[test]
fn a_text_that_grows_hundredfold_finds_its_space() {
    let post = format!("{}{}", "[quote]".repeat(60), "x\n".repeat(1000));
    let text = Converter::new().convert(post.as_bytes()).expect("converted").text;
    assert_eq!(text.lines().filter(|line| line.ends_with('x') && line.len() == 121).count(), 1000);
}

#[test]
fn memory_is_kept_and_leaves_nothing_behind() {
    let mut converter = Converter::new();
    let long = format!("[quote=k=]{}", "[b]word[/b] ".repeat(9000));
    let first = converter.convert(long.as_bytes()).expect("converted");
    let short = converter.convert(b"a").expect("converted");
    assert_eq!((short.text.as_str(), short.origins.as_slice(), short.losses.len()), ("a", &[1][..], 0));
    assert_eq!(converter.convert(long.as_bytes()), Ok(first));
}

#[test]
fn the_longest_text_is_taken() {
    let post = "[i]word[/i] ".repeat(MAX_TEXT / 12 + 1);
    let text = Converter::new().convert(&post.as_bytes()[..MAX_TEXT]).expect("converted").text;
    assert!(text.starts_with("/word/ /word/ "));
}

#[test]
fn each_refusal_has_its_number() {
    let mut converter = Converter::new();
    let mut number = |post: &[u8]| converter.convert(post).expect_err("refused").number();
    assert_eq!(number(&[b'a'; MAX_TEXT + 1]), 1);
    assert_eq!(number(b"\x80"), 3);
    assert_eq!(number(b"a\0"), 4);
    assert_eq!(number(&b"[quote]".repeat(65)), 5);
    assert_eq!(number(&b"[list]".repeat(65)), 5);
    // 64 quotes deep, a line of one letter takes 130 bytes.
    let wide = format!("{}{}", "[quote]".repeat(64), "x\n".repeat(130_000));
    assert_eq!(number(wide.as_bytes()), 6);
    assert_eq!(day(b"12345678"), Err(Refusal::NotSeconds));
    assert_eq!(day(b"99999999999"), Ok("5138-11-16".into()));
}

#[test]
fn numbers_and_refusals_are_one_to_one() {
    for (i, refusal) in Refusal::ALL.into_iter().enumerate() {
        assert_eq!(refusal.number() as usize, i + 1);
        assert_eq!(Refusal::from_number(refusal.number()), Some(refusal));
        assert!(!refusal.to_string().is_empty());
    }
    assert_eq!((Refusal::from_number(0), Refusal::from_number(10)), (None, None));
}

#[test]
fn a_single_attribution_has_no_quote_and_no_line() {
    let caption = Converter::new().attribution(b"\"9\" post_id=1 id=2").expect("a caption");
    assert_eq!(caption.text, "#1");
    assert_eq!(caption.copied(), 0);
    let id = || Loss { quote: 0, line: 0, unnamed: false, field: "id".into() };
    assert_eq!(caption.losses, [id(), id()]);
}

#[test]
fn a_number_behind_a_semicolon_stays_where_it_stands() {
    let mut converter = Converter::new();
    let mut caption = |attribution: &[u8]| converter.attribution(attribution).map(|caption| (caption.text, caption.losses)).expect("a caption");
    for (attribution, text) in [
        ("Ann;7", "Ann;7"),
        ("Ann;7;8", "Ann;7;8"),
        (";7", ";7"),
        ("Rook;2 \"3\"", "Rook;2 3"),
        ("\"42\" Ann;7", "Ann;7 #42"),
        ("Ann;7 id=5", "Ann;7 #5"),
    ] {
        assert_eq!(caption(attribution.as_bytes()), (text.to_string(), vec![]));
    }
    let unnamed = |field: &str| Loss { quote: 0, line: 0, unnamed: true, field: field.into() };
    assert_eq!(caption(b"name=N x ;7"), ("N".to_string(), vec![unnamed("x ;7")]));
    assert_eq!(caption(b"name=N \"x\" ;7"), ("N".to_string(), vec![unnamed("x"), unnamed(";7")]));
}
