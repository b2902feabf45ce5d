//! The Rust original as the judge of the proved converter. What the original leans on and does not call here is stubbed.

/// Not called by the functions in use.
pub mod djot_migrate {
    pub struct HandledDelimiters;
    impl HandledDelimiters {
        pub const PLAIN: HandledDelimiters = HandledDelimiters;
    }
    pub fn escape_plain_carve_syntax(_: &str, _: HandledDelimiters) -> String {
        unreachable!("escape_text is left out")
    }
}

#[derive(Default)]
pub struct Options;
impl Options {
    pub fn with_positions(self, _: bool) -> Options {
        self
    }
}
pub struct Parsed;
pub fn parse_with_options(_: &str, _: &Options) -> Parsed {
    unreachable!("repair_unwritten_constructs is left out")
}
pub fn to_json(_: &Parsed) -> String {
    unreachable!("repair_unwritten_constructs is left out")
}

/// `regex::Match::len`, which Debian's regex does not have yet.
pub trait MatchLength {
    fn len(&self) -> usize;
}
impl MatchLength for regex::Match<'_> {
    fn len(&self) -> usize {
        self.end() - self.start()
    }
}

include!(concat!(env!("OUT_DIR"), "/original.rs"));

pub use bbcode_migrate::access::*;
pub use regex::keep as keep_patterns;

#[cfg(test)]
mod tests {
    use super::*;

    const THREAD: &str = "[quote=Ann;7 rank=3]Seed [b]late[/b][/quote]";

    #[test]
    fn positions_of_document_01() {
        for (input, output) in [
            ("a[b]b[/b]", "a{*b*}"),
            ("[b][i]x[/b][/i]", "[b]/x/"),
            ("[b]x[b]y[/b]z[/b]", "*xyz*"),
            ("[i][b]x[/b][/i]", "{/*x*/}"),
            ("{[b]x[/b]}", "{*x*\\}"),
            ("\\[/b]*[b]x[/b]", "\\\\*{*x*}"),
            ("[b]x{[/b]", "*x\\{*"),
        ] {
            assert_eq!(marks(input).0, output, "{input}");
        }
        assert_eq!(lists("[list][*]a[*][*]b[/list]"), "\n\n- a\n\n- b\n\n");
        assert_eq!(lists("[list=1][*]a[list][*]b[/list][/list]"), "\n\n1. a\n   - b\n\n");
        assert_eq!(lists("[list=]x[/list]"), "[list=]x[/list]");
        assert_eq!(quotes("[/quote]x", "[/quote]x", NO_RULE).0, "x");
        assert_eq!(attribution("\"42\" Ann").0, "Ann #42");
        assert_eq!(attribution(";7").0, ";7");
        assert_eq!(day("951782400").as_deref(), Some("2000-02-29"));
        let (text, losses) = post(THREAD, NO_RULE);
        assert_eq!(text, "\n\n> Seed *late*\n^ Ann #7\n\n");
        assert_eq!(losses, [Loss { quote: 1, line: 1, unnamed: false, field: "rank".into() }]);
    }

    /// The original splits `;digits` off, where document 02's request 10/13 has it stay.
    #[test]
    fn the_original_splits_semicolon_numbers() {
        let unnamed = |field: &str| vec![(field.to_string(), true)];
        assert_eq!(attribution("x;7"), ("x #7".into(), vec![]));
        assert_eq!(attribution("Ann;7;8"), ("Ann;7 #8".into(), vec![]));
        assert_eq!(attribution("name=N x;7"), ("N #7".into(), unnamed("x")));
        assert_eq!(attribution("name=N x ;7"), ("N #7".into(), unnamed("x ")));
        assert_eq!(attribution("name=N ;7"), ("N".into(), unnamed(";7")));
    }

    #[test]
    fn a_rule_stands_in_where_it_has_an_answer() {
        let rule: Rule = |source| (source == "Ann;7 rank=3").then(|| ("Ann;7".into(), vec![("k".into(), true)]));
        let (text, losses) = post(&format!("{THREAD}\n[quote=Bo;8 rank=3]"), rule);
        assert_eq!(text, "\n\n> Seed *late*\n^ Ann;7\n\n\n\n\n>\n^ Bo #8\n\n");
        let loss = |quote, unnamed, field: &str| Loss { quote, line: quote, unnamed, field: field.into() };
        assert_eq!(losses, [loss(1, true, "k"), loss(2, false, "rank")]);
        // Only for that call, and never where the original alone is asked.
        assert_eq!(post(THREAD, NO_RULE).0, "\n\n> Seed *late*\n^ Ann #7\n\n");
        assert_eq!(attribution("Ann;7 rank=3").0, "Ann #7");
    }
}
