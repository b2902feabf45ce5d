
#[allow(unused_imports)]
use crate::MatchLength as _;

thread_local! {
    static RULE: std::cell::Cell<access::Rule> = const { std::cell::Cell::new(access::NO_RULE) };
}

/// What the original's functions call by this name: the rule's answer where it has one, else the original's.
fn format_attribution_with_losses(source: &str) -> access::Attribution {
    RULE.get()(source).unwrap_or_else(|| original_format_attribution_with_losses(source))
}

/// What document 01's operations answer, by the original's functions.
pub mod access {
    use super::*;

    /// Caption and losses (field, unnamed) of an attribution.
    pub type Attribution = (String, Vec<(String, bool)>);

    /// What a caller puts in the original's place on an attribution; nothing where the original answers.
    pub type Rule = fn(&str) -> Option<Attribution>;

    /// The original answers on every attribution.
    pub const NO_RULE: Rule = |_| None;

    /// A call in which the rule holds.
    fn by<T>(rule: Rule, call: impl FnOnce() -> T) -> T {
        RULE.set(rule);
        let result = call();
        RULE.set(NO_RULE);
        result
    }

    /// Marks without `repair_unwritten_constructs`: text and spans.
    pub fn marks(text: &str) -> (String, Vec<(usize, usize)>) {
        let (arena, root) = parse_marks(text);
        let slots = flatten_same_kind(arena, root);
        let written = write_marks(&slots, 0, None, None);
        (written.text, written.marks)
    }

    /// A loss: quote number from 1, line, unnamed, field.
    #[derive(Debug, Clone, PartialEq, Eq)]
    pub struct Loss {
        pub quote: usize,
        pub line: usize,
        pub unnamed: bool,
        pub field: String,
    }

    /// Quotes of a text, by the rule, with the lines of `original`.
    pub fn quotes(text: &str, original: &str, rule: Rule) -> (String, Vec<Loss>) {
        let (converted, drops) = by(rule, || convert_quotes(text.to_string()));
        let numbers: Vec<usize> = drops
            .iter()
            .enumerate()
            .flat_map(|(k, (_, fields))| std::iter::repeat(k + 1).take(fields.len()))
            .collect();
        let losses = locate_quote_drops(original, drops)
            .into_iter()
            .zip(numbers)
            .map(|(drop, quote)| Loss { quote, line: drop.line, unnamed: drop.unnamed, field: drop.field })
            .collect();
        (converted, losses)
    }

    pub fn lists(text: &str) -> String {
        convert_lists(text.to_string())
    }

    /// An attribution, by the original alone.
    pub fn attribution(source: &str) -> Attribution {
        original_format_attribution_with_losses(source)
    }

    pub fn day(digits: &str) -> Option<String> {
        unix_seconds_date(digits)
    }

    /// The whole post, by the rule: marks, quotes, lists.
    pub fn post(text: &str, rule: Rule) -> (String, Vec<Loss>) {
        let (quoted, losses) = quotes(&marks(text).0, text, rule);
        (lists(&quoted), losses)
    }
}
