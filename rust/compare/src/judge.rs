//! What document 01 has an operation answer on a text: text, spans, captions, losses and lines by the original, origins, consumed bytes and needs by
//! the model, refusals by the lent sizes. On an attribution that the original would split the model stands in for it (document 02, request 10/13).

use crate::attribution::{self, Attribution};
use crate::model::{self, Cell, Pass};
use carve::{numbers_size, spans_size, work_size, MAX_OUT, MAX_TEXT};

/// An operation of document 01.
#[derive(Debug, Clone, Copy, PartialEq, Eq, Hash)]
pub enum Operation {
    OnText(carve::Operation),
    Day,
}

impl Operation {
    pub const POST: Operation = Operation::OnText(carve::Operation::Post);
    pub const MARKS: Operation = Operation::OnText(carve::Operation::Marks);
    pub const QUOTES: Operation = Operation::OnText(carve::Operation::Quotes);
    pub const LISTS: Operation = Operation::OnText(carve::Operation::Lists);
    pub const ATTRIBUTION: Operation = Operation::OnText(carve::Operation::Attribution);
    pub const ALL: [Operation; 6] = [Operation::POST, Operation::MARKS, Operation::QUOTES, Operation::LISTS, Operation::ATTRIBUTION, Operation::Day];

    pub fn name(self) -> &'static str {
        match self {
            Operation::POST => "post",
            Operation::MARKS => "marks",
            Operation::QUOTES => "quotes",
            Operation::LISTS => "lists",
            Operation::ATTRIBUTION => "attribution",
            Operation::Day => "day",
        }
    }

    pub fn lent_spans(self) -> bool {
        self == Operation::MARKS
    }

    pub fn lent_records(self) -> bool {
        matches!(self, Operation::POST | Operation::QUOTES | Operation::ATTRIBUTION)
    }
}

/// The sizes of what is lent.
#[derive(Debug, Clone, Copy, PartialEq, Eq, Default)]
pub struct Sizes {
    pub out: usize,
    pub origins: usize,
    pub spans: usize,
    pub records: usize,
    pub loss_bytes: usize,
    pub work: usize,
    pub numbers: usize,
}

impl Sizes {
    /// No more than document 01 asks for, with an output of `m` bytes for a text of `n`. Nothing but an output is lent for a day.
    pub fn least(operation: Operation, n: usize, m: usize, losses: usize, loss_bytes: usize) -> Sizes {
        let (with_spans, with_records) = (operation.lent_spans(), operation.lent_records());
        let given = |lent: bool, size: usize| if lent { size } else { 0 };
        let on_text = operation != Operation::Day;
        Sizes {
            out: m,
            origins: given(on_text, m),
            spans: given(with_spans, spans_size(n)),
            records: given(with_records, losses),
            loss_bytes: given(with_records, loss_bytes),
            work: given(on_text, work_size(n, m)),
            numbers: given(on_text, numbers_size(n, m)),
        }
    }

    /// Whether refusal 2 does not come.
    fn right(&self, operation: Operation, n: usize) -> bool {
        if operation == Operation::Day {
            return self.out >= 10;
        }
        let least = Sizes::least(operation, n, self.out, 0, 0);
        self.out <= MAX_OUT && self.origins >= least.origins && self.spans >= least.spans && self.work >= least.work && self.numbers >= least.numbers
    }
}

/// A loss: quote, line, unnamed, field.
pub type Loss = (u32, u32, bool, String);

/// What may turn a call back once the text and the sizes are in order, in document 01's order.
#[derive(Debug, Clone, Copy, PartialEq, Eq)]
pub enum Step {
    /// Refusal 5, whatever is lent.
    TooDeep,
    /// Refusal 7 with fewer records.
    Losses,
    /// Refusal 8 with fewer loss bytes.
    LossBytes,
    /// Refusal 6 with a shorter output.
    Need(usize),
    /// Refusal 9.
    NotSeconds,
}

/// What an operation has to answer on a text, over all sizes that may be lent.
pub struct Answer {
    pub text: Vec<u8>,
    pub origins: Vec<u32>,
    pub spans: Vec<u32>,
    pub losses: Vec<Loss>,
    pub steps: Vec<Step>,
    /// The consumed cells, where demand 3 is asked of the operation.
    pub taken: Option<Vec<Cell>>,
    pub attributions: Attributions,
}

/// How many attributions a text has that are not empty, and on how many of them the model stands in for the original.
#[derive(Debug, Clone, Copy, PartialEq, Eq, Default)]
pub struct Attributions {
    pub met: usize,
    pub stood_in: usize,
}

/// The original gets U+0180 where the library gets U+017F, which it would fold to an `s` (docs/DIFFERENCES.md). Both have two bytes.
const LONG_S: char = '\u{17f}';
const STANDS_IN: char = '\u{180}';

fn for_the_original(text: &str) -> String {
    assert!(!text.contains(STANDS_IN), "U+0180 stands in for U+017F");
    text.replace(LONG_S, STANDS_IN.encode_utf8(&mut [0; 2]))
}

fn for_the_library(text: &str) -> String {
    text.replace(STANDS_IN, LONG_S.encode_utf8(&mut [0; 2]))
}

/// A byte that no text has. It hides each `;` from the original, which then has nothing to split at.
const HIDDEN: &str = "\0";

/// What the original reads with each `;` hidden.
fn unsplit(source: &str) -> oracle::Attribution {
    let shown = |text: String| text.replace(HIDDEN, ";");
    let (caption, losses) = oracle::attribution(&source.replace(';', HIDDEN));
    (shown(caption), losses.into_iter().map(|(field, unnamed)| (shown(field), unnamed)).collect())
}

/// Holds the model's reading of an attribution to the original's: it is what the original reads without splitting, and the original as it is reads
/// something else exactly where the model says that it would split.
fn hold(source: &str, modelled: &Attribution) -> Result<(), String> {
    let same = |original: &oracle::Attribution| modelled.caption == original.0 && modelled.losses == original.1;
    let (original, unsplit) = (oracle::attribution(source), unsplit(source));
    if !same(&unsplit) || same(&original) == modelled.would_split {
        return Err(format!("of {source:?} the model reads {modelled:?}, the original {original:?}, and {unsplit:?} where it cannot split"));
    }
    Ok(())
}

/// Holds each attribution of a text.
fn hold_all(sources: &[String]) -> Result<Attributions, String> {
    let mut all = Attributions::default();
    for source in sources {
        let modelled = attribution::read(source);
        hold(source, &modelled)?;
        all.met += usize::from(!source.is_empty());
        all.stood_in += usize::from(modelled.would_split);
    }
    Ok(all)
}

impl Answer {
    pub fn loss_bytes(&self) -> usize {
        self.losses.iter().map(|loss| loss.3.len()).sum()
    }

    /// The shortest output that is not refused.
    pub fn need(&self) -> usize {
        self.steps.iter().map(|step| if let Step::Need(need) = step { *need } else { 0 }).max().unwrap_or(0)
    }

    /// Document 01's number for a call that is lent these sizes.
    pub fn number(&self, operation: Operation, text: &[u8], sizes: &Sizes) -> u32 {
        if operation != Operation::Day && text.len() > MAX_TEXT {
            return 1;
        }
        if !sizes.right(operation, text.len()) {
            return 2;
        }
        if operation != Operation::Day && std::str::from_utf8(text).is_err() {
            return 3;
        }
        if operation != Operation::Day && text.iter().any(|b| matches!(b, 0 | 13)) {
            return 4;
        }
        let refuses = |step: &Step| match *step {
            Step::TooDeep => Some(5),
            Step::Losses => (self.losses.len() > sizes.records).then_some(7),
            Step::LossBytes => (self.loss_bytes() > sizes.loss_bytes).then_some(8),
            Step::Need(need) => (need > sizes.out).then_some(6),
            Step::NotSeconds => Some(9),
        };
        self.steps.iter().find_map(refuses).unwrap_or(0)
    }

    /// The answer to a text that is refused before anything is read in it (1 to 4), or after (9).
    pub fn refused(steps: Vec<Step>) -> Answer {
        Answer { text: vec![], origins: vec![], spans: vec![], losses: vec![], steps, taken: None, attributions: Attributions::default() }
    }

    /// The answer on a text. It is an error where model and original disagree.
    pub fn of(operation: Operation, text: &str) -> Result<Answer, String> {
        if operation != Operation::Day && text.len() > MAX_TEXT {
            return Ok(Answer::refused(vec![]));
        }
        let judged = for_the_original(text);
        let answer = match operation {
            Operation::POST => {
                let post = model::post(&judged);
                let attributions = hold_all(&post.quotes.attributions)?;
                let (text, losses) = oracle::post(&judged, attribution::stands_in);
                let steps = post_steps(&post);
                Answer { losses: numbered(losses), steps, attributions, ..from_model(&text, post.lists.text, post.taken)? }
            }
            Operation::MARKS => {
                let (text, spans) = oracle::marks(&judged);
                let (pass, modelled) = model::marks(&model::cells_of(&judged));
                if modelled != spans {
                    return Err(format!("the model's spans {modelled:?} are not the original's {spans:?}"));
                }
                let spans = spans.iter().flat_map(|&(start, end)| [start as u32, end as u32]).collect();
                let steps = vec![Step::Need(pass.need)];
                Answer { spans, steps, ..from_model(&text, pass.text, pass.taken)? }
            }
            Operation::QUOTES => {
                let pass = model::quotes(&model::cells_of(&judged));
                let attributions = hold_all(&pass.attributions)?;
                let (text, losses) = oracle::quotes(&judged, &judged, attribution::stands_in);
                let steps = quotes_steps(&pass);
                Answer { losses: numbered(losses), steps, attributions, ..from_model(&text, pass.text, pass.taken)? }
            }
            Operation::LISTS => {
                let text = oracle::lists(&judged);
                let pass = model::lists(&model::cells_of(&judged));
                let steps = lists_steps(&pass);
                Answer { steps, ..from_model(&text, pass.text, pass.taken)? }
            }
            Operation::ATTRIBUTION => {
                let Attribution { caption, losses, .. } = attribution::read(&judged);
                let attributions = hold_all(&[judged])?;
                let text = for_the_library(&caption).into_bytes();
                let losses = losses.into_iter().map(|(field, unnamed)| (0, 0, unnamed, for_the_library(&field))).collect();
                let steps = vec![Step::Losses, Step::LossBytes, Step::Need(text.len())];
                Answer { origins: vec![0; text.len()], text, losses, attributions, ..Answer::refused(steps) }
            }
            Operation::Day => match oracle::day(&judged) {
                Some(day) => Answer { text: day.into_bytes(), ..Answer::refused(vec![]) },
                None => Answer::refused(vec![Step::NotSeconds]),
            },
        };
        Ok(answer)
    }
}

fn from_model(text: &str, cells: Vec<Cell>, taken: Vec<Cell>) -> Result<Answer, String> {
    if model::bytes(&cells) != text.as_bytes() {
        return Err(format!("the model's text {:?} is not the original's {text:?}", String::from_utf8_lossy(&model::bytes(&cells))));
    }
    Ok(Answer {
        text: for_the_library(text).into_bytes(),
        origins: cells.iter().map(|c| c.origin).collect(),
        taken: Some(taken),
        ..Answer::refused(vec![])
    })
}

fn numbered(losses: Vec<oracle::Loss>) -> Vec<Loss> {
    losses.into_iter().map(|loss| (loss.quote as u32, loss.line as u32, loss.unnamed, for_the_library(&loss.field))).collect()
}

fn quotes_steps(pass: &Pass) -> Vec<Step> {
    let deep = pass.too_deep.then_some(Step::TooDeep);
    deep.into_iter().chain([Step::Losses, Step::LossBytes, Step::Need(pass.need)]).collect()
}

fn lists_steps(pass: &Pass) -> Vec<Step> {
    let deep = pass.too_deep.then_some(Step::TooDeep);
    deep.into_iter().chain([Step::Need(pass.need)]).collect()
}

fn post_steps(post: &model::Post) -> Vec<Step> {
    [vec![Step::Need(post.marks.need)], quotes_steps(&post.quotes), lists_steps(&post.lists)].concat()
}

#[cfg(test)]
mod tests {
    use super::*;
    use crate::grammar;
    use crate::pieces::Draws;

    fn number(operation: Operation, text: &[u8], change: impl FnOnce(&mut Sizes)) -> u32 {
        let answer = std::str::from_utf8(text).map_or_else(|_| Answer::refused(vec![]), |text| Answer::of(operation, text).expect("one answer"));
        let mut sizes = Sizes::least(operation, text.len(), answer.need(), answer.losses.len(), answer.loss_bytes());
        change(&mut sizes);
        answer.number(operation, text, &sizes)
    }

    /// The first refusal of document 01's line wins.
    #[test]
    fn refusals_in_their_order() {
        let post = b"[quote=k=]x";
        assert_eq!(number(Operation::POST, post, |_| ()), 0);
        assert_eq!(number(Operation::POST, &[0xFF; MAX_TEXT + 1], |sizes| sizes.work = 0), 1);
        assert_eq!(number(Operation::POST, b"\xFF\0", |sizes| sizes.work -= 1), 2);
        assert_eq!(number(Operation::MARKS, b"[b]", |sizes| sizes.spans -= 1), 2);
        assert_eq!(number(Operation::POST, b"", |sizes| sizes.out = MAX_OUT + 1), 2);
        assert_eq!(number(Operation::POST, b"\xFF\0", |_| ()), 3);
        assert_eq!(number(Operation::POST, b"\0", |_| ()), 4);
        let deep = "[quote=k=]".repeat(65);
        let short = |sizes: &mut Sizes| (sizes.records, sizes.loss_bytes, sizes.out) = (0, 0, 0);
        assert_eq!(number(Operation::QUOTES, deep.as_bytes(), short), 5);
        // In a whole post the marks' need comes before it.
        assert_eq!(number(Operation::POST, deep.as_bytes(), short), 6);
        assert_eq!(number(Operation::QUOTES, post, short), 7);
        assert_eq!(number(Operation::QUOTES, post, |sizes| (sizes.loss_bytes, sizes.out) = (0, 0)), 8);
        assert_eq!(number(Operation::QUOTES, post, |sizes| sizes.out -= 1), 6);
        assert_eq!(number(Operation::Day, b"1234567890", |sizes| sizes.out = 10), 0);
        assert_eq!(number(Operation::Day, b"12345678", |sizes| sizes.out = 10), 9);
        assert_eq!(number(Operation::Day, b"12345678", |sizes| sizes.out = 9), 2);
    }

    #[test]
    fn needs_of_the_readings() {
        let need = |operation, text: &str| Answer::of(operation, text).expect("one answer").need();
        assert_eq!(need(Operation::QUOTES, "a"), 1);
        assert_eq!(need(Operation::LISTS, "[list] [*]  [list]"), 5);
        assert_eq!(need(Operation::LISTS, &format!("[list][*]a{}[/list]", "[*]".repeat(100))), 7);
        assert_eq!(need(Operation::QUOTES, &format!("[quote]{}[/quote]", " ".repeat(100))), 100);
        assert_eq!(need(Operation::LISTS, "[list][*]   [list]"), 5);
        assert_eq!(need(Operation::POST, "[quote][/quote]"), 15);
    }

    /// A reading that splits after all is told, and so is one that says the wrong thing of the original, or is wrong in another place.
    #[test]
    fn wrong_attributions_are_told() {
        let told = |source: &str, caption: &str, losses: &[(&str, bool)], would_split: bool| {
            let losses = losses.iter().map(|&(field, unnamed)| (field.to_string(), unnamed)).collect();
            hold(source, &Attribution { caption: caption.to_string(), losses, would_split }).is_err()
        };
        assert!(!told("Ann;7", "Ann;7", &[], true));
        assert!(told("Ann;7", "Ann;7", &[], false));
        assert!(told("Ann;7", "Ann #7", &[], true));
        assert!(told("Ann;7", "Ann #7", &[], false));
        assert!(told("Ann;7", "Ann;8", &[], true));
        assert!(!told("name=N x ;7", "N", &[("x ;7", true)], true));
        assert!(told("name=N x ;7", "N #7", &[("x ", true)], false));
        assert!(told("name=N x ;7", "N", &[("x ", true)], true));
        assert!(told("name=N x ;7", "N", &[("x ;7", false)], true));
        assert!(!told("\"42\" Ann;7", "Ann;7 #42", &[], false));
        assert!(told("\"42\" Ann;7", "Ann;7 #42", &[], true));
        assert!(told("\"42\" Ann;7", "Ann #42", &[], false));
        assert!(told("Ann k=1", "Ann", &[], false));
    }

    #[test]
    fn random_attributions_are_held() {
        oracle::keep_patterns();
        for make in [grammar::attribution, grammar::numbered] {
            let sources: Vec<String> = (0..20_000).map(|number| make(&mut Draws::at(1, number))).collect();
            let all = hold_all(&sources).expect("one reading");
            assert!(all.stood_in > 500 && all.met - all.stood_in > 5_000, "{all:?}");
        }
    }

    #[test]
    fn a_number_behind_a_semicolon_stays_in_quotes() {
        let answer = Answer::of(Operation::POST, "[quote=Rook;2]x[/quote]\n[quote]y[/quote]\n[quote=name=ſ x ;7 k=]z").expect("one answer");
        assert_eq!(String::from_utf8(answer.text), Ok("\n\n> x\n^ Rook;2\n\n\n\n\n> y\n\n\n\n\n> z\n^ ſ\n\n".to_string()));
        assert_eq!(answer.losses, [(3, 3, true, "x ;7".to_string()), (3, 3, false, "k".to_string())]);
        assert_eq!(answer.attributions, Attributions { met: 2, stood_in: 2 });
    }

    #[test]
    fn the_long_s_is_an_ordinary_letter() {
        let answer = Answer::of(Operation::MARKS, "[ſ]x[/ſ]").expect("one answer");
        assert_eq!((answer.text.as_slice(), answer.spans.len()), ("[ſ]x[/ſ]".as_bytes(), 0));
    }
}
