//! The operations with memory of their own.

use crate::lent::{numbers_size, spans_size, work_size, Lent, Operation, MAX_OUT};
use crate::raw::Record;
use crate::Refusal;

/// A text with the origins of its bytes and the losses on the way to it.
#[derive(Debug, Clone, PartialEq, Eq)]
pub struct Converted {
    /// The converted text.
    pub text: String,
    /// Of each byte of the text 1 + its position in the input, or 0 where a rule wrote it.
    pub origins: Vec<u32>,
    /// What the text does not say any more, in the order of the quotes.
    pub losses: Vec<Loss>,
}

impl Converted {
    /// Where in the input byte `at` of the text was copied from; none where a rule wrote it.
    ///
    /// ```
    /// let converted = carve::Converter::new().convert(b"[b]x[/b]").unwrap();
    /// assert_eq!(converted.text, "*x*");
    /// assert_eq!((converted.position(0), converted.position(1)), (None, Some(3)));
    /// ```
    pub fn position(&self, at: usize) -> Option<usize> {
        (self.origins[at] as usize).checked_sub(1)
    }

    /// How many bytes of the text are copied; the others are written by a rule.
    pub fn copied(&self) -> usize {
        self.origins.iter().filter(|&&origin| origin != 0).count()
    }
}

/// Something that a quote's caption does not say any more.
#[derive(Debug, Clone, PartialEq, Eq)]
pub struct Loss {
    /// The quote's number, from 1; 0 in an attribution alone.
    pub quote: u32,
    /// The line of the quote's opener, from 1; 0 in an attribution alone.
    pub line: u32,
    /// Whether the loss has no key of its own.
    pub unnamed: bool,
    /// The lost field's key, or the lost words themselves where it is unnamed.
    pub field: String,
}

/// A text with its marks.
#[derive(Debug, Clone, PartialEq, Eq)]
pub struct Marked {
    /// The converted text.
    pub text: String,
    /// Of each byte of the text 1 + its position in the input, or 0 where a rule wrote it.
    pub origins: Vec<u32>,
    /// Of each mark, outer before inner, where it starts in the text and where it ends, its delimiters included.
    pub spans: Vec<(usize, usize)>,
}

/// The operations with memory of their own, which is kept from call to call. Sizes are tried upwards: a call that is turned back for want of space,
/// records or loss bytes is made again with more of it, up to document 01's limits.
///
/// ```
/// let mut converter = carve::Converter::new();
/// let converted = converter.convert(b"[quote=Ann;7 rank=3]Seed [b]late[/b][/quote]").unwrap();
/// assert_eq!(converted.text, "\n\n> Seed *late*\n^ Ann;7\n\n");
/// assert_eq!(converted.copied(), 9);
/// let loss = &converted.losses[0];
/// assert_eq!((loss.quote, loss.line, loss.unnamed, loss.field.as_str()), (1, 1, false, "rank"));
/// ```
#[derive(Debug, Default)]
pub struct Converter {
    out: Vec<u8>,
    origins: Vec<u32>,
    spans: Vec<u32>,
    records: Vec<Record>,
    loss_bytes: Vec<u8>,
    work: Vec<u8>,
    numbers: Vec<u32>,
}

/// The sizes that a call may be turned back for.
#[derive(Debug, Clone, Copy)]
struct Sizes {
    out: usize,
    records: usize,
    loss_bytes: usize,
}

impl Sizes {
    /// What most texts of `n` bytes are content with.
    fn first(n: usize) -> Sizes {
        Sizes { out: n + n / 4 + 256, records: 16, loss_bytes: 256 }
    }

    /// More of what was wanting, if there may be more. A text has no more losses than bytes, and their fields are at most two times as long.
    fn after(self, refusal: Refusal, n: usize) -> Option<Sizes> {
        let more = |size: usize, most: usize| (size < most).then(|| (2 * size).min(most));
        match refusal {
            Refusal::NoSpace => Some(Sizes { out: more(self.out, MAX_OUT)?, ..self }),
            Refusal::TooManyLosses => Some(Sizes { records: more(self.records, n)?, ..self }),
            Refusal::LossBytesShort => Some(Sizes { loss_bytes: more(self.loss_bytes, 2 * n)?, ..self }),
            _ => None,
        }
    }
}

/// At least `size` elements, the first `size` of which are lent.
fn lend<T: Clone + Default>(memory: &mut Vec<T>, size: usize) -> &mut [T] {
    if memory.len() < size {
        memory.resize(size, T::default());
    }
    &mut memory[..size]
}

impl Converter {
    /// A converter that has no memory yet.
    pub fn new() -> Converter {
        Converter::default()
    }

    /// A whole post: marks, then quotes, then lists.
    pub fn convert(&mut self, post: &[u8]) -> Result<Converted, Refusal> {
        self.converted(Operation::Post, post)
    }

    /// Quotes alone. Lines are lines of `text`.
    ///
    /// ```
    /// let quoted = carve::Converter::new().quotes(b"[quote]a\nb[/quote]").unwrap();
    /// assert_eq!(quoted.text, "\n\n> a\n> b\n\n");
    /// ```
    pub fn quotes(&mut self, text: &[u8]) -> Result<Converted, Refusal> {
        self.converted(Operation::Quotes, text)
    }

    /// Lists alone; there are no losses.
    ///
    /// ```
    /// let listed = carve::Converter::new().lists(b"[list=1][*]a[*]b[/list]").unwrap();
    /// assert_eq!(listed.text, "\n\n1. a\n2. b\n\n");
    /// ```
    pub fn lists(&mut self, text: &[u8]) -> Result<Converted, Refusal> {
        self.converted(Operation::Lists, text)
    }

    /// The caption of an attribution. All origins are 0, and so are a loss's quote and line.
    ///
    /// ```
    /// let caption = carve::Converter::new().attribution(b"name=Ann rank=3 guest").unwrap();
    /// assert_eq!(caption.text, "Ann");
    /// assert_eq!((caption.losses[0].field.as_str(), caption.losses[0].unnamed), ("rank", false));
    /// assert_eq!((caption.losses[1].field.as_str(), caption.losses[1].unnamed), ("guest", true));
    /// ```
    pub fn attribution(&mut self, text: &[u8]) -> Result<Converted, Refusal> {
        self.converted(Operation::Attribution, text)
    }

    /// Tags to marks alone.
    ///
    /// ```
    /// let marked = carve::Converter::new().marks(b"a [i][b]x[/b][/i]").unwrap();
    /// assert_eq!(marked.text, "a {/*x*/}");
    /// assert_eq!(marked.spans, [(2, 9), (4, 7)]);
    /// ```
    pub fn marks(&mut self, text: &[u8]) -> Result<Marked, Refusal> {
        let [length, marks, _] = self.call(Operation::Marks, text)?;
        let (text, origins) = self.text(length);
        let spans = self.spans[..2 * marks].chunks_exact(2).map(|span| (span[0] as usize, span[1] as usize)).collect();
        Ok(Marked { text, origins, spans })
    }

    fn converted(&mut self, operation: Operation, text: &[u8]) -> Result<Converted, Refusal> {
        let [length, losses, _] = self.call(operation, text)?;
        let (text, origins) = self.text(length);
        let losses = self.records[..losses].iter().map(|record| self.loss(record)).collect();
        Ok(Converted { text, origins, losses })
    }

    /// Calls with sizes upwards, till the call is not turned back for want of one of them.
    fn call(&mut self, operation: Operation, text: &[u8]) -> Result<[usize; 3], Refusal> {
        if text.len() > crate::MAX_TEXT {
            return Err(Refusal::TextTooLong);
        }
        let n = text.len();
        let mut sizes = Sizes::first(n);
        loop {
            let mut counts = [0; 3];
            let number = self.lent(n, sizes, &mut counts).call(operation, text);
            match Refusal::from_number(number) {
                None => return Ok(counts.map(|count| count as usize)),
                Some(refusal) => sizes = sizes.after(refusal, n).ok_or(refusal)?,
            }
        }
    }

    fn lent<'a>(&'a mut self, n: usize, sizes: Sizes, counts: &'a mut [u32; 3]) -> Lent<'a> {
        Lent {
            out: lend(&mut self.out, sizes.out),
            origins: lend(&mut self.origins, sizes.out),
            spans: lend(&mut self.spans, spans_size(n)),
            records: lend(&mut self.records, sizes.records),
            loss_bytes: lend(&mut self.loss_bytes, sizes.loss_bytes),
            work: lend(&mut self.work, work_size(n, sizes.out)),
            numbers: lend(&mut self.numbers, numbers_size(n, sizes.out)),
            counts,
        }
    }

    fn text(&self, length: usize) -> (String, Vec<u32>) {
        (string(&self.out[..length]), self.origins[..length].to_vec())
    }

    fn loss(&self, record: &Record) -> Loss {
        let start = record.start as usize;
        Loss {
            quote: record.quote,
            line: record.line,
            unnamed: record.unnamed != 0,
            field: string(&self.loss_bytes[start..start + record.length as usize]),
        }
    }
}

/// The day, as 2026-01-31, of 9 to 11 digits that are seconds since 1970.
///
/// ```
/// assert_eq!(carve::day(b"951782400").unwrap(), "2000-02-29");
/// assert_eq!(carve::day(b"12:30").unwrap_err().number(), 9);
/// ```
pub fn day(text: &[u8]) -> Result<String, Refusal> {
    let (mut out, mut counts) = ([0; 10], [0; 3]);
    match Refusal::from_number(Lent::day(text, &mut out, &mut counts)) {
        None => Ok(string(&out)),
        Some(refusal) => Err(refusal),
    }
}

/// Every rule copies and writes whole characters.
fn string(bytes: &[u8]) -> String {
    String::from_utf8(bytes.to_vec()).expect("whole characters")
}
