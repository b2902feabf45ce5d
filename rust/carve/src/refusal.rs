//! Why a call was turned back.

use std::fmt;

/// Why a call was turned back, by document 01's number.
///
/// ```
/// let refusal = carve::Converter::new().convert(b"a\r\n").unwrap_err();
/// assert_eq!(refusal, carve::Refusal::ZeroOrReturn);
/// assert_eq!(refusal.number(), 4);
/// assert_eq!(refusal.to_string(), "a byte 0 or 13 is in the text");
/// ```
#[derive(Debug, Clone, Copy, PartialEq, Eq, Hash)]
pub enum Refusal {
    /// 1: the text is longer than 262,144 bytes.
    TextTooLong,
    /// 2: a lent size is wrong. [`Converter`](crate::Converter) lends the right ones, so it never answers this.
    SizesWrong,
    /// 3: the text is not UTF-8.
    NotUtf8,
    /// 4: a byte 0 or 13 is in the text.
    ZeroOrReturn,
    /// 5: an opener is met while 64 quotes, or 64 lists, are open.
    TooDeep,
    /// 6: the converted text, with all that is open on the way to it, needs more than the 16,777,216 bytes that an output may have.
    NoSpace,
    /// 7: more losses than records.
    TooManyLosses,
    /// 8: the fields of the losses are longer than the loss bytes.
    LossBytesShort,
    /// 9: not 9 to 11 digits.
    NotSeconds,
}

impl Refusal {
    /// All of them, in the order of their numbers.
    pub const ALL: [Refusal; 9] = [
        Refusal::TextTooLong,
        Refusal::SizesWrong,
        Refusal::NotUtf8,
        Refusal::ZeroOrReturn,
        Refusal::TooDeep,
        Refusal::NoSpace,
        Refusal::TooManyLosses,
        Refusal::LossBytesShort,
        Refusal::NotSeconds,
    ];

    /// Document 01's number, from 1.
    pub fn number(self) -> u32 {
        self as u32 + 1
    }

    /// The refusal with this number.
    pub fn from_number(number: u32) -> Option<Refusal> {
        (number as usize).checked_sub(1).and_then(|i| Refusal::ALL.get(i)).copied()
    }
}

impl fmt::Display for Refusal {
    fn fmt(&self, f: &mut fmt::Formatter<'_>) -> fmt::Result {
        f.write_str(match self {
            Refusal::TextTooLong => "the text is longer than 262,144 bytes",
            Refusal::SizesWrong => "a lent size is wrong",
            Refusal::NotUtf8 => "the text is not UTF-8",
            Refusal::ZeroOrReturn => "a byte 0 or 13 is in the text",
            Refusal::TooDeep => "a quote or a list opens while 64 of them are open",
            Refusal::NoSpace => "the converted text needs more space than an output may have",
            Refusal::TooManyLosses => "there are more losses than records for them",
            Refusal::LossBytesShort => "the fields of the losses are longer than the bytes for them",
            Refusal::NotSeconds => "not a number of seconds of 9 to 11 digits",
        })
    }
}

impl std::error::Error for Refusal {}
