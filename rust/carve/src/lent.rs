//! The six operations over memory that the caller lends: nothing is allocated, and every size is the caller's.

use crate::raw::{self, Record, WithLosses};

/// The longest text, in bytes.
pub const MAX_TEXT: usize = 262_144;
/// The longest output, in bytes.
pub const MAX_OUT: usize = 16_777_216;

/// How many work bytes a text of `n` bytes and an output of `m` need.
pub const fn work_size(n: usize, m: usize) -> usize {
    n + 3 * m
}

/// How many work numbers a text of `n` bytes and an output of `m` need.
pub const fn numbers_size(n: usize, m: usize) -> usize {
    8 * n + 3 * m + 64
}

/// How many span numbers the marks of a text of `n` bytes need.
pub const fn spans_size(n: usize) -> usize {
    2 * (n / 3)
}

/// An operation on a text. (A [day](Lent::day) is lent an output only.)
#[derive(Debug, Clone, Copy, PartialEq, Eq, Hash)]
pub enum Operation {
    /// A whole post: marks, then quotes, then lists.
    Post,
    /// Tags to marks, with their spans.
    Marks,
    /// Quotes, with their losses.
    Quotes,
    /// Lists.
    Lists,
    /// The caption of an attribution, with its losses.
    Attribution,
}

/// What a call is lent. Each operation uses its own part: spans are for marks alone, records and loss bytes for whole posts, quotes and
/// attributions. What the slices hold before a call does not matter. After it they hold the result and zeros behind it, or, on a refusal,
/// zeros alone; work bytes and numbers are free.
///
/// ```
/// use carve::{numbers_size, work_size, Lent, Operation};
/// let post = b"a [b]word[/b]";
/// let m = 16;
/// let mut counts = [0; 3];
/// let (mut out, mut origins) = (vec![0; m], vec![0; m]);
/// let number = Lent {
///     out: &mut out,
///     origins: &mut origins,
///     spans: &mut [],
///     records: &mut [],
///     loss_bytes: &mut [],
///     work: &mut vec![0; work_size(post.len(), m)],
///     numbers: &mut vec![0; numbers_size(post.len(), m)],
///     counts: &mut counts,
/// }
/// .call(Operation::Post, post);
/// assert_eq!((number, counts), (0, [8, 0, 0]));
/// assert_eq!(&out[..8], b"a *word*");
/// assert_eq!(&origins[..8], [1, 2, 0, 6, 7, 8, 9, 0]);
/// ```
#[derive(Debug)]
pub struct Lent<'a> {
    /// The converted text; at most [`MAX_OUT`] bytes.
    pub out: &'a mut [u8],
    /// Of each byte of the output 1 + its position in the text, or 0 where a rule wrote it; as many as the output at least.
    pub origins: &'a mut [u32],
    /// Start and end of each mark in the output; [`spans_size`] at least.
    pub spans: &'a mut [u32],
    /// The losses.
    pub records: &'a mut [Record],
    /// The fields of the losses, one behind the other.
    pub loss_bytes: &'a mut [u8],
    /// Work bytes; [`work_size`] at least.
    pub work: &'a mut [u8],
    /// Work numbers; [`numbers_size`] at least.
    pub numbers: &'a mut [u32],
    /// Set to the length of the converted text, the number of marks or of losses, and the number of loss bytes.
    pub counts: &'a mut [u32; 3],
}

impl Lent<'_> {
    /// Runs the operation, and gives document 01's number: 0, or that of the [refusal](crate::Refusal).
    pub fn call(&mut self, operation: Operation, text: &[u8]) -> u32 {
        match operation {
            Operation::Post => self.with_losses(raw::carve_post, text),
            Operation::Quotes => self.with_losses(raw::carve_quotes, text),
            Operation::Attribution => self.with_losses(raw::carve_attribution, text),
            // SAFETY: each pair is the pointer and the length of a live slice. All but the text are borrowed mutably, so none overlaps another.
            Operation::Lists => unsafe {
                raw::carve_lists(
                    text.as_ptr(),
                    text.len(),
                    self.out.as_mut_ptr(),
                    self.out.len(),
                    self.origins.as_mut_ptr(),
                    self.origins.len(),
                    self.work.as_mut_ptr(),
                    self.work.len(),
                    self.numbers.as_mut_ptr(),
                    self.numbers.len(),
                    self.counts,
                )
            },
            // SAFETY: as above.
            Operation::Marks => unsafe {
                raw::carve_marks(
                    text.as_ptr(),
                    text.len(),
                    self.out.as_mut_ptr(),
                    self.out.len(),
                    self.origins.as_mut_ptr(),
                    self.origins.len(),
                    self.spans.as_mut_ptr(),
                    self.spans.len(),
                    self.work.as_mut_ptr(),
                    self.work.len(),
                    self.numbers.as_mut_ptr(),
                    self.numbers.len(),
                    self.counts,
                )
            },
        }
    }

    fn with_losses(&mut self, operation: WithLosses, text: &[u8]) -> u32 {
        let (records, records_len) = raw::lent_records(self.records);
        // SAFETY: as above.
        unsafe {
            operation(
                text.as_ptr(),
                text.len(),
                self.out.as_mut_ptr(),
                self.out.len(),
                self.origins.as_mut_ptr(),
                self.origins.len(),
                records,
                records_len,
                self.loss_bytes.as_mut_ptr(),
                self.loss_bytes.len(),
                self.work.as_mut_ptr(),
                self.work.len(),
                self.numbers.as_mut_ptr(),
                self.numbers.len(),
                self.counts,
            )
        }
    }

    /// The day of 9 to 11 digits, seconds since 1970, in an output of 10 bytes or more.
    pub fn day(text: &[u8], out: &mut [u8], counts: &mut [u32; 3]) -> u32 {
        // SAFETY: as above.
        unsafe { raw::carve_day(text.as_ptr(), text.len(), out.as_mut_ptr(), out.len(), counts) }
    }
}
