//! The exported functions as the static library has them (include/carve.h says what is lent and what comes back).
//!
//! A slice is two arguments, a pointer that is not null and aligned, and a length. [`crate::Lent`] is the only caller.

/// A loss as the library writes it.
#[repr(C)]
#[derive(Debug, Clone, Copy, Default, PartialEq, Eq)]
pub struct Record {
    /// The quote's number, from 1; 0 in an attribution alone.
    pub quote: u32,
    /// The line of the quote's opener in the post, from 1; 0 in an attribution alone.
    pub line: u32,
    /// 1 where the loss has no key of its own: the field is then the lost words themselves.
    pub unnamed: u32,
    /// Where the field starts in the loss bytes.
    pub start: u32,
    /// How many loss bytes the field has.
    pub length: u32,
}

/// A slice of records as two arguments.
pub fn lent_records(records: &mut [Record]) -> (*mut Record, usize) {
    (records.as_mut_ptr(), records.len())
}

/// `carve_post`, `carve_quotes` and `carve_attribution` are lent the same.
pub type WithLosses = unsafe extern "C" fn(
    text: *const u8,
    text_len: usize,
    out: *mut u8,
    out_len: usize,
    origins: *mut u32,
    origins_len: usize,
    records: *mut Record,
    records_len: usize,
    loss_bytes: *mut u8,
    loss_bytes_len: usize,
    work: *mut u8,
    work_len: usize,
    numbers: *mut u32,
    numbers_len: usize,
    counts: *mut [u32; 3],
) -> u32;

extern "C" {
    pub fn carve_post(
        text: *const u8,
        text_len: usize,
        out: *mut u8,
        out_len: usize,
        origins: *mut u32,
        origins_len: usize,
        records: *mut Record,
        records_len: usize,
        loss_bytes: *mut u8,
        loss_bytes_len: usize,
        work: *mut u8,
        work_len: usize,
        numbers: *mut u32,
        numbers_len: usize,
        counts: *mut [u32; 3],
    ) -> u32;
    pub fn carve_quotes(
        text: *const u8,
        text_len: usize,
        out: *mut u8,
        out_len: usize,
        origins: *mut u32,
        origins_len: usize,
        records: *mut Record,
        records_len: usize,
        loss_bytes: *mut u8,
        loss_bytes_len: usize,
        work: *mut u8,
        work_len: usize,
        numbers: *mut u32,
        numbers_len: usize,
        counts: *mut [u32; 3],
    ) -> u32;
    pub fn carve_attribution(
        text: *const u8,
        text_len: usize,
        out: *mut u8,
        out_len: usize,
        origins: *mut u32,
        origins_len: usize,
        records: *mut Record,
        records_len: usize,
        loss_bytes: *mut u8,
        loss_bytes_len: usize,
        work: *mut u8,
        work_len: usize,
        numbers: *mut u32,
        numbers_len: usize,
        counts: *mut [u32; 3],
    ) -> u32;
    pub fn carve_lists(
        text: *const u8,
        text_len: usize,
        out: *mut u8,
        out_len: usize,
        origins: *mut u32,
        origins_len: usize,
        work: *mut u8,
        work_len: usize,
        numbers: *mut u32,
        numbers_len: usize,
        counts: *mut [u32; 3],
    ) -> u32;
    pub fn carve_marks(
        text: *const u8,
        text_len: usize,
        out: *mut u8,
        out_len: usize,
        origins: *mut u32,
        origins_len: usize,
        spans: *mut u32,
        spans_len: usize,
        work: *mut u8,
        work_len: usize,
        numbers: *mut u32,
        numbers_len: usize,
        counts: *mut [u32; 3],
    ) -> u32;
    pub fn carve_day(text: *const u8, text_len: usize, out: *mut u8, out_len: usize, counts: *mut [u32; 3]) -> u32;
}
