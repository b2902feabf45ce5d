//! The proved converter: one call of `carve_post` in memory that is kept from call to call.

use carve::{numbers_size, work_size, Operation, Record, MAX_OUT};

/// Memory lent for posts of one length, and what the last call left in it.
pub struct Lent {
    pub out: Vec<u8>,
    pub origins: Vec<u32>,
    records: Vec<Record>,
    loss_bytes: Vec<u8>,
    work: Vec<u8>,
    numbers: Vec<u32>,
    counts: [u32; 3],
}

impl Lent {
    fn new(n: usize, m: usize, records: usize, loss_bytes: usize) -> Lent {
        Lent {
            out: vec![0xAA; m],
            origins: vec![0xAAAA_AAAA; m],
            records: vec![Record::default(); records],
            loss_bytes: vec![0xAA; loss_bytes],
            work: vec![0xAA; work_size(n, m)],
            numbers: vec![0xAAAA_AAAA; numbers_size(n, m)],
            counts: [7; 3],
        }
    }

    /// What `carve::Converter` lends: n + n / 4 + 256 output bytes, 16 records and 256 loss bytes; what the answer says is short is doubled and the
    /// call made again.
    pub fn for_post(text: &[u8]) -> Lent {
        let n = text.len();
        let (mut m, mut records, mut loss_bytes) = (n + n / 4 + 256, 16, 256);
        loop {
            let mut lent = Lent::new(n, m, records, loss_bytes);
            match lent.convert(text) {
                6 if m < MAX_OUT => m = (2 * m).min(MAX_OUT),
                7 => records *= 2,
                8 => loss_bytes *= 2,
                _ => return lent,
            }
        }
    }

    /// Converts a post. Document 01's number: 0 for done.
    pub fn convert(&mut self, text: &[u8]) -> u32 {
        carve::Lent {
            out: &mut self.out,
            origins: &mut self.origins,
            spans: &mut [],
            records: &mut self.records,
            loss_bytes: &mut self.loss_bytes,
            work: &mut self.work,
            numbers: &mut self.numbers,
            counts: &mut self.counts,
        }
        .call(Operation::Post, text)
    }

    /// The length of the converted text.
    pub fn length(&self) -> usize {
        self.counts[0] as usize
    }

    pub fn losses(&self) -> usize {
        self.counts[1] as usize
    }
}
