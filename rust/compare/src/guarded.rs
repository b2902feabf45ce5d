//! Lent memory full of garbage, with a guard at both ends of each slice.

use crate::judge::{Operation, Sizes};
use crate::pieces::Draws;
use carve::{Converter, Lent, Record};

/// Elements in a guard.
const GUARD: usize = 8;

/// A slice between two guards.
struct Guarded<T> {
    all: Vec<T>,
    before: Vec<T>,
    behind: Vec<T>,
}

impl<T: Copy + Default + PartialEq> Guarded<T> {
    fn new() -> Guarded<T> {
        Guarded { all: Vec::new(), before: Vec::new(), behind: Vec::new() }
    }

    /// Makes room for `size` elements and fills all with garbage.
    fn fill(&mut self, size: usize, mut garbage: impl FnMut() -> T) {
        self.all.clear();
        self.all.resize_with(size + 2 * GUARD, &mut garbage);
        self.before = self.all[..GUARD].to_vec();
        self.behind = self.all[GUARD + size..].to_vec();
    }

    fn slice(&self) -> &[T] {
        &self.all[GUARD..self.all.len() - GUARD]
    }

    fn slice_mut(&mut self) -> &mut [T] {
        let end = self.all.len() - GUARD;
        &mut self.all[GUARD..end]
    }

    fn whole(&self) -> bool {
        self.all[..GUARD] == self.before && self.all[self.all.len() - GUARD..] == self.behind
    }
}

/// What a call is lent, kept from call to call; and the wrapper with memory of its own.
pub struct Memory {
    pub converter: Converter,
    text: Guarded<u8>,
    out: Guarded<u8>,
    origins: Guarded<u32>,
    spans: Guarded<u32>,
    records: Guarded<Record>,
    loss_bytes: Guarded<u8>,
    work: Guarded<u8>,
    numbers: Guarded<u32>,
}

/// What a call leaves.
pub struct Left<'a> {
    pub number: u32,
    pub counts: [u32; 3],
    pub out: &'a [u8],
    pub origins: &'a [u32],
    pub spans: &'a [u32],
    pub records: &'a [Record],
    pub loss_bytes: &'a [u8],
}

/// What stands around a text: it would be read as part of a tag by a call that looks past the ends.
const AROUND: [u8; 8] = *b"[/b]\n*]1";

impl Default for Memory {
    fn default() -> Memory {
        Memory {
            converter: Converter::new(),
            text: Guarded::new(),
            out: Guarded::new(),
            origins: Guarded::new(),
            spans: Guarded::new(),
            records: Guarded::new(),
            loss_bytes: Guarded::new(),
            work: Guarded::new(),
            numbers: Guarded::new(),
        }
    }
}

impl Memory {
    /// Calls with garbage in all that is lent. It is an error where a guard or the text does not stay as it was.
    pub fn call(&mut self, operation: Operation, text: &[u8], sizes: &Sizes, draws: &mut Draws) -> Result<Left<'_>, String> {
        let mut around = draws.below(AROUND.len());
        self.text.fill(text.len(), || {
            around += 1;
            AROUND[around % AROUND.len()]
        });
        self.text.slice_mut().copy_from_slice(text);
        // Garbage of one value, or of any.
        let (still, mut value) = (draws.below(4) > 0, draws.any());
        let mut garbage = || {
            if !still {
                value = draws.any();
            }
            value
        };
        self.out.fill(sizes.out, || garbage() as u8);
        self.origins.fill(sizes.origins, || garbage() as u32);
        self.spans.fill(sizes.spans, || garbage() as u32);
        self.records.fill(sizes.records, || {
            let mut number = || garbage() as u32;
            Record { quote: number(), line: number(), unnamed: number(), start: number(), length: number() }
        });
        self.loss_bytes.fill(sizes.loss_bytes, || garbage() as u8);
        self.work.fill(sizes.work, || garbage() as u8);
        self.numbers.fill(sizes.numbers, || garbage() as u32);
        let mut counts = [garbage() as u32, garbage() as u32, garbage() as u32];
        let number = match operation {
            Operation::Day => Lent::day(self.text.slice(), self.out.slice_mut(), &mut counts),
            Operation::OnText(operation) => Lent {
                out: self.out.slice_mut(),
                origins: self.origins.slice_mut(),
                spans: self.spans.slice_mut(),
                records: self.records.slice_mut(),
                loss_bytes: self.loss_bytes.slice_mut(),
                work: self.work.slice_mut(),
                numbers: self.numbers.slice_mut(),
                counts: &mut counts,
            }
            .call(operation, self.text.slice()),
        };
        for (name, whole) in [
            ("text", self.text.whole() && self.text.slice() == text),
            ("out", self.out.whole()),
            ("origins", self.origins.whole()),
            ("spans", self.spans.whole()),
            ("records", self.records.whole()),
            ("loss_bytes", self.loss_bytes.whole()),
            ("work", self.work.whole()),
            ("numbers", self.numbers.whole()),
        ] {
            if !whole {
                return Err(format!("the memory around {name}, or the text, has changed"));
            }
        }
        Ok(Left {
            number,
            counts,
            out: self.out.slice(),
            origins: self.origins.slice(),
            spans: self.spans.slice(),
            records: self.records.slice(),
            loss_bytes: self.loss_bytes.slice(),
        })
    }
}

#[cfg(test)]
mod tests {
    use super::*;

    #[test]
    fn a_write_past_either_end_is_seen() {
        for (at, whole) in [(GUARD - 1, false), (GUARD, true), (GUARD + 4, true), (GUARD + 5, false)] {
            let mut guarded = Guarded::new();
            guarded.fill(5, || 7u8);
            assert!(guarded.whole() && guarded.slice() == [7; 5]);
            guarded.all[at] = 0;
            assert_eq!(guarded.whole(), whole);
        }
    }
}
