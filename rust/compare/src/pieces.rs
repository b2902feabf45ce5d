//! Draws that a seed repeats, and the pieces that short texts are made of.

/// A small generator (SplitMix64).
pub struct Draws(u64);

fn mixed(x: u64) -> u64 {
    let x = (x ^ (x >> 30)).wrapping_mul(0xBF58_476D_1CE4_E5B9);
    let x = (x ^ (x >> 27)).wrapping_mul(0x94D0_49BB_1331_11EB);
    x ^ (x >> 31)
}

impl Draws {
    /// The draws of one text among those of a seed.
    pub fn at(seed: u64, index: u64) -> Draws {
        Draws(mixed(mixed(seed).wrapping_add(index)))
    }

    /// The draws that go with a text.
    pub fn of(seed: u64, text: &[u8]) -> Draws {
        Draws::at(seed, text.iter().fold(0xCBF2_9CE4_8422_2325, |hash, b| (hash ^ u64::from(*b)).wrapping_mul(0x0100_0000_01B3)))
    }

    pub fn any(&mut self) -> u64 {
        self.0 = self.0.wrapping_add(0x9E37_79B9_7F4A_7C15);
        mixed(self.0)
    }

    /// A number below `n`.
    pub fn below(&mut self, n: usize) -> usize {
        (self.any() % n as u64) as usize
    }

    pub fn pick<'a>(&mut self, pieces: &[&'a str]) -> &'a str {
        pieces[self.below(pieces.len())]
    }
}

/// How many sequences of at most `longest` pieces there are, the empty one among them.
pub fn sequences(pieces: usize, longest: u32) -> u64 {
    (0..=longest).map(|length| (pieces as u64).pow(length)).sum()
}

/// The sequence with this number: shorter ones come first.
pub fn sequence(pieces: &[&str], mut number: u64) -> String {
    let base = pieces.len() as u64;
    let mut length = 0;
    while number >= base.pow(length) {
        number -= base.pow(length);
        length += 1;
    }
    let mut digits: Vec<usize> = Vec::new();
    for _ in 0..length {
        digits.push((number % base) as usize);
        number /= base;
    }
    digits.iter().rev().map(|&digit| pieces[digit]).collect()
}

/// Marks that cross, nest and touch.
pub const MARKS: &[&str] = &["[b]", "[/b]", "[i]", "[/i]", "x", "*", "/", "{", "}", "\\", " "];
/// The other two kinds, with what their delimiters look at.
pub const MARKS_OTHER: &[&str] = &["[u]", "[/U]", "[s]", "[/s]", "[i]", "[/i]", "_", "~", "#", "=", "é", "\n"];
/// Quotes with and without losses, masks, lines.
pub const QUOTES: &[&str] = &["[quote]", "[quote=A;7 k=1]", "[quote k=]", "[/quote]", "[code]", "[/code]", "[c]", "[/icode]", "x", "\n", " ", "\\"];
/// Openers that break, or hold the parts of others.
pub const QUOTES_BROKEN: &[&str] = &["[quote=", "[QUOTE ", "]", "[/quote]", "[noparse]", "[/noparse]", "k=", "\n", "é", "\u{a0}", "[/c", "[code="];
/// Lists of both kinds, items, leads.
pub const LISTS: &[&str] = &["[list]", "[list=1]", "[*]", "[/list]", "x", "\n", " ", "\u{3000}"];
/// Values, and what does not open.
pub const LISTS_VALUES: &[&str] = &["[list=", "]", "1", "[LIST]", "[*]", "[/list]", "\u{2003}", "\n", "x", "[li", "st]"];
/// Parts of attributions.
pub const ATTRIBUTION: &[&str] = &["name=", "post_id=", "id=", "date=", "time=", "k=", "951782400", "7", "A", " ", "\"", ";"];
/// Quotes of both sorts, blanks that part nothing, signs.
pub const ATTRIBUTION_OTHER: &[&str] = &["Author=", "_x-1=", "'", "\"", "\"42\"", "\u{b}", "\u{a0}", "\t", "\n", ";1", "é", "=", "b"];
/// Tags of all passes.
pub const POST: &[&str] = &["[b]", "[/b]", "[i]", "[/i]", "[quote=A k=]", "[/quote]", "[list]", "[*]", "[/list]", "x", "\n", "[", "]"];
/// Pieces of tags that become whole by what is written or taken out between them.
pub const POST_JOINED: &[&str] = &["[list", "[quote=", "]", "[i]", "[/i]", "[/quote]", "[b]", "[/b]", "[", "1", "x", "=", "[li", "st]"];

#[cfg(test)]
mod tests {
    use super::*;

    #[test]
    fn each_sequence_has_one_number() {
        let pieces = ["a", "b", "c"];
        let mut all: Vec<String> = (0..sequences(3, 4)).map(|number| sequence(&pieces, number)).collect();
        assert_eq!((all[0].as_str(), all[1].as_str(), all[4].as_str(), all[12].as_str()), ("", "a", "aa", "cc"));
        assert!(all.iter().all(|text| text.len() <= 4));
        let many = all.len();
        all.sort();
        all.dedup();
        assert_eq!((all.len(), many), (121, 121));
    }

    #[test]
    fn a_seed_repeats_its_draws() {
        let draw = |seed, index| (0..9).map(|_| Draws::at(seed, index).any()).collect::<Vec<_>>();
        assert_eq!(draw(1, 2), draw(1, 2));
        assert_ne!(draw(1, 2), draw(1, 3));
        assert_ne!(draw(1, 2), draw(2, 2));
    }
}
