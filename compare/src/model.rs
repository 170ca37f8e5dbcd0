//! Clean mode and tags written from the documents, bit by bit: independent of the port
//! and, but for the words that it draws, of the crate. It is slow.

use crate::drawn::Words;
use crate::input::Tagger;
use crate::layout::Parts;
use crate::ring::Ring;

/// Bit `i` of a list of words, highest bit of a word first.
fn word_bit(words: &[u32], i: usize) -> u128 {
    u128::from(words[i / 32] >> (31 - i % 32) & 1)
}

/// Bit `i` of a list of bytes, highest bit of a byte first.
fn byte_bit(bytes: &[u8], i: usize) -> u8 {
    bytes[i / 8] >> (7 - i % 8) & 1
}

/// The `t` bits from place `i` on, as a number.
fn window(words: &[u32], i: usize, t: usize) -> u128 {
    (i..i + t).fold(0, |number, place| number << 1 | word_bit(words, place))
}

/// The windows of `t` bits at those places below `bits` where the message has a 1.
fn selected(words: &[u32], message: &[u8], bits: usize, t: usize) -> u128 {
    (0..bits).filter(|&i| byte_bit(message, i) == 1).fold(0, |sum, i| sum ^ window(words, i, t))
}

/// `data` masked in clean mode: its first `bits` bits, and zeros after them.
pub fn clean(words: &[u32], data: &[u8], bits: usize) -> Vec<u8> {
    let mut masked = vec![0; data.len()];
    for i in 0..bits {
        let bit = byte_bit(data, i) ^ word_bit(words, i) as u8;
        masked[i / 8] |= bit << (7 - i % 8);
    }
    masked
}

/// A tag on its way: all that document 01 says of its state.
#[derive(Clone)]
pub struct Tag {
    /// Whether it closes as EIA3 does, with one word more.
    extra_word: bool,
    width: usize,
    generator: Ring,
    /// The keystream's words from the place of the next block on: twice the width.
    key: Vec<u32>,
    tag: u128,
    /// The bytes that wait for a block.
    waiting: Vec<u8>,
}

impl Tag {
    /// A tag whose generator has drawn nothing yet.
    pub fn start(tagger: Tagger, mut generator: Ring) -> Self {
        let (extra_word, width) = tagger.kind();
        let tag = if extra_word { 0 } else { window(&generator.words(width / 4), 0, 8 * width) };
        let key = generator.words(width / 2);
        Self { extra_word, width, generator, key, tag, waiting: Vec::new() }
    }

    /// The tag that stands in an array, if it is well formed as a state of that kind.
    pub fn from_parts(extra_word: bool, parts: &Parts) -> Option<Self> {
        let widths: &[usize] = if extra_word { &[4] } else { &[4, 8, 16] };
        if !widths.contains(&parts.width) || parts.count >= parts.width {
            return None;
        }
        let tag = Self {
            extra_word,
            width: parts.width,
            generator: Ring::held(&parts.generator, parts.start, parts.drawn)?,
            key: key_words(parts),
            tag: match parts.width {
                16 => u128::from(parts.tag[0]) << 64 | u128::from(parts.tag[1]),
                _ => parts.tag[0].into(),
            },
            waiting: parts.waiting[..parts.count].to_vec(),
        };
        // what is unused at its width must be zero: it then stands in no other way
        (tag.parts() == *parts).then_some(tag)
    }

    /// The tag's state in the parts of an array.
    pub fn parts(&self) -> Parts {
        let mut parts = Parts {
            generator: self.generator.numbers(),
            start: self.generator.start() as u64,
            drawn: self.generator.count() as u64,
            key: [0; 4],
            tag: match self.width {
                4 => [(self.tag as u32).into(), 0],
                8 => [self.tag as u64, 0],
                _ => [(self.tag >> 64) as u64, self.tag as u64],
            },
            waiting: [0; 16],
            count: self.waiting.len(),
            width: self.width,
        };
        for (word, pair) in parts.key.iter_mut().zip(self.key.chunks(2)) {
            *word = window(pair, 0, 64) as u64;
        }
        parts.waiting[..self.waiting.len()].copy_from_slice(&self.waiting);
        parts
    }

    /// The keystream from the place of the next block on, long enough for the windows of
    /// so many bits, and the generator after each of the words drawn for it.
    fn stream(&self, bits: usize) -> (Vec<u32>, Vec<Ring>) {
        let (mut words, mut after) = (self.key.clone(), vec![self.generator]);
        while words.len() < (bits + 16 * self.width).div_ceil(32) {
            let mut generator = after[after.len() - 1];
            words.push(generator.draw());
            after.push(generator);
        }
        (words, after)
    }

    /// Set to have drawn so many words.
    pub fn counted(self, count: usize) -> Self {
        Self { generator: self.generator.counted(count), ..self }
    }

    /// The words that it has drawn, and would.
    pub fn words(&self) -> Words {
        Words::of(self.extra_word, self.width, self.waiting.len(), self.generator.count())
    }

    pub fn update(&mut self, message: &[u8]) {
        self.waiting.extend_from_slice(message);
        let bytes = self.waiting.len() / self.width * self.width;
        let (words, after) = self.stream(8 * bytes);
        self.tag ^= selected(&words, &self.waiting, 8 * bytes, 8 * self.width);
        self.key = words[bytes / 4..][..self.width / 2].to_vec();
        self.generator = after[bytes / 4];
        self.waiting.drain(..bytes);
    }

    pub fn finish(mut self, tail: &[u8], bits: usize) -> u128 {
        let bits = 8 * self.waiting.len() + bits;
        self.waiting.extend_from_slice(tail);
        let t = 8 * self.width;
        let (words, _) = self.stream(bits);
        let last = if self.extra_word { words[bits.div_ceil(32) + 1].into() } else { 0 };
        self.tag ^ selected(&words, &self.waiting, bits, t) ^ window(&words, bits, t) ^ last
    }
}

/// The key pair of an array as words of keystream.
fn key_words(parts: &Parts) -> Vec<u32> {
    let words = parts.key.iter().flat_map(|word| [(word >> 32) as u32, *word as u32]);
    words.take(parts.width / 2).collect()
}

#[cfg(test)]
mod tests {
    use super::*;

    /// A tag whose first words of keystream are these, with none beyond them.
    fn tag(extra_word: bool, tag: u128, key: [u32; 2]) -> Tag {
        let (generator, waiting) = (Ring::turned(&[1; 18], 0), Vec::new());
        Tag { extra_word, width: 4, generator, key: key.to_vec(), tag, waiting }
    }

    /// P9 and P10 of document 01, as far as they need no further word.
    #[test]
    fn tags_of_the_examples() {
        let eia3 = || tag(true, 0, [0x8000_0000, 1]);
        assert_eq!(eia3().finish(&[], 0), 0x8000_0001);
        let zuc256 = || tag(false, 0x8000_0000, [1, 0xf]);
        assert_eq!(zuc256().finish(&[], 0), 0x8000_0001);
        assert_eq!(zuc256().finish(&[0x80], 1), 0x8000_0003);
    }

    /// P11 of document 01.
    #[test]
    fn clean_mode_of_the_examples() {
        let words = [0x1122_3344, 0x5566_7788];
        assert_eq!(clean(&words, &[0; 5], 32), [0x11, 0x22, 0x33, 0x44, 0]);
        assert_eq!(clean(&words, &[0; 5], 35), [0x11, 0x22, 0x33, 0x44, 0x40]);
    }
}
