//! How many words a tag draws, by the counts of document 01 ("Tags"), and where the limit per
//! start (request 2026-09) refuses it.

use crate::rules::limit_refusal;

/// The words drawn after so many bytes.
fn drawn_after(extra_word: bool, width: usize, bytes: usize) -> usize {
    let t = 8 * width;
    if extra_word {
        2 + bytes / 4
    } else {
        t / 32 * (3 + 8 * bytes / t)
    }
}

/// The words drawn by a tag of so many bits when it is closed.
pub fn drawn_by_tag(extra_word: bool, width: usize, bits: usize) -> usize {
    let t = 8 * width;
    if extra_word {
        bits.div_ceil(32) + 2
    } else {
        t / 32 * (3 + bits / t)
    }
}

/// A tag after so many bytes, or after so many in its last block: what it draws further is the
/// same. Its count may be another one than that of a start and these bytes.
#[derive(Clone, Copy)]
pub struct Words {
    extra_word: bool,
    width: usize,
    bytes: usize,
    count: usize,
}

impl Words {
    pub fn of(extra_word: bool, width: usize, bytes: usize, count: usize) -> Self {
        Self { extra_word, width, bytes, count }
    }

    /// After a start.
    pub fn started((extra_word, width): (bool, usize)) -> Self {
        Self::of(extra_word, width, 0, drawn_after(extra_word, width, 0))
    }

    pub fn counted(self, count: usize) -> Self {
        Self { count, ..self }
    }

    pub fn count(&self) -> usize {
        self.count
    }

    /// The number by which the limit refuses an update by so many bytes; it takes them if
    /// that is 0.
    pub fn update(&mut self, bytes: usize) -> u32 {
        let before = drawn_after(self.extra_word, self.width, self.bytes);
        let drawn = drawn_after(self.extra_word, self.width, self.bytes + bytes) - before;
        let refusal = limit_refusal(self.count, drawn);
        if refusal == 0 {
            self.bytes += bytes;
            self.count += drawn;
        }
        refusal
    }

    /// The number by which the limit refuses a finish by so many bits, 0 if it does not.
    pub fn finish(&self, bits: usize) -> u32 {
        let before = drawn_after(self.extra_word, self.width, self.bytes);
        let all = drawn_by_tag(self.extra_word, self.width, 8 * self.bytes + bits);
        limit_refusal(self.count, all - before)
    }
}

#[cfg(test)]
mod tests {
    use super::*;
    use crate::rules::LIMIT;

    /// However a message is cut, a tag has drawn as many words.
    #[test]
    fn cuts_do_not_matter() {
        for kind in [(true, 4), (false, 4), (false, 8), (false, 16)] {
            for (one, other) in (0..40).flat_map(|one| (0..40).map(move |other| (one, other))) {
                let (mut cut, mut whole) = (Words::started(kind), Words::started(kind));
                assert_eq!([cut.update(one), cut.update(other), whole.update(one + other)], [0; 3]);
                assert_eq!(cut.count(), whole.count());
            }
        }
    }

    /// The limit is what an EIA3 tag of 2^32 bits draws (request 2026-09).
    #[test]
    fn the_limit_of_eia3() {
        assert_eq!(drawn_by_tag(true, 4, 1 << 32), LIMIT);
        assert_eq!(drawn_by_tag(true, 4, (1 << 32) + 1), LIMIT + 1);
        for (width, bits) in [(4, 1 << 32), (8, (1 << 32) - 64), (16, (1 << 32) - 256)] {
            assert!(drawn_by_tag(false, width, bits - 1) <= LIMIT);
            assert!(drawn_by_tag(false, width, bits) > LIMIT);
        }
    }
}
