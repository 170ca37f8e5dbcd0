//! Which states are tried about the limit per start (request 2026-09): a few words before
//! it, at it, and with a count above it.

use crate::input::{Call, Input, Tagger};
use crate::layout::DRAWN;
use crate::plan::{over, random, Try, HUGE_BITS, MODES, STARTS, TAGGERS};
use crate::rng::Rng;
use crate::rules::LIMIT;
use crate::turns::{spoil_half, started, tag_started, tag_turns, turns, wide, NO_CELLS};

/// Where the count of a generator's state stands.
const COUNT: usize = 19;

/// Words left: none, a few, and about as many as the port draws in one run.
const LEFTS: [usize; 14] = [0, 1, 2, 3, 4, 5, 7, 8, 15, 16, 17, 63, 64, 65];

/// Counts at the limit and above it, in an array of 64-bit words; the first ones fit in 32
/// bits, and some of the others would be well formed if they were cut to 32.
const COUNTS: [u64; 14] = [
    0,
    1,
    LIMIT as u64 - 1,
    LIMIT as u64,
    LIMIT as u64 + 1,
    LIMIT as u64 + 2,
    0x0fff_ffff,
    0x7fff_ffff,
    0x8000_0000,
    0xffff_ffff,
    1 << 32,
    (1 << 32) + LIMIT as u64,
    1 << 63,
    u64::MAX,
];

/// A count of a well-formed state: none, any, and often a few words before the limit.
pub fn count(rng: &mut Rng) -> u64 {
    let left = match rng.below(4) {
        0 => LIMIT,
        1 => rng.below(LIMIT + 1),
        2 => rng.below(4),
        _ => rng.below(50),
    };
    (LIMIT - left) as u64
}

/// Bit lengths at the ends of so many bytes, one too many and far too many.
fn bit_lengths(bytes: usize) -> Vec<usize> {
    let end = 8 * bytes;
    let mut bits = vec![0, 1, 8, end + 1, HUGE_BITS[0], HUGE_BITS[8]];
    bits.extend([32, 9, 8, 7, 1, 0].map(|less| end.saturating_sub(less)));
    bits.sort_unstable();
    bits.dedup();
    bits
}

/// From a start of every kind, so that where the port accepts the crate has the answer: words,
/// masks in both modes, and tags cut in two.
pub fn after_starts(rng: &mut Rng, attempt: Try) {
    for left in 0..=3 {
        for start in STARTS {
            for words in 0..=left + 3 {
                let input = over(rng, Call::Words(start), 0, 0);
                attempt(Input { words, left: Some(left), ..input });
            }
            for call in MODES.map(|mode| Call::Mask(mode, start)) {
                for length in 0..=4 * left + 9 {
                    for bits in bit_lengths(length) {
                        attempt(Input { left: Some(left), ..over(rng, call, length, bits) });
                    }
                }
            }
        }
    }
    for tagger in TAGGERS {
        for left in tag_lefts(tagger) {
            for length in 0..=4 * left + 9 {
                for first in [0, 1, 3, 4, 5, 8, 15, 16, 17].into_iter().filter(|&n| n <= length) {
                    for bits in bit_lengths(length - first) {
                        let input = over(rng, Call::Tag(tagger), length, bits);
                        attempt(Input { cuts: vec![first], left: Some(left), ..input });
                    }
                }
            }
        }
    }
}

fn width(tagger: Tagger) -> usize {
    tagger.kind().1
}

/// Words left that matter to a tag, which draws as many at once as a block has.
fn tag_lefts(tagger: Tagger) -> impl Iterator<Item = usize> {
    0..=2 * (width(tagger) / 4) + 1
}

/// Generators lent to every call, from any index.
pub fn states(rng: &mut Rng, attempt: Try) {
    for left in LEFTS {
        for length in (4 * left).saturating_sub(9)..=4 * left + 9 {
            for bits in bit_lengths(length) {
                let mut array = wide(&started(rng));
                array[COUNT] = (LIMIT - left) as u64;
                let words = (left + bits % 7).saturating_sub(3);
                attempt(Input { array, words, ..over(rng, Call::LentState, length, bits) });
            }
        }
    }
}

/// Tags lent to every call, with any number of bytes waiting.
pub fn tags(rng: &mut Rng, attempt: Try) {
    for tagger in TAGGERS {
        for taken in 0..width(tagger) {
            for left in tag_lefts(tagger) {
                for length in 0..=2 * width(tagger) + 1 {
                    for bits in bit_lengths(length) {
                        let mut array = tag_started(rng, tagger, taken);
                        array[DRAWN] = (LIMIT - left) as u64;
                        attempt(Input { array, ..over(rng, Call::LentTag, length, bits) });
                    }
                }
            }
        }
    }
}

/// States in all their turns; and any call with about as many words left as it draws.
pub fn random_lefts(rng: &mut Rng, attempt: Try) {
    for _ in 0..500 {
        let mut array = started(rng);
        array[COUNT] = (LIMIT - rng.below(20)) as u32;
        let (length, words) = (rng.below(70), rng.below(20));
        let bits = rng.below(8 * length + 2);
        attempt(turns(rng, &array, length, bits, words));

        let (tagger, taken, length) = (rng.pick(&TAGGERS), rng.below(40), rng.below(40));
        let mut array = tag_started(rng, tagger, taken);
        array[DRAWN] = (LIMIT - rng.below(12)) as u64;
        let bits = rng.below(8 * length + 2);
        attempt(tag_turns(rng, array, length, bits));
    }
    for _ in 0..5000 {
        let input = random(rng, 11);
        let drawn = input.data.len() / 4;
        let left = (drawn + rng.below(9)).saturating_sub(4);
        attempt(Input { left: Some(left), ..input });
    }
}

/// One array under every count: those above the limit are refused, whatever the cells. Each
/// is tried as it is, and with every cell spoilt in its turn.
pub fn counts_above(rng: &mut Rng, attempt: Try) {
    for count in COUNTS {
        for place in 0..=16 {
            let mut array = wide(&started(rng));
            array[COUNT] = count & 0xffff_ffff;
            if place < 16 {
                array[place] = rng.pick(&NO_CELLS);
            }
            attempt(Input { array, words: 20, ..over(rng, Call::LentState, 9, 70) });
        }
        for tagger in TAGGERS {
            for place in 0..=16 {
                let mut array = tag_started(rng, tagger, place);
                array[DRAWN] = count;
                if place < 16 {
                    spoil_half(&mut array[place / 2], place % 2, rng.pick(&NO_CELLS));
                }
                attempt(Input { array, ..over(rng, Call::LentTag, 9, 70) });
            }
        }
    }
}
