//! Which states are tried in their turns, and which start indices.

use yegetmur::capi::{State, STATE_WORDS};

use crate::input::{Call, Input, Tagger};
use crate::layout::{pack, START};
use crate::limits;
use crate::model::Tag;
use crate::original::{start_state, tag_start_state};
use crate::plan::{edge_lengths, keyed, over, random_parts, Try, EDGE_CELLS, STARTS, TAGGERS};
use crate::ring::Ring;
use crate::rng::Rng;

/// Indices above 15, in an array of 64-bit words; the first ones fit in 32 bits.
const ABOVE: [u64; 13] = [
    16,
    17,
    31,
    32,
    255,
    256,
    0x7fff_ffff,
    0x8000_0000,
    0xffff_ffff,
    1 << 32,
    (1 << 32) + 15,
    1 << 63,
    u64::MAX,
];

/// Numbers that no cell may be.
pub const NO_CELLS: [u64; 3] = [0, 0x8000_0000, 0xffff_ffff];

/// The array after a start.
pub fn started(rng: &mut Rng) -> State {
    let start = rng.pick(&STARTS);
    let input = keyed(rng, Call::Words(start));
    Ring::turned(&start_state(start, &input), 0).array()
}

/// The array of a tag that has taken so many bytes.
pub fn tag_started(rng: &mut Rng, tagger: Tagger, taken: usize) -> Vec<u64> {
    let input = keyed(rng, Call::Tag(tagger));
    let mut tag = Tag::start(tagger, Ring::turned(&tag_start_state(tagger, &input), 0));
    tag.update(&rng.bytes(taken));
    pack(&tag.parts()).to_vec()
}

pub fn wide(array: &[u32]) -> Vec<u64> {
    array.iter().map(|&number| number.into()).collect()
}

/// A state in its turns, with data.
pub fn turns(rng: &mut Rng, array: &[u32], length: usize, bits: usize, words: usize) -> Input {
    let input = over(rng, Call::StateTurns, length, bits);
    Input { array: wide(array), words, ..input }
}

pub fn tag_turns(rng: &mut Rng, array: Vec<u64>, length: usize, bits: usize) -> Input {
    Input { array, ..over(rng, Call::TagTurns, length, bits) }
}

/// 0 to 70 words, and 0 to 40 bytes with every bit length and one too many.
pub fn short_states(rng: &mut Rng, attempt: Try) {
    for _ in 0..3 {
        for words in 0..=70 {
            let array = started(rng);
            attempt(turns(rng, &array, words % 8, 3 * (words % 8), words));
        }
        for length in 0..=40 {
            for bits in 0..=8 * length + 1 {
                let array = started(rng);
                attempt(turns(rng, &array, length, bits, 0));
            }
        }
    }
}

/// 0 to 20 bytes with every bit length and one too many, after 0 to 16 taken.
pub fn short_tags(rng: &mut Rng, attempt: Try) {
    for tagger in TAGGERS {
        for length in 0..=20 {
            for bits in 0..=8 * length + 1 {
                let array = tag_started(rng, tagger, bits % 17);
                attempt(tag_turns(rng, array, length, bits));
            }
        }
    }
}

/// Cells at the edges, and lengths at those of words, blocks and a whole round of places.
pub fn edges(rng: &mut Rng, attempt: Try) {
    for length in edge_lengths() {
        for less in [0, 1, 8, 33] {
            let bits = (8 * length).saturating_sub(less);
            let array = started(rng);
            attempt(turns(rng, &array, length, bits, length));
        }
    }
    for _ in 0..2000 {
        let mut array = [0; STATE_WORDS].map(|_: u32| rng.pick(&EDGE_CELLS));
        array[18..].copy_from_slice(&[rng.below(16) as u32, limits::count(rng) as u32]);
        attempt(turns(rng, &array, 5, 39, 40));
        let length = rng.below(20);
        let parts = random_parts(rng);
        attempt(tag_turns(rng, pack(&parts).to_vec(), length, 8 * length));
    }
}

/// One array under every index: those above 15 are refused, whatever the cells. Each is
/// tried as it is, and with every cell spoilt in its turn.
pub fn indices(rng: &mut Rng, attempt: Try) {
    for index in (0..16).chain(ABOVE) {
        for place in 0..=16 {
            let mut array = wide(&started(rng));
            array[18] = index & 0xffff_ffff;
            if place < 16 {
                array[place] = rng.pick(&NO_CELLS);
            }
            attempt(Input { array, words: 20, ..over(rng, Call::LentState, 9, 70) });
        }
        for tagger in TAGGERS {
            for place in 0..=16 {
                let mut array = tag_started(rng, tagger, place);
                array[START] = index;
                if place < 16 {
                    spoil_half(&mut array[place / 2], place % 2, rng.pick(&NO_CELLS));
                }
                attempt(Input { array, ..over(rng, Call::LentTag, 9, 70) });
            }
        }
    }
}

/// Puts a number in the place of one half of a word, the high one first.
pub fn spoil_half(word: &mut u64, half: usize, number: u64) {
    let low = 32 - 32 * half;
    *word = *word & !(0xffff_ffff << low) | number << low;
}

pub fn random_turns(rng: &mut Rng, attempt: Try) {
    for _ in 0..3000 {
        attempt(random(rng, 9));
    }
    for _ in 0..200 {
        attempt(random(rng, 14));
    }
}

/// Any state in its turns with up to 2^`log` bytes, for a tag up to 2^7.
pub fn random(rng: &mut Rng, log: usize) -> Input {
    if rng.below(2) == 0 {
        let length = rng.length(log.min(7));
        let bits = rng.below(8 * length + 2);
        let tagger = rng.pick(&TAGGERS);
        let taken = rng.below(40);
        let array = tag_started(rng, tagger, taken);
        return tag_turns(rng, array, length, bits);
    }
    let length = rng.length(log);
    let (bits, words) = (rng.below(8 * length + 2), rng.length(log - 2));
    let array = started(rng);
    turns(rng, &array, length, bits, words)
}
