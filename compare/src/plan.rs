//! Which inputs are tried.

use yegetmur::capi::{STATE_WORDS, TAG_WORDS};

use crate::input::{lengths, Call, Input, Mode, Start, Tagger};
use crate::layout::{pack, Parts};
use crate::limits;
use crate::model::Tag;
use crate::original::{start_state, tag_start_state};
use crate::ring::Ring;
use crate::rng::Rng;
use crate::turns;

pub const STARTS: [Start; 3] = [Start::Zuc128, Start::Zuc256, Start::Eea3];

pub const TAGGERS: [Tagger; 5] = [
    Tagger::Zuc128,
    Tagger::Eia3,
    Tagger::Zuc256 { width: 4 },
    Tagger::Zuc256 { width: 8 },
    Tagger::Zuc256 { width: 16 },
];

pub const MODES: [Mode; 2] = [Mode::Crate, Mode::Clean];

/// Bit lengths that no buffer tried here has, some of them a product that overflows.
pub const HUGE_BITS: [usize; 9] = [
    1 << 32,
    (1 << 32) + 8,
    1 << 61,
    (1 << 61) + 8,
    1 << 63,
    (1 << 63) + 8,
    usize::MAX - 8,
    usize::MAX - 7,
    usize::MAX,
];

/// What is done with an input.
pub type Try<'a> = &'a mut dyn FnMut(Input);

/// Makes inputs and has each tried.
pub type Inputs = fn(&mut Rng, Try);

/// The sections of the quick run, each with the inputs that it tries.
pub const SECTIONS: [(&str, Inputs); 25] = [
    ("words: keys and IVs of structure", structured),
    ("words: 0 to 70 at a time", word_counts),
    ("EEA3, EIA3: every bearer with every direction", bearers_and_directions),
    ("masks: 0 to 40 bytes, every bit length", short_masks),
    ("tags: 0 to 40 bytes, every bit length", short_tags),
    ("tags: every way to cut 0 to 12 bytes", every_cut),
    ("tags: two updates that end near a block's end", cut_near_blocks),
    ("tags: one bit of four blocks", single_bits),
    ("masks, tags: near multiples of 4 .. 64 bytes", around_multiples),
    ("masks, tags: bit lengths past any buffer", huge_bits),
    ("lengths of keys and IVs, tag widths", wrong_lengths),
    ("generator states as lent arrays", lent_states),
    ("tag states as lent arrays", lent_tags),
    ("16 turns: 0 to 70 words, 0 to 40 bytes", turns::short_states),
    ("16 turns: tags of 0 to 20 bytes", turns::short_tags),
    ("16 turns: edges of cells and lengths", turns::edges),
    ("16 turns: random, to 16 KiB", turns::random_turns),
    ("start indices to 15 and above, cells spoilt", turns::indices),
    ("limit: from a start, 0 to 9 words left", limits::after_starts),
    ("limit: generator states, 0 to 65 words left", limits::states),
    ("limit: tag states, 0 to 9 words left", limits::tags),
    ("limit: 16 turns, and random words left", limits::random_lefts),
    ("counts above the limit, cells spoilt", limits::counts_above),
    ("random, to 2 KiB", random_short),
    ("random, to 1 MiB", random_long),
];

/// A call with everything but its data at random.
pub fn keyed(rng: &mut Rng, call: Call) -> Input {
    let mut input = Input::of(call);
    rng.fill(&mut input.key);
    rng.fill(&mut input.iv);
    if input.takes_fields() {
        input.count = rng.number() as u32;
        input.bearer = rng.byte();
        input.direction = rng.byte();
    }
    input
}

/// The same over data at random, with a bit length.
pub fn over(rng: &mut Rng, call: Call, length: usize, bits: usize) -> Input {
    let mut input = keyed(rng, call);
    input.data = rng.bytes(length);
    input.bits = bits;
    input
}

/// The calls of a mask, in both modes from every start.
fn mask_calls() -> impl Iterator<Item = Call> {
    MODES.into_iter().flat_map(|mode| STARTS.map(|start| Call::Mask(mode, start)))
}

/// The calls that take data and a bit length.
fn data_calls() -> impl Iterator<Item = Call> {
    mask_calls().chain(TAGGERS.map(Call::Tag))
}

/// Lists of `n` bytes in which a slip of order or place shows: all alike, counting,
/// one bit set, one byte set, one byte clear.
fn shapes(n: usize) -> Vec<Vec<u8>> {
    let mut shapes: Vec<Vec<u8>> = [0, 0xff, 0x55, 0xaa, 0x80, 0x01].map(|b| vec![b; n]).into();
    shapes.push((0..n).map(|i| i as u8).collect());
    shapes.push((0..n).map(|i| 0xff - i as u8).collect());
    let one = |place: usize, byte: u8, other: u8| -> Vec<u8> {
        (0..n).map(|i| if i == place { byte } else { other }).collect()
    };
    shapes.extend((0..8 * n).map(|bit| one(bit / 8, 0x80 >> (bit % 8), 0)));
    shapes.extend((0..n).map(|place| one(place, 0xff, 0)));
    shapes.extend((0..n).map(|place| one(place, 0, 0xff)));
    shapes
}

fn structured(rng: &mut Rng, attempt: Try) {
    for call in STARTS.map(Call::Words).into_iter().chain(TAGGERS.map(Call::Tag)) {
        let (key_length, iv_length) = lengths(call);
        for background in [0, 0xff] {
            let mut input = over(rng, call, 9, 67);
            input.words = 40;
            input.key.fill(background);
            input.iv.fill(background);
            for key in shapes(key_length) {
                attempt(Input { key, ..input.clone() });
            }
            for iv in shapes(iv_length) {
                attempt(Input { iv, ..input.clone() });
            }
            if input.takes_fields() {
                for bit in 0..32 {
                    attempt(Input { count: 1 << bit, ..input.clone() });
                }
            }
        }
    }
}

fn word_counts(rng: &mut Rng, attempt: Try) {
    for start in STARTS {
        for words in 0..=70 {
            let input = keyed(rng, Call::Words(start));
            attempt(Input { words, ..input });
        }
    }
}

fn bearers_and_directions(rng: &mut Rng, attempt: Try) {
    for bearer in 0..=255 {
        for direction in 0..=255 {
            let input = keyed(rng, Call::Words(Start::Eea3));
            attempt(Input { bearer, direction, words: 2, ..input });
            let input = over(rng, Call::Tag(Tagger::Eia3), 5, 35);
            attempt(Input { bearer, direction, ..input });
        }
    }
}

fn short_masks(rng: &mut Rng, attempt: Try) {
    every_bit_length(rng, mask_calls(), attempt);
}

fn short_tags(rng: &mut Rng, attempt: Try) {
    every_bit_length(rng, TAGGERS.map(Call::Tag), attempt);
}

/// Up to 40 bytes, and up to 9 bits too many.
fn every_bit_length(rng: &mut Rng, calls: impl IntoIterator<Item = Call>, attempt: Try) {
    for call in calls {
        for length in 0..=40 {
            for bits in 0..=8 * length + 9 {
                attempt(over(rng, call, length, bits));
            }
        }
    }
}

/// The pieces of `n` bytes cut after each place whose bit is set in `places`.
fn cut(n: usize, places: usize) -> Vec<usize> {
    let mut pieces = vec![];
    let mut begun = 0;
    for end in 1..=n {
        if end == n || places >> (end - 1) & 1 == 1 {
            pieces.push(end - begun);
            begun = end;
        }
    }
    pieces
}

fn every_cut(rng: &mut Rng, attempt: Try) {
    for call in TAGGERS.map(Call::Tag) {
        for n in 0..=12_usize {
            for places in 0..1 << n.saturating_sub(1) {
                let pieces = cut(n, places);
                let input = over(rng, call, n, 0);
                // all in updates; the same with an empty update before each
                attempt(Input { cuts: pieces.clone(), ..input.clone() });
                let padded = pieces.iter().flat_map(|&piece| [0, piece]).collect();
                attempt(Input { cuts: padded, ..input.clone() });
                // the last piece at the end, whole and in part
                let Some((&last, cuts)) = pieces.split_last() else { continue };
                for bits in [8 * last, 8 * last - 1, 8 * last - 1 - rng.below(7)] {
                    attempt(Input { cuts: cuts.to_vec(), bits, ..input.clone() });
                }
            }
        }
    }
}

/// Two updates, each of up to four blocks less a byte, and a last part of up to a block and a bit. A
/// block has as many bytes as the tag.
fn cut_near_blocks(rng: &mut Rng, attempt: Try) {
    for tagger in TAGGERS {
        let (_, size) = tagger.kind();
        let near: Vec<usize> =
            (0..=3).flat_map(|n| [n * size, n * size + 1, (n + 1) * size - 1]).collect();
        for &first in &near {
            for &second in &near {
                for bits in [0, 1, 7, 8, 8 * size - 1, 8 * size, 8 * size + 1] {
                    let length = first + second + bits.div_ceil(8);
                    let input = over(rng, Call::Tag(tagger), length, bits);
                    attempt(Input { cuts: vec![first, second], ..input });
                }
            }
        }
    }
}

/// One bit set of four blocks, and one clear: a window at the wrong place shows by itself.
fn single_bits(rng: &mut Rng, attempt: Try) {
    for tagger in TAGGERS {
        let length = 4 * tagger.kind().1;
        for bit in 0..8 * length {
            for background in [0, 0xff] {
                let mut input = over(rng, Call::Tag(tagger), length, 8 * length);
                input.data.fill(background);
                input.data[bit / 8] ^= 0x80 >> (bit % 8);
                attempt(input);
            }
        }
    }
}

/// Lengths next to the first multiples of what words, tags and blocks are made of.
pub fn edge_lengths() -> Vec<usize> {
    let mut lengths: Vec<usize> = [4, 8, 16, 32, 64]
        .into_iter()
        .flat_map(|size| (1..=16).map(move |times| size * times))
        .flat_map(|length| [length - 1, length, length + 1])
        .collect();
    lengths.sort_unstable();
    lengths.dedup();
    lengths
}

fn around_multiples(rng: &mut Rng, attempt: Try) {
    for length in edge_lengths() {
        for call in data_calls() {
            for less in [0, 1, 7, 8, 9, 31, 32, 33, 63, 64, 65, 127, 128, 129] {
                let mut input = over(rng, call, length, (8 * length).saturating_sub(less));
                attempt(input.clone());
                if let Call::Tag(_) = call {
                    let first = rng.below(input.bits / 8 + 1);
                    input.bits -= 8 * first;
                    input.cuts = vec![first];
                    attempt(input);
                }
            }
            attempt(over(rng, call, length, 8 * length + 1));
        }
    }
}

fn huge_bits(rng: &mut Rng, attempt: Try) {
    for call in data_calls() {
        for length in 0..=8 {
            for bits in HUGE_BITS {
                attempt(over(rng, call, length, bits));
            }
        }
    }
}

/// Every length of a key with every length of an IV, and right lengths and widths with
/// 2^8, 2^16 or 2^32 added.
fn wrong_lengths(rng: &mut Rng, attempt: Try) {
    let widths = (0..=20).chain([32, 64, 128, 260, 65540, usize::MAX, 1 << 63]);
    let widths = widths.chain([4, 8, 16].map(|width| width + (1 << 32)));
    let wide = widths.map(|width| Call::Tag(Tagger::Zuc256 { width }));
    let narrow = [Tagger::Zuc128, Tagger::Eia3].map(Call::Tag);
    for call in STARTS.map(Call::Words).into_iter().chain(narrow).chain(wide) {
        let (right_key, right_iv) = lengths(call);
        for key in (0..=40).chain([right_key + 256, right_key + 65536]) {
            for iv in (0..=40).chain([right_iv + 256, right_iv + 65536]) {
                let mut input = over(rng, call, 1, 8 + key % 2);
                input.key.resize(key, 1);
                if right_iv > 0 {
                    input.iv.resize(iv, 1);
                }
                attempt(input);
            }
        }
    }
}

/// Cells and registers at which a sum, a fold or a half could slip.
pub const EDGE_CELLS: [u32; 10] =
    [1, 2, 0x7fff, 0x8000, 0xffff, 0x1_0000, 0x4000_0000, 0x7fff_8000, 0x7fff_fffe, 0x7fff_ffff];

/// An array lent to every call that takes one, with a little data and a bit length that
/// is at times one too many.
fn lent(rng: &mut Rng, call: Call, array: Vec<u64>) -> Input {
    let length = rng.below(10);
    let bits = rng.below(8 * length + 2);
    let input = over(rng, call, length, bits);
    Input { array, words: 20, ..input }
}

fn lent_states(rng: &mut Rng, attempt: Try) {
    for start in STARTS {
        let input = keyed(rng, Call::Words(start));
        let good = Ring::turned(&start_state(start, &input), rng.below(16)).array();
        for place in 0..STATE_WORDS {
            for number in [0, 1, 0x7fff_ffff, 0x8000_0000, 0x8000_0001, 0xffff_ffff] {
                let mut array = good.map(u64::from);
                array[place] = number;
                attempt(lent(rng, Call::LentState, array.to_vec()));
            }
        }
    }
    for number in [0, 1, 0x7fff_ffff, 0x8000_0000, 0xffff_ffff] {
        attempt(lent(rng, Call::LentState, vec![number; STATE_WORDS]));
        for index in 0..16 {
            let mut array = vec![number; STATE_WORDS];
            array[18..].copy_from_slice(&[index, limits::count(rng)]);
            attempt(lent(rng, Call::LentState, array));
        }
    }
    for _ in 0..5000 {
        let mut array = [0; STATE_WORDS].map(|_: u64| rng.pick(&EDGE_CELLS).into());
        array[18..].copy_from_slice(&[rng.below(17) as u64, limits::count(rng)]);
        attempt(lent(rng, Call::LentState, array.to_vec()));
        let mut array = [0; STATE_WORDS].map(|_: u64| 1 + rng.number() % 0x7fff_ffff);
        array[16..18].fill_with(|| rng.number() >> 32);
        array[18..].copy_from_slice(&[rng.below(17) as u64, limits::count(rng)]);
        attempt(lent(rng, Call::LentState, array.to_vec()));
    }
}

/// Numbers to put in the place of one of an array's.
fn spoilt(number: u64) -> impl Iterator<Item = u64> {
    let flipped = (0..64).map(move |bit| number ^ 1 << bit);
    let edges = [0, 1, 0x7fff_ffff, 0x8000_0000, 0xffff_ffff, 1 << 32, 1 << 63, u64::MAX];
    flipped.chain(edges).chain([number.wrapping_add(1), number.wrapping_sub(1)])
}

fn lent_tags(rng: &mut Rng, attempt: Try) {
    for tagger in TAGGERS {
        for taken in [0, 1, 3, 4, 7, 15, 17] {
            let input = keyed(rng, Call::Tag(tagger));
            let generator = Ring::turned(&tag_start_state(tagger, &input), 0);
            let mut tag = Tag::start(tagger, generator);
            tag.update(&rng.bytes(taken));
            let good = pack(&tag.parts());
            attempt(lent(rng, Call::LentTag, good.to_vec()));
            for place in 0..TAG_WORDS {
                for number in spoilt(good[place]) {
                    let mut array = good.to_vec();
                    array[place] = number;
                    attempt(lent(rng, Call::LentTag, array));
                }
            }
        }
    }
    for number in [0, 1, u64::MAX] {
        attempt(lent(rng, Call::LentTag, vec![number; TAG_WORDS]));
    }
    for _ in 0..5000 {
        let parts = random_parts(rng);
        attempt(lent(rng, Call::LentTag, pack(&parts).to_vec()));
        let array = (0..TAG_WORDS).map(|_| rng.number() >> rng.below(64)).collect();
        attempt(lent(rng, Call::LentTag, array));
    }
}

/// Parts that are well formed, or are so but for one slip, not in the generator.
pub fn random_parts(rng: &mut Rng) -> Parts {
    let width = rng.pick(&[4, 8, 16]);
    let mut parts = Parts {
        generator: [0; 18].map(|_: u32| rng.pick(&EDGE_CELLS)),
        start: rng.below(16) as u64,
        drawn: limits::count(rng),
        key: [0; 4].map(|_: u64| rng.number()),
        tag: [0; 2].map(|_: u64| rng.number()),
        waiting: [0; 16],
        count: rng.below(width),
        width,
    };
    match width {
        4 => {
            parts.key[1..].fill(0);
            parts.tag = [parts.tag[0] >> 32, 0];
        }
        8 => {
            parts.key[2..].fill(0);
            parts.tag[1] = 0;
        }
        _ => {}
    }
    rng.fill(&mut parts.waiting[..parts.count]);
    match rng.below(16) {
        0 => parts.width = rng.below(20),
        1 => parts.count = rng.below(20),
        2 => parts.key[rng.below(4)] = 1,
        3 => parts.tag[rng.below(2)] = 1 << 32,
        4 => parts.waiting[rng.below(16)] = 1,
        _ => {}
    }
    parts
}

fn random_short(rng: &mut Rng, attempt: Try) {
    for _ in 0..60_000 {
        attempt(random(rng, 11));
    }
}

fn random_long(rng: &mut Rng, attempt: Try) {
    for _ in 0..3_000 {
        attempt(random(rng, 20));
    }
}

/// One input at random: any call, data up to 2^`log` bytes.
pub fn random(rng: &mut Rng, log: usize) -> Input {
    let words = STARTS.map(Call::Words);
    let calls: Vec<Call> = data_calls().chain(words).collect();
    let call = rng.pick(&calls);
    let length = rng.length(log);
    let mut input = over(rng, call, length, 0);
    if rng.below(8) == 0 {
        let (key, iv) = lengths(call);
        input.key = rng.pick(&shapes(key));
        input.iv = rng.pick(&shapes(iv));
    }
    input.words = length / 4;
    if let Call::Tag(_) = call {
        for _ in 0..rng.below(6) {
            let left = input.tail().len();
            let longest = if rng.below(2) == 0 { left.min(20) } else { left };
            input.cuts.push(rng.below(longest + 1));
        }
    }
    input.bits = random_bits(rng, input.tail().len());
    input
}

/// A bit length for so many bytes: the end, near the end, a whole number of bytes,
/// anything, or too much.
fn random_bits(rng: &mut Rng, bytes: usize) -> usize {
    match rng.below(8) {
        0 | 1 => 8 * bytes,
        2 => 8 * bytes - rng.below(8 * bytes.min(20) + 1),
        3 => 8 * rng.below(bytes + 1),
        4 => 8 * bytes + 1 + rng.below(20),
        _ => rng.below(8 * bytes + 1),
    }
}
