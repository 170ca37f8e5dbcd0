//! The start index of a lent state: how far each call raises it, one above 15 refused,
//! and one state in all its sixteen turns. The keystreams and MAC generators show no
//! state, so they are held to the turned ones by their words and tags.

use yegetmur::capi::{self, State, TagState, STATE_WORDS, TAG_WORDS};
use yegetmur::zuc128::{Zuc128Keystream, Zuc128Mac};
use yegetmur::zuc256::Zuc256Mac;
use yegetmur::Refusal;

const INDEX: usize = 18;
const KEY: [u8; 32] = *b"a key of thirty-two bytes, whole";
const MESSAGE: [u8; 40] = *b"a message of forty bytes, none left over";

/// Where the index of a tag state stands. No caller needs this.
const TAG_INDEX: usize = 9;

fn started() -> State {
    let mut state = [7; STATE_WORDS];
    assert_eq!(capi::zuc128_start(&mut state, &KEY[..16], &KEY[16..]), 0);
    assert_eq!(state[INDEX], 0);
    state
}

/// A tag of ZUC-128 if the width is 0.
fn tag_started(width: usize) -> TagState {
    let mut state = [7; TAG_WORDS];
    let refusal = match width {
        0 => capi::zuc128_tag_start(&mut state, &KEY[..16], &KEY[16..]),
        _ => capi::zuc256_tag_start(&mut state, width, &KEY, &KEY[..23]),
    };
    assert_eq!(refusal, 0);
    state
}

/// Sixteen cells from another index.
fn turned_cells(cells: &[u32], from: usize, to: usize) -> [u32; 16] {
    let mut turned = [0; 16];
    for j in 0..16 {
        turned[(to + j) % 16] = cells[(from + j) % 16];
    }
    turned
}

fn turned(state: &State, index: u8) -> State {
    let mut other = *state;
    let from = usize::try_from(state[INDEX]).unwrap();
    other[..16].copy_from_slice(&turned_cells(&state[..16], from, index.into()));
    other[INDEX] = index.into();
    other
}

/// Two cells stand in one word of a tag state, the first one high.
fn turned_tag(state: &TagState, index: u8) -> TagState {
    let mut other = *state;
    let halves = state[..8]
        .iter()
        .flat_map(|word| [word >> 32, word & 0xffff_ffff]);
    let cells: Vec<u32> = halves.map(|half| half.try_into().unwrap()).collect();
    let from = usize::try_from(state[TAG_INDEX]).unwrap();
    let cells = turned_cells(&cells, from, index.into());
    for (word, pair) in other.iter_mut().zip(cells.chunks(2)) {
        *word = u64::from(pair[0]) << 32 | u64::from(pair[1]);
    }
    other[TAG_INDEX] = index.into();
    other
}

fn draw(state: &mut State) -> u32 {
    let mut word = 0;
    assert_eq!(capi::zuc_draw(state, &mut word), 0);
    word
}

#[test]
fn a_draw_writes_one_cell() {
    let mut state = started();
    for n in 1..=33 {
        let before = state;
        draw(&mut state);
        assert_eq!(state[INDEX], n % 16);
        let written: Vec<usize> = (0..16).filter(|&i| state[i] != before[i]).collect();
        assert_eq!(written, [before[INDEX] as usize]);
    }
}

#[test]
fn every_turn_draws_alike() {
    let mut keystream =
        Zuc128Keystream::new(KEY[..16].try_into().unwrap(), KEY[16..].try_into().unwrap());
    let mut words = [0; 50];
    keystream.generate_into(&mut words);
    for index in 0..16 {
        for n in 0..=words.len() {
            let lent = turned(&started(), index);
            let (mut one, mut all, mut out) = (lent, lent, vec![0; n]);
            assert_eq!(capi::zuc_words(&mut all, &mut out), 0);
            assert_eq!(out, words[..n]);
            assert_eq!(out, (0..n).map(|_| draw(&mut one)).collect::<Vec<_>>());
            assert_eq!(all, one);
            assert_eq!(all[INDEX] as usize, (usize::from(index) + n) % 16);
        }
    }
}

#[test]
fn every_turn_masks_alike() {
    for bits in 0..=8 * MESSAGE.len() {
        let answers = |index| {
            let lent = turned(&started(), index);
            let after = |words: usize| {
                let mut state = lent;
                (0..words).for_each(|_| _ = draw(&mut state));
                state
            };
            let (mut state, mut buffer, mut count) = (lent, MESSAGE, 0);
            assert_eq!(
                capi::zuc_mask_crate(&mut state, &mut buffer, bits, &mut count),
                0
            );
            assert_eq!(state, after(MESSAGE.len() / 4 + 1));
            let (mut state, mut clean, mut clean_count) = (lent, MESSAGE, 0);
            assert_eq!(
                capi::zuc_mask_clean(&mut state, &mut clean, bits, &mut clean_count),
                0
            );
            assert_eq!(state, after(bits.div_ceil(32)));
            (buffer, count, clean, clean_count)
        };
        let first = answers(0);
        assert!((1..16).all(|index| answers(index) == first), "{bits} bits");
    }
}

/// The numbers of a tag in steps, turned before each of them.
fn tag_in_turns(width: usize, cut: usize, index: u8) -> [u64; 2] {
    let mut state = turned_tag(&tag_started(width), index);
    let update = if width == 0 {
        capi::zuc128_tag_update
    } else {
        capi::zuc256_tag_update
    };
    let finish = if width == 0 {
        capi::zuc128_tag_finish
    } else {
        capi::zuc256_tag_finish
    };
    assert_eq!(update(&mut state, &MESSAGE[..cut]), 0);
    let block = width.max(4);
    let drawn = cut / block * block / 4;
    assert_eq!(state[TAG_INDEX], (u64::from(index) + drawn as u64) % 16);
    let mut state = turned_tag(&state, index * index % 16);
    let mut tag = [7; 2];
    assert_eq!(
        finish(
            &mut state,
            &MESSAGE[cut..],
            8 * (MESSAGE.len() - cut) - 3,
            &mut tag
        ),
        0
    );
    assert_eq!(state, [0; TAG_WORDS]);
    tag
}

#[test]
fn every_turn_tags_alike() {
    let bits = 8 * MESSAGE.len() - 3;
    let (short, short_iv) = (KEY[..16].try_into().unwrap(), KEY[16..].try_into().unwrap());
    let iv = KEY[..23].try_into().unwrap();
    let narrow = Zuc128Mac::compute(short, short_iv, &MESSAGE, bits);
    let words: u32 = Zuc256Mac::compute(&KEY, iv, &MESSAGE, bits);
    let wide: u64 = Zuc256Mac::compute(&KEY, iv, &MESSAGE, bits);
    let widest: u128 = Zuc256Mac::compute(&KEY, iv, &MESSAGE, bits);
    let halves = [widest >> 64, widest & u128::from(u64::MAX)].map(|half| half.try_into().unwrap());
    for (width, tag) in [
        (0, [narrow.into(), 0]),
        (4, [words.into(), 0]),
        (8, [wide, 0]),
        (16, halves),
    ] {
        for cut in 0..MESSAGE.len() {
            for index in 0..16 {
                assert_eq!(
                    tag_in_turns(width, cut, index),
                    tag,
                    "width {width}, cut {cut}"
                );
            }
        }
    }
}

#[test]
fn an_index_above_15_is_refused() {
    let malformed = Refusal::State.number();
    for index in [16, 17, 31, 32, 1 << 31, u32::MAX] {
        for mut state in [started(), [0; STATE_WORDS]] {
            state[INDEX] = index;
            let before = state;
            let (mut word, mut out, mut buffer) = (7, [7; 3], [9; 5]);
            assert_eq!(capi::zuc_draw(&mut state, &mut word), malformed);
            assert_eq!(capi::zuc_words(&mut state, &mut out), malformed);
            assert_eq!(capi::zuc_words(&mut state, &mut []), malformed);
            assert_eq!((word, out), (0, [7; 3]));
            for mask in [capi::zuc_mask_crate, capi::zuc_mask_clean] {
                let mut count = 7;
                assert_eq!(mask(&mut state, &mut buffer, 40, &mut count), malformed);
                assert_eq!((buffer, count), ([9; 5], 0));
            }
            assert_eq!(state, before);
        }
    }
}

#[test]
fn an_index_above_15_is_refused_in_a_tag_state() {
    let malformed = Refusal::State.number();
    for index in [
        16,
        17,
        0xffff_ffff,
        1 << 32,
        (1 << 32) + 15,
        1 << 63,
        u64::MAX,
    ] {
        for width in [0, 4, 8, 16] {
            let mut state = tag_started(width);
            state[TAG_INDEX] = index;
            let before = state;
            assert_eq!(capi::zuc128_tag_update(&mut state, b"abc"), malformed);
            assert_eq!(capi::zuc256_tag_update(&mut state, b""), malformed);
            for finish in [capi::zuc128_tag_finish, capi::zuc256_tag_finish] {
                let mut tag = [7; 2];
                assert_eq!(finish(&mut state, b"abc", 24, &mut tag), malformed);
                assert_eq!(tag, [0; 2]);
            }
            assert_eq!(state, before);
        }
    }
}
