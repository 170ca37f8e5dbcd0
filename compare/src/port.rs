//! The port's side by its C interface: each call by its input, and each answer as it
//! stands, with what the call leaves in all that it was lent.

use yegetmur::capi::{self, State, TagState};

use crate::input::{Input, Mode, Start, Tagger};

pub fn start(start: Start, input: &Input, state: &mut State) -> u32 {
    let Input { key, iv, count, bearer, direction, .. } = input;
    match start {
        Start::Zuc128 => capi::zuc128_start(state, key, iv),
        Start::Zuc256 => capi::zuc256_start(state, key, iv),
        Start::Eea3 => capi::eea3_start(state, *count, *bearer, *direction, key),
    }
}

pub fn mask(
    mode: Mode,
    state: &mut State,
    buffer: &mut [u8],
    bits: usize,
    count: &mut usize,
) -> u32 {
    match mode {
        Mode::Crate => capi::zuc_mask_crate(state, buffer, bits, count),
        Mode::Clean => capi::zuc_mask_clean(state, buffer, bits, count),
    }
}

pub fn tag_start(tagger: Tagger, input: &Input, state: &mut TagState) -> u32 {
    let Input { key, iv, count, bearer, direction, .. } = input;
    match tagger {
        Tagger::Zuc128 => capi::zuc128_tag_start(state, key, iv),
        Tagger::Eia3 => capi::eia3_tag_start(state, *count, *bearer, *direction, key),
        Tagger::Zuc256 { width } => capi::zuc256_tag_start(state, width, key, iv),
    }
}

pub fn tag_update(tagger: Tagger, state: &mut TagState, message: &[u8]) -> u32 {
    match tagger {
        Tagger::Zuc128 | Tagger::Eia3 => capi::zuc128_tag_update(state, message),
        Tagger::Zuc256 { .. } => capi::zuc256_tag_update(state, message),
    }
}

pub fn tag_finish(
    tagger: Tagger,
    state: &mut TagState,
    tail: &[u8],
    bits: usize,
    tag: &mut [u64; 2],
) -> u32 {
    match tagger {
        Tagger::Zuc128 | Tagger::Eia3 => capi::zuc128_tag_finish(state, tail, bits, tag),
        Tagger::Zuc256 { .. } => capi::zuc256_tag_finish(state, tail, bits, tag),
    }
}

pub fn tag_at_once(tagger: Tagger, input: &Input, tag: &mut [u64; 2]) -> u32 {
    let Input { key, iv, count, bearer, direction, data, bits, .. } = input;
    match tagger {
        Tagger::Zuc128 => capi::zuc128_tag(key, iv, data, *bits, tag),
        Tagger::Eia3 => capi::eia3_tag(*count, *bearer, *direction, key, data, *bits, tag),
        Tagger::Zuc256 { width } => capi::zuc256_tag(width, key, iv, data, *bits, tag),
    }
}

/// A tag as the C interface splits it: 128 bits in two words, others in the first.
pub fn split(tagger: Tagger, tag: u128) -> [u64; 2] {
    match tagger {
        Tagger::Zuc256 { width: 16 } => [(tag >> 64) as u64, tag as u64],
        _ => [tag as u64, 0],
    }
}
