//! The C interface as safe functions, one for each function of include/zuc.h:
//! states are plain arrays that the caller lends, and every function answers the
//! [number](crate::Refusal::number) of its refusal, 0 when it has done its work.
//!
//! The other modules stand on this one and are what most will want. This one is
//! for callers who keep states in their own memory, or who want the numbers.
//!
//! A refusal leaves a lent state, every buffer and every frame as they came and sets
//! `word`, `count`, `drawn`, `tag` and `fields` to 0; a refused start fills its state
//! with zeros.
//!
//! ```
//! use yegetmur::capi::{self, STATE_WORDS};
//! use yegetmur::Refusal;
//!
//! let mut state = [0; STATE_WORDS];
//! assert_eq!(capi::zuc128_start(&mut state, &[0; 16], &[0; 16]), 0);
//! let mut word = 0;
//! assert_eq!(capi::zuc_draw(&mut state, &mut word), 0);
//! assert_eq!(word, 0x27be_de74);
//!
//! let refused = capi::zuc128_start(&mut state, &[0; 15], &[0; 17]);
//! assert_eq!(refused, Refusal::Key.number());
//! assert_eq!(capi::zuc_draw(&mut state, &mut word), Refusal::State.number());
//! assert_eq!((state, word), ([0; STATE_WORDS], 0));
//! ```
//!
//! A state counts the words drawn from it, a generator's at place 19, and a start is
//! spent at [`WORDS_PER_START`]:
//!
//! ```
//! use yegetmur::capi::{self, STATE_WORDS, WORDS_PER_START};
//! use yegetmur::Refusal;
//!
//! let mut state = [0; STATE_WORDS];
//! assert_eq!(capi::zuc128_start(&mut state, &[0; 16], &[0; 16]), 0);
//! assert_eq!(capi::zuc_words(&mut state, &mut [0; 5]), 0);
//! assert_eq!(state[19], 5);
//!
//! state[19] = WORDS_PER_START - 2; // as if so many were drawn
//! let mut out = [7; 3];
//! assert_eq!(capi::zuc_words(&mut state, &mut out), Refusal::Limit.number());
//! assert_eq!((state[19], out), (WORDS_PER_START - 2, [7; 3]));
//! assert_eq!(capi::zuc_words(&mut state, &mut out[..2]), 0);
//! assert_eq!(capi::zuc_draw(&mut state, &mut 0), Refusal::Limit.number());
//! assert_eq!(capi::zuc_words(&mut state, &mut []), 0); // draws none
//! ```

// SAFETY, of every call below: the library asks that a pointer with a length be
// to that many elements and that what it writes to overlap nothing else that it
// is lent. A slice's own pointer and length are so, an exclusive reference
// overlaps nothing, and nothing is kept once a call has returned.

use crate::ffi;

pub use crate::ffi::{Link, State, TagState, STATE_WORDS, TAG_WORDS, WORDS_PER_START};

/// Starts ZUC-128: 16 bytes of key, 16 of IV.
/// [Refuses](crate::Refusal) by Key, Iv.
pub fn zuc128_start(state: &mut State, key: &[u8], iv: &[u8]) -> u32 {
    // SAFETY: see the top.
    unsafe { ffi::zuc128_start(state, key.as_ptr(), key.len(), iv.as_ptr(), iv.len()) }
}

/// Starts ZUC-256: 32 bytes of key, 23 of IV.
/// [Refuses](crate::Refusal) by Key, Iv.
pub fn zuc256_start(state: &mut State, key: &[u8], iv: &[u8]) -> u32 {
    // SAFETY: see the top.
    unsafe { ffi::zuc256_start(state, key.as_ptr(), key.len(), iv.as_ptr(), iv.len()) }
}

/// Starts 128-EEA3: 16 bytes of key.
/// [Refuses](crate::Refusal) by Key.
pub fn eea3_start(state: &mut State, count: u32, bearer: u8, direction: u8, key: &[u8]) -> u32 {
    // SAFETY: see the top.
    unsafe { ffi::eea3_start(state, count, bearer, direction, key.as_ptr(), key.len()) }
}

/// As [`eea3_start`], of a bearer and a direction as given.
/// [Refuses](crate::Refusal) by Key, Field.
pub fn eea3_start_strict(
    state: &mut State,
    count: u32,
    bearer: u8,
    direction: u8,
    key: &[u8],
) -> u32 {
    // SAFETY: see the top.
    unsafe { ffi::eea3_start_strict(state, count, bearer, direction, key.as_ptr(), key.len()) }
}

/// Draws the next word.
/// [Refuses](crate::Refusal) by State, Limit.
pub fn zuc_draw(state: &mut State, word: &mut u32) -> u32 {
    // SAFETY: see the top.
    unsafe { ffi::zuc_draw(state, word) }
}

/// Fills `out` with the next words.
/// [Refuses](crate::Refusal) by State, Limit.
pub fn zuc_words(state: &mut State, out: &mut [u32]) -> u32 {
    // SAFETY: see the top.
    unsafe { ffi::zuc_words(state, out.as_mut_ptr(), out.len()) }
}

/// Masks as the crate does, and counts the words drawn.
/// [Refuses](crate::Refusal) by State, Bits, Limit.
pub fn zuc_mask_crate(state: &mut State, buf: &mut [u8], bits: usize, count: &mut usize) -> u32 {
    // SAFETY: see the top.
    unsafe { ffi::zuc_mask_crate(state, buf.as_mut_ptr(), buf.len(), bits, count) }
}

/// Masks and zeroes every bit past `bits`, and counts the words drawn.
/// [Refuses](crate::Refusal) by State, Bits, Limit.
pub fn zuc_mask_clean(state: &mut State, buf: &mut [u8], bits: usize, count: &mut usize) -> u32 {
    // SAFETY: see the top.
    unsafe { ffi::zuc_mask_clean(state, buf.as_mut_ptr(), buf.len(), bits, count) }
}

/// 128-EEA3 in one call, as the crate does; `drawn` is set to the words drawn.
/// [Refuses](crate::Refusal) by Key, Bits, Limit.
pub fn eea3_mask_crate(
    count: u32,
    bearer: u8,
    direction: u8,
    key: &[u8],
    buf: &mut [u8],
    bits: usize,
    drawn: &mut usize,
) -> u32 {
    let (key_len, len) = (key.len(), buf.len());
    let (key, buf) = (key.as_ptr(), buf.as_mut_ptr());
    // SAFETY: see the top.
    unsafe {
        ffi::eea3_mask_crate(
            count, bearer, direction, key, key_len, buf, len, bits, drawn,
        )
    }
}

/// 128-EEA3 in one call, with every bit past `bits` zeroed.
/// [Refuses](crate::Refusal) by Key, Bits, Limit.
pub fn eea3_mask_clean(
    count: u32,
    bearer: u8,
    direction: u8,
    key: &[u8],
    buf: &mut [u8],
    bits: usize,
    drawn: &mut usize,
) -> u32 {
    let (key_len, len) = (key.len(), buf.len());
    let (key, buf) = (key.as_ptr(), buf.as_mut_ptr());
    // SAFETY: see the top.
    unsafe {
        ffi::eea3_mask_clean(
            count, bearer, direction, key, key_len, buf, len, bits, drawn,
        )
    }
}

/// As [`eea3_mask_crate`], of a bearer and a direction as given.
/// [Refuses](crate::Refusal) by Key, Field, Bits, Limit.
pub fn eea3_mask_crate_strict(
    count: u32,
    bearer: u8,
    direction: u8,
    key: &[u8],
    buf: &mut [u8],
    bits: usize,
    drawn: &mut usize,
) -> u32 {
    let (key_len, len) = (key.len(), buf.len());
    let (key, buf) = (key.as_ptr(), buf.as_mut_ptr());
    // SAFETY: see the top.
    unsafe {
        ffi::eea3_mask_crate_strict(
            count, bearer, direction, key, key_len, buf, len, bits, drawn,
        )
    }
}

/// As [`eea3_mask_clean`], of a bearer and a direction as given.
/// [Refuses](crate::Refusal) by Key, Field, Bits, Limit.
pub fn eea3_mask_clean_strict(
    count: u32,
    bearer: u8,
    direction: u8,
    key: &[u8],
    buf: &mut [u8],
    bits: usize,
    drawn: &mut usize,
) -> u32 {
    let (key_len, len) = (key.len(), buf.len());
    let (key, buf) = (key.as_ptr(), buf.as_mut_ptr());
    // SAFETY: see the top.
    unsafe {
        ffi::eea3_mask_clean_strict(
            count, bearer, direction, key, key_len, buf, len, bits, drawn,
        )
    }
}

/// Starts a ZUC-128 tag: 16 bytes of key, 16 of IV.
/// [Refuses](crate::Refusal) by Key, Iv.
pub fn zuc128_tag_start(state: &mut TagState, key: &[u8], iv: &[u8]) -> u32 {
    // SAFETY: see the top.
    unsafe { ffi::zuc128_tag_start(state, key.as_ptr(), key.len(), iv.as_ptr(), iv.len()) }
}

/// Starts a 128-EIA3 tag: 16 bytes of key.
/// [Refuses](crate::Refusal) by Key.
pub fn eia3_tag_start(
    state: &mut TagState,
    count: u32,
    bearer: u8,
    direction: u8,
    key: &[u8],
) -> u32 {
    // SAFETY: see the top.
    unsafe { ffi::eia3_tag_start(state, count, bearer, direction, key.as_ptr(), key.len()) }
}

/// As [`eia3_tag_start`], of a bearer and a direction as given.
/// [Refuses](crate::Refusal) by Key, Field.
pub fn eia3_tag_start_strict(
    state: &mut TagState,
    count: u32,
    bearer: u8,
    direction: u8,
    key: &[u8],
) -> u32 {
    // SAFETY: see the top.
    unsafe { ffi::eia3_tag_start_strict(state, count, bearer, direction, key.as_ptr(), key.len()) }
}

/// Starts a ZUC-256 tag of `width` bytes: 32 bytes of key, 23 of IV.
/// [Refuses](crate::Refusal) by Width, Key, Iv.
pub fn zuc256_tag_start(state: &mut TagState, width: usize, key: &[u8], iv: &[u8]) -> u32 {
    // SAFETY: see the top.
    unsafe { ffi::zuc256_tag_start(state, width, key.as_ptr(), key.len(), iv.as_ptr(), iv.len()) }
}

/// Takes the next bytes of a message into a ZUC-128 or EIA3 tag.
/// [Refuses](crate::Refusal) by State, Limit.
pub fn zuc128_tag_update(state: &mut TagState, msg: &[u8]) -> u32 {
    // SAFETY: see the top.
    unsafe { ffi::zuc128_tag_update(state, msg.as_ptr(), msg.len()) }
}

/// Takes the next bytes of a message into a ZUC-256 tag.
/// [Refuses](crate::Refusal) by State, Limit.
pub fn zuc256_tag_update(state: &mut TagState, msg: &[u8]) -> u32 {
    // SAFETY: see the top.
    unsafe { ffi::zuc256_tag_update(state, msg.as_ptr(), msg.len()) }
}

/// Takes the last `bits` bits and closes a ZUC-128 or EIA3 tag.
/// [Refuses](crate::Refusal) by State, Bits, Limit.
pub fn zuc128_tag_finish(
    state: &mut TagState,
    tail: &[u8],
    bits: usize,
    tag: &mut [u64; 2],
) -> u32 {
    // SAFETY: see the top.
    unsafe { ffi::zuc128_tag_finish(state, tail.as_ptr(), tail.len(), bits, tag) }
}

/// Takes the last `bits` bits and closes a ZUC-256 tag.
/// [Refuses](crate::Refusal) by State, Bits, Limit.
pub fn zuc256_tag_finish(
    state: &mut TagState,
    tail: &[u8],
    bits: usize,
    tag: &mut [u64; 2],
) -> u32 {
    // SAFETY: see the top.
    unsafe { ffi::zuc256_tag_finish(state, tail.as_ptr(), tail.len(), bits, tag) }
}

/// The ZUC-128 tag of the first `bits` bits of `msg`.
/// [Refuses](crate::Refusal) by Key, Iv, Bits, Limit.
pub fn zuc128_tag(key: &[u8], iv: &[u8], msg: &[u8], bits: usize, tag: &mut [u64; 2]) -> u32 {
    let (key_len, iv_len, len) = (key.len(), iv.len(), msg.len());
    let (key, iv, msg) = (key.as_ptr(), iv.as_ptr(), msg.as_ptr());
    // SAFETY: see the top.
    unsafe { ffi::zuc128_tag(key, key_len, iv, iv_len, msg, len, bits, tag) }
}

/// The 128-EIA3 tag of the first `bits` bits of `msg`.
/// [Refuses](crate::Refusal) by Key, Bits, Limit.
pub fn eia3_tag(
    count: u32,
    bearer: u8,
    direction: u8,
    key: &[u8],
    msg: &[u8],
    bits: usize,
    tag: &mut [u64; 2],
) -> u32 {
    let (key_len, len) = (key.len(), msg.len());
    let (key, msg) = (key.as_ptr(), msg.as_ptr());
    // SAFETY: see the top.
    unsafe { ffi::eia3_tag(count, bearer, direction, key, key_len, msg, len, bits, tag) }
}

/// As [`eia3_tag`], of a bearer and a direction as given.
/// [Refuses](crate::Refusal) by Key, Field, Bits, Limit.
pub fn eia3_tag_strict(
    count: u32,
    bearer: u8,
    direction: u8,
    key: &[u8],
    msg: &[u8],
    bits: usize,
    tag: &mut [u64; 2],
) -> u32 {
    let (key_len, len) = (key.len(), msg.len());
    let (key, msg) = (key.as_ptr(), msg.as_ptr());
    // SAFETY: see the top.
    unsafe { ffi::eia3_tag_strict(count, bearer, direction, key, key_len, msg, len, bits, tag) }
}

/// The ZUC-256 tag, `width` bytes, of the first `bits` bits of `msg`.
/// [Refuses](crate::Refusal) by Width, Key, Iv, Bits, Limit.
pub fn zuc256_tag(
    width: usize,
    key: &[u8],
    iv: &[u8],
    msg: &[u8],
    bits: usize,
    tag: &mut [u64; 2],
) -> u32 {
    let (key_len, iv_len, len) = (key.len(), iv.len(), msg.len());
    let (key, iv, msg) = (key.as_ptr(), iv.as_ptr(), msg.as_ptr());
    // SAFETY: see the top.
    unsafe { ffi::zuc256_tag(width, key, key_len, iv, iv_len, msg, len, bits, tag) }
}

/// Writes a frame around the plain body at its byte 13, which is masked there.
/// [Refuses](crate::Refusal) by Key, Frame, Length, Field, Body, checked in this order.
pub fn zuc_frame_write(
    ck: &[u8],
    ik: &[u8],
    count: u32,
    bearer: u8,
    direction: u8,
    bits: u32,
    frame: &mut [u8],
) -> u32 {
    let (ck_len, ik_len, len) = (ck.len(), ik.len(), frame.len());
    let (ck, ik, frame) = (ck.as_ptr(), ik.as_ptr(), frame.as_mut_ptr());
    // SAFETY: see the top.
    unsafe {
        ffi::zuc_frame_write(
            ck, ck_len, ik, ik_len, count, bearer, direction, bits, frame, len,
        )
    }
}

/// Reads a frame: its tag first; then its body is plain, and `fields` are COUNT, bearer,
/// direction and the bit length.
/// [Refuses](crate::Refusal) by Key, Frame, Length, Field, Body, Tag, checked in this
/// order.
pub fn zuc_frame_read(ck: &[u8], ik: &[u8], frame: &mut [u8], fields: &mut [u32; 4]) -> u32 {
    let (ck_len, ik_len, len) = (ck.len(), ik.len(), frame.len());
    let (ck, ik, frame) = (ck.as_ptr(), ik.as_ptr(), frame.as_mut_ptr());
    // SAFETY: see the top.
    unsafe { ffi::zuc_frame_read(ck, ck_len, ik, ik_len, frame, len, fields) }
}

/// Asks whether `count` may pass on `links[at]`, and if so notes there that it has.
/// [Refuses](crate::Refusal) by Link, Age, Reuse, checked in this order.
pub fn zuc_guard_accept(links: &mut [Link], at: usize, count: u32) -> u32 {
    // SAFETY: see the top.
    unsafe { ffi::zuc_guard_accept(links.as_mut_ptr(), links.len(), at, count) }
}

/// Makes `links[at]` fresh again, for a new key.
/// [Refuses](crate::Refusal) by Link.
pub fn zuc_guard_rekey(links: &mut [Link], at: usize) -> u32 {
    // SAFETY: see the top.
    unsafe { ffi::zuc_guard_rekey(links.as_mut_ptr(), links.len(), at) }
}
