//! The functions of include/zuc.h, as the linker finds them, and the arrays and
//! links that they are lent. `capi` stands on this module and hands them on.

/// Numbers in a generator's state: `ZUC_STATE_WORDS` of zuc.h.
pub const STATE_WORDS: usize = 20;

/// Numbers in a tag's state: `ZUC_TAG_WORDS` of zuc.h.
pub const TAG_WORDS: usize = 21;

/// How many words can be drawn from one start: `ZUC_WORDS_PER_START` of zuc.h. It is
/// what a 128-EIA3 tag of 2^32 bits draws.
///
/// A call that would draw more than are left is refused by
/// [`Refusal::Limit`](crate::Refusal::Limit), before it alters anything.
pub const WORDS_PER_START: u32 = 134_217_730;

/// A generator's state: sixteen places, then R1, R2, a start index of 0..15, and how many
/// words are drawn, 0..=[`WORDS_PER_START`].
///
/// The cells stay put and are to be read from the index: cell j of the standard stands
/// at place (index + j) mod 16. A start leaves index 0 and count 0. Each word drawn raises
/// the index by one, from 15 back to 0, and the count by one. States that agree so read
/// are one state: every call answers the same to them.
pub type State = [u32; STATE_WORDS];

/// A tag's state. It counts its words, too.
pub type TagState = [u64; TAG_WORDS];

/// A link of a [`Guard`](crate::Guard)'s table: `struct zuc_link` of zuc.h.
///
/// Any two numbers are taken as they are. A bit past bit `highest` would stand for
/// a COUNT below 0: no answer depends on it, and an accepted COUNT clears it.
#[repr(C)]
#[derive(Clone, Copy, Debug, Default, PartialEq, Eq, Hash)]
pub struct Link {
    /// The highest COUNT accepted, 0 if none was.
    pub highest: u32,
    /// Which of the 64 counts ending there were accepted: bit i for COUNT
    /// `highest - i`.
    pub accepted: u64,
}

#[rustfmt::skip]
extern "C" {
    pub fn zuc128_start(state: &mut State, key: *const u8, key_len: usize, iv: *const u8, iv_len: usize) -> u32;
    pub fn zuc256_start(state: &mut State, key: *const u8, key_len: usize, iv: *const u8, iv_len: usize) -> u32;
    pub fn eea3_start(state: &mut State, count: u32, bearer: u8, direction: u8, key: *const u8, key_len: usize) -> u32;
    pub fn eea3_start_strict(state: &mut State, count: u32, bearer: u8, direction: u8, key: *const u8, key_len: usize) -> u32;
    pub fn zuc_draw(state: &mut State, word: &mut u32) -> u32;
    pub fn zuc_words(state: &mut State, out: *mut u32, n: usize) -> u32;
    pub fn zuc_mask_crate(state: &mut State, buf: *mut u8, len: usize, bits: usize, count: &mut usize) -> u32;
    pub fn zuc_mask_clean(state: &mut State, buf: *mut u8, len: usize, bits: usize, count: &mut usize) -> u32;
    pub fn eea3_mask_crate(count: u32, bearer: u8, direction: u8, key: *const u8, key_len: usize, buf: *mut u8, len: usize, bits: usize, drawn: &mut usize) -> u32;
    pub fn eea3_mask_clean(count: u32, bearer: u8, direction: u8, key: *const u8, key_len: usize, buf: *mut u8, len: usize, bits: usize, drawn: &mut usize) -> u32;
    pub fn eea3_mask_crate_strict(count: u32, bearer: u8, direction: u8, key: *const u8, key_len: usize, buf: *mut u8, len: usize, bits: usize, drawn: &mut usize) -> u32;
    pub fn eea3_mask_clean_strict(count: u32, bearer: u8, direction: u8, key: *const u8, key_len: usize, buf: *mut u8, len: usize, bits: usize, drawn: &mut usize) -> u32;
    pub fn zuc128_tag_start(state: &mut TagState, key: *const u8, key_len: usize, iv: *const u8, iv_len: usize) -> u32;
    pub fn eia3_tag_start(state: &mut TagState, count: u32, bearer: u8, direction: u8, key: *const u8, key_len: usize) -> u32;
    pub fn eia3_tag_start_strict(state: &mut TagState, count: u32, bearer: u8, direction: u8, key: *const u8, key_len: usize) -> u32;
    pub fn zuc256_tag_start(state: &mut TagState, width: usize, key: *const u8, key_len: usize, iv: *const u8, iv_len: usize) -> u32;
    pub fn zuc128_tag_update(state: &mut TagState, msg: *const u8, len: usize) -> u32;
    pub fn zuc256_tag_update(state: &mut TagState, msg: *const u8, len: usize) -> u32;
    pub fn zuc128_tag_finish(state: &mut TagState, tail: *const u8, len: usize, bits: usize, tag: &mut [u64; 2]) -> u32;
    pub fn zuc256_tag_finish(state: &mut TagState, tail: *const u8, len: usize, bits: usize, tag: &mut [u64; 2]) -> u32;
    pub fn zuc128_tag(key: *const u8, key_len: usize, iv: *const u8, iv_len: usize, msg: *const u8, len: usize, bits: usize, tag: &mut [u64; 2]) -> u32;
    pub fn eia3_tag(count: u32, bearer: u8, direction: u8, key: *const u8, key_len: usize, msg: *const u8, len: usize, bits: usize, tag: &mut [u64; 2]) -> u32;
    pub fn eia3_tag_strict(count: u32, bearer: u8, direction: u8, key: *const u8, key_len: usize, msg: *const u8, len: usize, bits: usize, tag: &mut [u64; 2]) -> u32;
    pub fn zuc256_tag(width: usize, key: *const u8, key_len: usize, iv: *const u8, iv_len: usize, msg: *const u8, len: usize, bits: usize, tag: &mut [u64; 2]) -> u32;
    pub fn zuc_frame_write(ck: *const u8, ck_len: usize, ik: *const u8, ik_len: usize, count: u32, bearer: u8, direction: u8, bits: u32, frame: *mut u8, len: usize) -> u32;
    pub fn zuc_frame_read(ck: *const u8, ck_len: usize, ik: *const u8, ik_len: usize, frame: *mut u8, len: usize, fields: &mut [u32; 4]) -> u32;
    pub fn zuc_guard_accept(links: *mut Link, len: usize, at: usize, count: u32) -> u32;
    pub fn zuc_guard_rekey(links: *mut Link, len: usize, at: usize) -> u32;
}
