//! The refusals of document 01 and of requests 2026-02 and 2026-09, for what the crate's types leave
//! no room to ask.

use crate::input::{lengths, Call, Input, Mode, Tagger};

pub const BAD_WIDTH: u32 = 1;
pub const BAD_KEY: u32 = 2;
pub const BAD_IV: u32 = 3;
pub const BAD_STATE: u32 = 4;
pub const BAD_BITS: u32 = 5;
pub const SPENT: u32 = 16;

/// How many words can be drawn from one start.
pub const LIMIT: usize = 134_217_730;

/// The number by which a start with this input is refused, 0 if it is not.
pub fn start_refusal(input: &Input) -> u32 {
    let (key, iv) = lengths(input.call);
    match input.call {
        Call::Tag(Tagger::Zuc256 { width }) if ![4, 8, 16].contains(&width) => BAD_WIDTH,
        _ if input.key.len() != key => BAD_KEY,
        _ if input.iv.len() != iv => BAD_IV,
        _ => 0,
    }
}

/// The number by which a bit length is refused, 0 if it is not.
pub fn bits_refusal(bits: usize, bytes: usize) -> u32 {
    let too_many = bits as u128 > 8 * bytes as u128;
    if too_many {
        BAD_BITS
    } else {
        0
    }
}

/// The number by which a call that would draw so many words is refused, once `count` are
/// drawn; 0 if it is not.
pub fn limit_refusal(count: usize, words: usize) -> u32 {
    let left = LIMIT.checked_sub(count).expect("no count above the limit");
    if words > left {
        SPENT
    } else {
        0
    }
}

/// The words that a mask draws: crate mode by the bytes (document 01), clean mode by the bits
/// (request 2026-02: as many as EEA3 draws).
pub fn mask_words(mode: Mode, bytes: usize, bits: usize) -> usize {
    match mode {
        Mode::Crate => bytes / 4 + 1,
        Mode::Clean => bits.div_ceil(32),
    }
}

/// The first of two refusals.
pub fn first(one: u32, other: u32) -> u32 {
    if one == 0 {
        other
    } else {
        one
    }
}

/// Whether the cells of a state are all in 1..=2147483647.
pub fn well_formed(cells: &[u32]) -> bool {
    cells.iter().all(|cell| (1..1 << 31).contains(cell))
}

/// The IV that EEA3 makes.
pub fn eea3_iv(count: u32, bearer: u8, direction: u8) -> [u8; 16] {
    let mut iv = [0; 16];
    for half in iv.chunks_mut(8) {
        half[..4].copy_from_slice(&count.to_be_bytes());
        half[4] = bearer % 32 * 8 + direction % 2 * 4;
    }
    iv
}

/// The IV that EIA3 makes.
pub fn eia3_iv(count: u32, bearer: u8, direction: u8) -> [u8; 16] {
    let mut iv = eea3_iv(count, bearer, 0);
    iv[8] ^= direction % 2 * 128;
    iv[14] ^= direction % 2 * 128;
    iv
}

/// The d row of a ZUC-256 tag, by its width in bytes.
pub fn d_row(width: usize) -> [u8; 16] {
    let mut row = [
        0x22, 0x2f, 0x24, 0x2a, 0x6d, 0x40, 0x40, 0x40, 0x40, 0x40, 0x40, 0x40, 0x40, 0x52, 0x10,
        0x30,
    ];
    if width != 4 {
        row[0] = 0x23;
    }
    if width != 8 {
        row[2] = 0x25;
    }
    row
}
