//! 128-EEA3, the 3GPP confidentiality algorithm: ZUC-128 with the IV that COUNT,
//! BEARER and DIRECTION make.
//!
//! Of `bearer` the low 5 bits count, of `direction` the lowest, as in the crate. Where
//! that is not wanted there are strict forms: they refuse a bearer above 31 and a
//! direction above 1, and answer the same as the others to all else.
//!
//! ```
//! use yegetmur::eea3::{eea3_xor_clean_strict, try_eea3_xor_clean};
//! use yegetmur::Refusal;
//!
//! let mut block = *b"register";
//! assert_eq!(eea3_xor_clean_strict(7, 33, 1, &[3; 16], &mut block, 64), Err(Refusal::Field));
//! assert_eq!(&block, b"register"); // a refusal alters nothing
//!
//! let mut other = block;
//! assert_eq!(eea3_xor_clean_strict(7, 1, 1, &[3; 16], &mut block, 64), Ok(2)); // words drawn
//! try_eea3_xor_clean(7, 33, 1, &[3; 16], &mut other, 64)?; // takes 33 for 1
//! assert_eq!(block, other);
//! # Ok::<(), Refusal>(())
//! ```

use crate::capi;
use crate::generator::{beside_the_crate, Generator};
use crate::refusal::{or_panic, Refusal};

/// 128-EEA3 keystream generator.
pub struct Eea3Keystream(Generator);

impl Eea3Keystream {
    /// Creates a 128-EEA3 keystream generator.
    #[must_use]
    pub fn new(count: u32, bearer: u8, direction: u8, ck: &[u8; 16]) -> Self {
        or_panic(Self::try_new(count, bearer, direction, ck))
    }

    /// As [`new`](Self::new), of a key of any length.
    ///
    /// # Errors
    /// [`Refusal::Key`]: the key is not 16 bytes.
    pub fn try_new(count: u32, bearer: u8, direction: u8, ck: &[u8]) -> Result<Self, Refusal> {
        Generator::start(|state| capi::eea3_start(state, count, bearer, direction, ck)).map(Self)
    }

    /// As [`try_new`](Self::try_new), of a bearer and a direction as given.
    ///
    /// # Errors
    /// [`Refusal::Key`]; then [`Refusal::Field`]: the bearer is above 31 or the direction
    /// above 1.
    pub fn new_strict(count: u32, bearer: u8, direction: u8, ck: &[u8]) -> Result<Self, Refusal> {
        Generator::start(|state| capi::eea3_start_strict(state, count, bearer, direction, ck))
            .map(Self)
    }

    /// Generates the next 32-bit word of the keystream.
    ///
    /// # Panics
    /// If this start is spent: all [`WORDS_PER_START`](crate::WORDS_PER_START) words
    /// are drawn from it.
    pub fn generate(&mut self) -> u32 {
        or_panic(self.try_generate())
    }
}

beside_the_crate!(Eea3Keystream);

/// 128-EEA3: masks `data` in place as the crate does.
///
/// | name      | size     | description                           |
/// | --------- | -------- | ------------------------------------- |
/// | count     | 32 bits  | counter                               |
/// | bearer    | 5 bits   | carrier layer identification          |
/// | direction | 1 bit    | transmission direction identification |
/// | ck        | 128 bits | confidentiality key                   |
/// | data      | -        | the bitstream                         |
/// | bitlen    | -        | bit length of the bitstream           |
///
/// If `bitlen` is a multiple of 8 and below `8 * data.len()`, byte `bitlen / 8`
/// stays masked; [`eea3_xor_clean`] zeroes it.
///
/// # Panics
/// If `bitlen` is more than `8 * data.len()`, or if it would draw more than
/// [`WORDS_PER_START`](crate::WORDS_PER_START) words: from 2^29 + 8 bytes on.
pub fn eea3_xor_inplace(
    count: u32,
    bearer: u8,
    direction: u8,
    ck: &[u8; 16],
    data: &mut [u8],
    bitlen: usize,
) {
    or_panic(try_eea3_xor_inplace(
        count, bearer, direction, ck, data, bitlen,
    ));
}

/// As [`eea3_xor_inplace`], of a key of any length, and refuses where that
/// panics. Answers how many words were drawn.
///
/// # Errors
/// [`Refusal::Key`], [`Refusal::Bits`], [`Refusal::Limit`]; `data` is then as it
/// came.
pub fn try_eea3_xor_inplace(
    count: u32,
    bearer: u8,
    direction: u8,
    ck: &[u8],
    data: &mut [u8],
    bitlen: usize,
) -> Result<usize, Refusal> {
    drawn(|n| capi::eea3_mask_crate(count, bearer, direction, ck, data, bitlen, n))
}

/// Masks the first `bitlen` bits of `data` in place and zeroes every bit after
/// them.
///
/// # Panics
/// If `bitlen` is more than `8 * data.len()`, or if it would draw more than
/// [`WORDS_PER_START`](crate::WORDS_PER_START) words: from 2^32 + 65 bits on.
pub fn eea3_xor_clean(
    count: u32,
    bearer: u8,
    direction: u8,
    ck: &[u8; 16],
    data: &mut [u8],
    bitlen: usize,
) {
    or_panic(try_eea3_xor_clean(
        count, bearer, direction, ck, data, bitlen,
    ));
}

/// As [`eea3_xor_clean`], of a key of any length, and refuses where that panics.
/// Answers how many words were drawn.
///
/// # Errors
/// [`Refusal::Key`], [`Refusal::Bits`], [`Refusal::Limit`]; `data` is then as it
/// came.
pub fn try_eea3_xor_clean(
    count: u32,
    bearer: u8,
    direction: u8,
    ck: &[u8],
    data: &mut [u8],
    bitlen: usize,
) -> Result<usize, Refusal> {
    drawn(|n| capi::eea3_mask_clean(count, bearer, direction, ck, data, bitlen, n))
}

/// As [`try_eea3_xor_inplace`], of a bearer and a direction as given.
///
/// # Errors
/// [`Refusal::Key`], [`Refusal::Field`], [`Refusal::Bits`], [`Refusal::Limit`], checked
/// in this order; `data` is then as it came.
pub fn eea3_xor_inplace_strict(
    count: u32,
    bearer: u8,
    direction: u8,
    ck: &[u8],
    data: &mut [u8],
    bitlen: usize,
) -> Result<usize, Refusal> {
    drawn(|n| capi::eea3_mask_crate_strict(count, bearer, direction, ck, data, bitlen, n))
}

/// As [`try_eea3_xor_clean`], of a bearer and a direction as given.
///
/// # Errors
/// [`Refusal::Key`], [`Refusal::Field`], [`Refusal::Bits`], [`Refusal::Limit`], checked
/// in this order; `data` is then as it came.
pub fn eea3_xor_clean_strict(
    count: u32,
    bearer: u8,
    direction: u8,
    ck: &[u8],
    data: &mut [u8],
    bitlen: usize,
) -> Result<usize, Refusal> {
    drawn(|n| capi::eea3_mask_clean_strict(count, bearer, direction, ck, data, bitlen, n))
}

/// The words that a mask in one call drew.
fn drawn(mask: impl FnOnce(&mut usize) -> u32) -> Result<usize, Refusal> {
    let mut words = 0;
    Refusal::check(mask(&mut words))?;
    Ok(words)
}
