//! ZUC-128: keystream, masking, tags of 32 bits.

use crate::capi::{self, TagState};
use crate::generator::{beside_the_crate, Generator};
use crate::refusal::{or_panic, Refusal};
use crate::tag::{answered, started};

/// ZUC-128 keystream generator.
#[derive(Clone)]
pub struct Zuc128Keystream(Generator);

impl Zuc128Keystream {
    /// Creates a ZUC-128 keystream generator.
    #[must_use]
    pub fn new(key: &[u8; 16], iv: &[u8; 16]) -> Self {
        or_panic(Self::try_new(key, iv))
    }

    /// As [`new`](Self::new), of a key and an IV of any length.
    ///
    /// # Errors
    /// [`Refusal::Key`], [`Refusal::Iv`]: one of them is not 16 bytes.
    pub fn try_new(key: &[u8], iv: &[u8]) -> Result<Self, Refusal> {
        Generator::start(|state| capi::zuc128_start(state, key, iv)).map(Self)
    }

    /// Generates the next 32-bit word of the keystream.
    ///
    /// # Panics
    /// If this start is spent: all [`WORDS_PER_START`](crate::WORDS_PER_START) words
    /// are drawn from it.
    pub fn generate(&mut self) -> u32 {
        or_panic(self.try_generate())
    }
}

beside_the_crate!(Zuc128Keystream);

/// ZUC-128 confidentiality algorithm: masks `data` in place as the crate does.
///
/// | name   | size     | description                 |
/// | ------ | -------- | --------------------------- |
/// | ck     | 128 bits | confidentiality key         |
/// | iv     | 128 bits | initial vector              |
/// | data   | -        | the bitstream               |
/// | bitlen | -        | bit length of the bitstream |
///
/// If `bitlen` is a multiple of 8 and below `8 * data.len()`, byte `bitlen / 8`
/// stays masked; [`zuc128_xor_clean`] zeroes it.
///
/// # Panics
/// If `bitlen` is more than `8 * data.len()`, or if it would draw more than
/// [`WORDS_PER_START`](crate::WORDS_PER_START) words: from 2^29 + 8 bytes on.
pub fn zuc128_xor_inplace(ck: &[u8; 16], iv: &[u8; 16], data: &mut [u8], bitlen: usize) {
    or_panic(try_zuc128_xor_inplace(ck, iv, data, bitlen));
}

/// As [`zuc128_xor_inplace`], of a key and an IV of any length, and refuses
/// where that panics. Answers how many words were drawn.
///
/// # Errors
/// [`Refusal::Key`], [`Refusal::Iv`], [`Refusal::Bits`], [`Refusal::Limit`];
/// `data` is then as it came.
pub fn try_zuc128_xor_inplace(
    ck: &[u8],
    iv: &[u8],
    data: &mut [u8],
    bitlen: usize,
) -> Result<usize, Refusal> {
    Zuc128Keystream::try_new(ck, iv)?.try_xor_inplace(data, bitlen)
}

/// Masks the first `bitlen` bits of `data` in place and zeroes every bit after
/// them.
///
/// # Panics
/// If `bitlen` is more than `8 * data.len()`, or if it would draw more than
/// [`WORDS_PER_START`](crate::WORDS_PER_START) words: from 2^32 + 65 bits on.
pub fn zuc128_xor_clean(ck: &[u8; 16], iv: &[u8; 16], data: &mut [u8], bitlen: usize) {
    or_panic(try_zuc128_xor_clean(ck, iv, data, bitlen));
}

/// As [`zuc128_xor_clean`], of a key and an IV of any length, and refuses where
/// that panics. Answers how many words were drawn.
///
/// # Errors
/// [`Refusal::Key`], [`Refusal::Iv`], [`Refusal::Bits`], [`Refusal::Limit`];
/// `data` is then as it came.
pub fn try_zuc128_xor_clean(
    ck: &[u8],
    iv: &[u8],
    data: &mut [u8],
    bitlen: usize,
) -> Result<usize, Refusal> {
    Zuc128Keystream::try_new(ck, iv)?.try_xor_clean(data, bitlen)
}

/// ZUC-128 MAC generator.
pub struct Zuc128Mac(pub(crate) TagState);

impl Zuc128Mac {
    /// Computes the MAC of a message.
    ///
    /// | name   | size     | description                     |
    /// | ------ | -------- | ------------------------------- |
    /// | ik     | 128 bits | integrity key                   |
    /// | iv     | 128 bits | initial vector                  |
    /// | msg    | -        | the input message               |
    /// | bitlen | -        | bit length of the input message |
    ///
    /// # Panics
    /// If `bitlen` is more than `8 * msg.len()`, or if it would draw more than
    /// [`WORDS_PER_START`](crate::WORDS_PER_START) words: above 2^32 bits.
    #[must_use]
    pub fn compute(ik: &[u8; 16], iv: &[u8; 16], msg: &[u8], bitlen: usize) -> u32 {
        or_panic(Self::try_compute(ik, iv, msg, bitlen))
    }

    /// As [`compute`](Self::compute), of a key and an IV of any length, and
    /// refuses where that panics.
    ///
    /// # Errors
    /// [`Refusal::Key`], [`Refusal::Iv`], [`Refusal::Bits`], [`Refusal::Limit`].
    pub fn try_compute(ik: &[u8], iv: &[u8], msg: &[u8], bitlen: usize) -> Result<u32, Refusal> {
        answered(|tag| capi::zuc128_tag(ik, iv, msg, bitlen, tag))
    }

    /// Creates a ZUC-128 MAC generator.
    #[must_use]
    pub fn new(ik: &[u8; 16], iv: &[u8; 16]) -> Self {
        or_panic(Self::try_new(ik, iv))
    }

    /// As [`new`](Self::new), of a key and an IV of any length.
    ///
    /// # Errors
    /// [`Refusal::Key`], [`Refusal::Iv`]: one of them is not 16 bytes.
    pub fn try_new(ik: &[u8], iv: &[u8]) -> Result<Self, Refusal> {
        started(|state| capi::zuc128_tag_start(state, ik, iv)).map(Self)
    }

    /// Updates the MAC generator with the bytes of a message.
    ///
    /// # Panics
    /// If [`try_finish`](Self::try_finish) has closed it, or if it would draw more
    /// words than are left of this start.
    pub fn update(&mut self, msg: &[u8]) {
        or_panic(self.try_update(msg));
    }

    /// As [`update`](Self::update), and refuses where that panics.
    ///
    /// # Errors
    /// [`Refusal::State`], [`Refusal::Limit`]; the generator is then as it was.
    pub fn try_update(&mut self, msg: &[u8]) -> Result<(), Refusal> {
        Refusal::check(capi::zuc128_tag_update(&mut self.0, msg))
    }

    /// Finishes the MAC generation and returns the MAC.
    ///
    /// # Panics
    /// If `bitlen` is more than `8 * tail.len()`, if
    /// [`try_finish`](Self::try_finish) has closed it, or if it would draw more
    /// words than are left of this start.
    #[must_use]
    pub fn finish(mut self, tail: &[u8], bitlen: usize) -> u32 {
        or_panic(self.try_finish(tail, bitlen))
    }

    /// As [`finish`](Self::finish), and refuses where that panics. Once it has
    /// answered a tag the generator is closed and refuses everything.
    ///
    /// # Errors
    /// [`Refusal::State`], [`Refusal::Bits`], [`Refusal::Limit`]; the generator is
    /// then as it was and can go on.
    pub fn try_finish(&mut self, tail: &[u8], bitlen: usize) -> Result<u32, Refusal> {
        answered(|tag| capi::zuc128_tag_finish(&mut self.0, tail, bitlen, tag))
    }
}
