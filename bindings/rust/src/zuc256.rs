//! ZUC-256: keystream, masking, tags of 32, 64 and 128 bits.

use core::marker::PhantomData;

use crate::capi::{self, TagState};
use crate::generator::{beside_the_crate, Generator};
use crate::refusal::{or_panic, Refusal};
use crate::tag::{answered, started, Tag};

/// ZUC-256 keystream generator.
#[derive(Clone)]
pub struct Zuc256Keystream(Generator);

impl Zuc256Keystream {
    /// Creates a ZUC-256 keystream generator. The IV is 17 bytes and then eight
    /// numbers of 6 bits, joined together highest bit first.
    #[must_use]
    pub fn new(k: &[u8; 32], iv: &[u8; 23]) -> Self {
        or_panic(Self::try_new(k, iv))
    }

    /// As [`new`](Self::new), of a key and an IV of any length.
    ///
    /// # Errors
    /// [`Refusal::Key`]: the key is not 32 bytes. [`Refusal::Iv`]: the IV is not 23.
    pub fn try_new(k: &[u8], iv: &[u8]) -> Result<Self, Refusal> {
        Generator::start(|state| capi::zuc256_start(state, k, iv)).map(Self)
    }

    /// Generates the next 32-bit word of the keystream.
    ///
    /// # Panics
    /// If this start is spent: all [`WORDS_PER_START`](crate::WORDS_PER_START) words
    /// are drawn from it.
    #[must_use]
    pub fn generate(&mut self) -> u32 {
        or_panic(self.try_generate())
    }
}

beside_the_crate!(Zuc256Keystream);

/// What a ZUC-256 tag can be: `u32`, `u64` or `u128`.
pub trait MacTag: Tag {}

impl MacTag for u32 {}
impl MacTag for u64 {}
impl MacTag for u128 {}

/// ZUC-256 MAC generator. `T` is the type of the tag: `u32`, `u64` or `u128`.
pub struct Zuc256Mac<T: MacTag> {
    state: TagState,
    tag: PhantomData<T>,
}

impl<T: MacTag> Zuc256Mac<T> {
    /// Bytes of a tag.
    const WIDTH: usize = size_of::<T>();

    /// Computes the MAC of a message.
    ///
    /// | name   | size     | description                     |
    /// | ------ | -------- | ------------------------------- |
    /// | T      | -        | type of the output MAC          |
    /// | ik     | 256 bits | integrity key                   |
    /// | iv     | 184 bits | initial vector                  |
    /// | msg    | -        | the input message               |
    /// | bitlen | -        | bit length of the input message |
    ///
    /// # Panics
    /// If `bitlen` is more than `8 * msg.len()`, or if it would draw more than
    /// [`WORDS_PER_START`](crate::WORDS_PER_START) words: from 2^32 bits on for a tag
    /// of 32 bits, from 2^32 - 64 for 64 and from 2^32 - 256 for 128.
    #[must_use]
    pub fn compute(ik: &[u8; 32], iv: &[u8; 23], msg: &[u8], bitlen: usize) -> T {
        or_panic(Self::try_compute(ik, iv, msg, bitlen))
    }

    /// As [`compute`](Self::compute), of a key and an IV of any length, and
    /// refuses where that panics.
    ///
    /// # Errors
    /// [`Refusal::Key`], [`Refusal::Iv`], [`Refusal::Bits`], [`Refusal::Limit`].
    pub fn try_compute(ik: &[u8], iv: &[u8], msg: &[u8], bitlen: usize) -> Result<T, Refusal> {
        answered(|tag| capi::zuc256_tag(Self::WIDTH, ik, iv, msg, bitlen, tag))
    }

    /// Creates a ZUC-256 MAC generator.
    #[must_use]
    pub fn new(ik: &[u8; 32], iv: &[u8; 23]) -> Self {
        or_panic(Self::try_new(ik, iv))
    }

    /// As [`new`](Self::new), of a key and an IV of any length.
    ///
    /// # Errors
    /// [`Refusal::Key`]: the key is not 32 bytes. [`Refusal::Iv`]: the IV is not 23.
    pub fn try_new(ik: &[u8], iv: &[u8]) -> Result<Self, Refusal> {
        let state = started(|state| capi::zuc256_tag_start(state, Self::WIDTH, ik, iv))?;
        Ok(Self {
            state,
            tag: PhantomData,
        })
    }

    /// Updates the MAC generator with the bytes of a message.
    ///
    /// # Panics
    /// If [`try_finish`](Self::try_finish) has closed it, or if it would draw more
    /// words than are left of this start.
    pub fn update(&mut self, msg: &[u8]) {
        or_panic(self.try_update(msg));
    }

    /// As [`update`](Self::update), and refuses where that panics.
    ///
    /// # Errors
    /// [`Refusal::State`], [`Refusal::Limit`]; the generator is then as it was.
    pub fn try_update(&mut self, msg: &[u8]) -> Result<(), Refusal> {
        Refusal::check(capi::zuc256_tag_update(&mut self.state, msg))
    }

    /// Finishes the MAC generation and returns the MAC.
    ///
    /// # Panics
    /// If `bitlen` is more than `8 * tail.len()`, if
    /// [`try_finish`](Self::try_finish) has closed it, or if it would draw more
    /// words than are left of this start.
    #[allow(clippy::must_use_candidate)] // as the crate's
    pub fn finish(mut self, tail: &[u8], bitlen: usize) -> T {
        or_panic(self.try_finish(tail, bitlen))
    }

    /// As [`finish`](Self::finish), and refuses where that panics. Once it has
    /// answered a tag the generator is closed and refuses everything.
    ///
    /// # Errors
    /// [`Refusal::State`], [`Refusal::Bits`], [`Refusal::Limit`]; the generator is
    /// then as it was and can go on.
    pub fn try_finish(&mut self, tail: &[u8], bitlen: usize) -> Result<T, Refusal> {
        answered(|tag| capi::zuc256_tag_finish(&mut self.state, tail, bitlen, tag))
    }
}
