//! 128-EIA3, the 3GPP integrity algorithm: a ZUC-128 tag with the IV that COUNT,
//! BEARER and DIRECTION make.
//!
//! Of `bearer` the low 5 bits count, of `direction` the lowest, as in the crate. Where
//! that is not wanted there are strict forms: they refuse a bearer above 31 and a
//! direction above 1, and answer the same as the others to all else.
//!
//! ```
//! use yegetmur::eia3::Eia3Mac;
//! use yegetmur::Refusal;
//!
//! assert_eq!(Eia3Mac::compute_strict(7, 1, 2, &[3; 16], b"block", 40), Err(Refusal::Field));
//! let tag = Eia3Mac::compute_strict(7, 1, 0, &[3; 16], b"block", 40)?;
//! assert_eq!(tag, Eia3Mac::compute(7, 33, 2, &[3; 16], b"block", 40)); // takes 33 for 1
//!
//! let mut mac = Eia3Mac::new_strict(7, 1, 0, &[3; 16])?;
//! mac.update(b"bl");
//! assert_eq!(mac.finish(b"ock", 24), tag);
//! # Ok::<(), Refusal>(())
//! ```

use crate::capi;
use crate::refusal::{or_panic, Refusal};
use crate::tag::{answered, started};
use crate::zuc128::Zuc128Mac;

/// 128-EIA3 MAC generator.
pub struct Eia3Mac(Zuc128Mac);

impl Eia3Mac {
    /// Computes the MAC of a message.
    ///
    /// | name      | size     | description                           |
    /// | --------- | -------- | ------------------------------------- |
    /// | count     | 32 bits  | counter                               |
    /// | bearer    | 5 bits   | carrier layer identification          |
    /// | direction | 1 bit    | transmission direction identification |
    /// | ik        | 128 bits | integrity key                         |
    /// | msg       | -        | the input message                     |
    /// | bitlen    | -        | bit length of the input message       |
    ///
    /// # Panics
    /// If `bitlen` is more than `8 * msg.len()`, or if it would draw more than
    /// [`WORDS_PER_START`](crate::WORDS_PER_START) words: above 2^32 bits.
    #[must_use]
    pub fn compute(
        count: u32,
        bearer: u8,
        direction: u8,
        ik: &[u8; 16],
        msg: &[u8],
        bitlen: usize,
    ) -> u32 {
        or_panic(Self::try_compute(count, bearer, direction, ik, msg, bitlen))
    }

    /// As [`compute`](Self::compute), of a key of any length, and refuses where
    /// that panics.
    ///
    /// # Errors
    /// [`Refusal::Key`], [`Refusal::Bits`], [`Refusal::Limit`].
    pub fn try_compute(
        count: u32,
        bearer: u8,
        direction: u8,
        ik: &[u8],
        msg: &[u8],
        bitlen: usize,
    ) -> Result<u32, Refusal> {
        answered(|tag| capi::eia3_tag(count, bearer, direction, ik, msg, bitlen, tag))
    }

    /// As [`try_compute`](Self::try_compute), of a bearer and a direction as given.
    ///
    /// # Errors
    /// [`Refusal::Key`], [`Refusal::Field`], [`Refusal::Bits`], [`Refusal::Limit`],
    /// checked in this order.
    pub fn compute_strict(
        count: u32,
        bearer: u8,
        direction: u8,
        ik: &[u8],
        msg: &[u8],
        bitlen: usize,
    ) -> Result<u32, Refusal> {
        answered(|tag| capi::eia3_tag_strict(count, bearer, direction, ik, msg, bitlen, tag))
    }

    /// Creates a 128-EIA3 MAC generator.
    #[must_use]
    pub fn new(count: u32, bearer: u8, direction: u8, ik: &[u8; 16]) -> Self {
        or_panic(Self::try_new(count, bearer, direction, ik))
    }

    /// As [`new`](Self::new), of a key of any length.
    ///
    /// # Errors
    /// [`Refusal::Key`]: the key is not 16 bytes.
    pub fn try_new(count: u32, bearer: u8, direction: u8, ik: &[u8]) -> Result<Self, Refusal> {
        started(|state| capi::eia3_tag_start(state, count, bearer, direction, ik))
            .map(|state| Self(Zuc128Mac(state)))
    }

    /// As [`try_new`](Self::try_new), of a bearer and a direction as given.
    ///
    /// # Errors
    /// [`Refusal::Key`]; then [`Refusal::Field`]: the bearer is above 31 or the direction
    /// above 1.
    pub fn new_strict(count: u32, bearer: u8, direction: u8, ik: &[u8]) -> Result<Self, Refusal> {
        started(|state| capi::eia3_tag_start_strict(state, count, bearer, direction, ik))
            .map(|state| Self(Zuc128Mac(state)))
    }

    /// Updates the MAC generator with the bytes of a message.
    ///
    /// # Panics
    /// If [`try_finish`](Self::try_finish) has closed it, or if it would draw more
    /// words than are left of this start.
    pub fn update(&mut self, msg: &[u8]) {
        self.0.update(msg);
    }

    /// As [`update`](Self::update), and refuses where that panics.
    ///
    /// # Errors
    /// [`Refusal::State`], [`Refusal::Limit`]; the generator is then as it was.
    pub fn try_update(&mut self, msg: &[u8]) -> Result<(), Refusal> {
        self.0.try_update(msg)
    }

    /// Finishes the MAC generation and returns the MAC.
    ///
    /// # Panics
    /// If `bitlen` is more than `8 * tail.len()`, if
    /// [`try_finish`](Self::try_finish) has closed it, or if it would draw more
    /// words than are left of this start.
    #[must_use]
    pub fn finish(self, tail: &[u8], bitlen: usize) -> u32 {
        self.0.finish(tail, bitlen)
    }

    /// As [`finish`](Self::finish), and refuses where that panics. Once it has
    /// answered a tag the generator is closed and refuses everything.
    ///
    /// # Errors
    /// [`Refusal::State`], [`Refusal::Bits`], [`Refusal::Limit`]; the generator is
    /// then as it was and can go on.
    pub fn try_finish(&mut self, tail: &[u8], bitlen: usize) -> Result<u32, Refusal> {
        self.0.try_finish(tail, bitlen)
    }
}
