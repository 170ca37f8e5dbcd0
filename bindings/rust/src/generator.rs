//! A generator and what all keystreams do with one.

use crate::capi::{self, State, STATE_WORDS};
use crate::refusal::Refusal;

/// A well-formed state: no other is ever made.
#[derive(Clone)]
pub(crate) struct Generator(State);

impl Generator {
    /// A generator by one of the starts of [`capi`].
    pub fn start(start: impl FnOnce(&mut State) -> u32) -> Result<Self, Refusal> {
        let mut state = [0; STATE_WORDS];
        Refusal::check(start(&mut state))?;
        Ok(Self(state))
    }

    pub fn draw(&mut self) -> Result<u32, Refusal> {
        let mut word = 0;
        Refusal::check(capi::zuc_draw(&mut self.0, &mut word))?;
        Ok(word)
    }

    pub fn words(&mut self, out: &mut [u32]) -> Result<(), Refusal> {
        Refusal::check(capi::zuc_words(&mut self.0, out))
    }

    pub fn mask_crate(&mut self, data: &mut [u8], bitlen: usize) -> Result<usize, Refusal> {
        let mut count = 0;
        Refusal::check(capi::zuc_mask_crate(&mut self.0, data, bitlen, &mut count))?;
        Ok(count)
    }

    pub fn mask_clean(&mut self, data: &mut [u8], bitlen: usize) -> Result<usize, Refusal> {
        let mut count = 0;
        Refusal::check(capi::zuc_mask_clean(&mut self.0, data, bitlen, &mut count))?;
        Ok(count)
    }
}

/// What each keystream, a tuple of one [`Generator`], has beside the crate's own
/// calls. As methods, so that no trait need be named to reach them.
macro_rules! beside_the_crate {
    ($keystream:ident) => {
        impl $keystream {
            /// As [`generate`](Self::generate), and refuses where that panics.
            ///
            /// # Errors
            /// [`Refusal::Limit`](crate::Refusal::Limit): no word is left.
            pub fn try_generate(&mut self) -> Result<u32, crate::Refusal> {
                self.0.draw()
            }

            /// Fills `out` with the next words of the keystream, in one call.
            ///
            /// # Panics
            /// If fewer words are left of this start than `out` has room for.
            pub fn generate_into(&mut self, out: &mut [u32]) {
                crate::refusal::or_panic(self.try_generate_into(out));
            }

            /// As [`generate_into`](Self::generate_into), and refuses where that panics.
            ///
            /// # Errors
            /// [`Refusal::Limit`](crate::Refusal::Limit); keystream and `out` are then as
            /// they came, even if some of the words were left.
            pub fn try_generate_into(&mut self, out: &mut [u32]) -> Result<(), crate::Refusal> {
                self.0.words(out)
            }

            /// Masks `data` in place as the crate's `xor_inplace` does, and answers how
            /// many words it drew: always `data.len() / 4 + 1`.
            ///
            /// If `bitlen` is a multiple of 8 and below `8 * data.len()`, byte
            /// `bitlen / 8` stays masked; [`xor_clean`](Self::xor_clean) zeroes it.
            ///
            /// # Panics
            /// If `bitlen` is more than `8 * data.len()`, or if it would draw more words
            /// than are left of this start.
            pub fn xor_inplace(&mut self, data: &mut [u8], bitlen: usize) -> usize {
                crate::refusal::or_panic(self.try_xor_inplace(data, bitlen))
            }

            /// Masks the first `bitlen` bits of `data` in place and zeroes every bit after
            /// them; answers how many words it drew: `bitlen / 32`, rounded up.
            ///
            /// So blocks that are full and multiples of 4 bytes, masked one after the other,
            /// are masked as if they were one.
            ///
            /// # Panics
            /// If `bitlen` is more than `8 * data.len()`, or if it would draw more words
            /// than are left of this start.
            pub fn xor_clean(&mut self, data: &mut [u8], bitlen: usize) -> usize {
                crate::refusal::or_panic(self.try_xor_clean(data, bitlen))
            }

            /// As [`xor_inplace`](Self::xor_inplace), and refuses where that panics.
            ///
            /// # Errors
            /// [`Refusal::Bits`](crate::Refusal::Bits),
            /// [`Refusal::Limit`](crate::Refusal::Limit); keystream and `data` are then as
            /// they came.
            pub fn try_xor_inplace(
                &mut self,
                data: &mut [u8],
                bitlen: usize,
            ) -> Result<usize, crate::Refusal> {
                self.0.mask_crate(data, bitlen)
            }

            /// As [`xor_clean`](Self::xor_clean), and refuses where that panics.
            ///
            /// # Errors
            /// [`Refusal::Bits`](crate::Refusal::Bits),
            /// [`Refusal::Limit`](crate::Refusal::Limit); keystream and `data` are then as
            /// they came.
            pub fn try_xor_clean(
                &mut self,
                data: &mut [u8],
                bitlen: usize,
            ) -> Result<usize, crate::Refusal> {
                self.0.mask_clean(data, bitlen)
            }
        }

        /// Says the type alone: the state is as secret as the key.
        impl core::fmt::Debug for $keystream {
            fn fmt(&self, f: &mut core::fmt::Formatter<'_>) -> core::fmt::Result {
                f.debug_struct(stringify!($keystream))
                    .finish_non_exhaustive()
            }
        }
    };
}

pub(crate) use beside_the_crate;
