//! What tags of all kinds share.

use crate::capi::{TagState, TAG_WORDS};
use crate::refusal::Refusal;

/// A tag as a number of its own width. The module is private, so that nobody
/// else can add a width.
pub trait Tag: Sized {
    /// The number that the C interface splits: 32 or 64 bits stand in the first
    /// word, 128 in both, the high half first.
    fn from_words(words: [u64; 2]) -> Self;
}

impl Tag for u32 {
    fn from_words([tag, _]: [u64; 2]) -> Self {
        Self::try_from(tag).expect("a tag of 32 bits")
    }
}

impl Tag for u64 {
    fn from_words([tag, _]: [u64; 2]) -> Self {
        tag
    }
}

impl Tag for u128 {
    fn from_words([high, low]: [u64; 2]) -> Self {
        Self::from(high) << 64 | Self::from(low)
    }
}

/// The state that one of the tag starts of [`capi`](crate::capi) fills.
pub(crate) fn started(start: impl FnOnce(&mut TagState) -> u32) -> Result<TagState, Refusal> {
    let mut state = [0; TAG_WORDS];
    Refusal::check(start(&mut state))?;
    Ok(state)
}

/// The tag that a finish or a one-shot of [`capi`](crate::capi) sets.
pub(crate) fn answered<T: Tag>(call: impl FnOnce(&mut [u64; 2]) -> u32) -> Result<T, Refusal> {
    let mut words = [0; 2];
    Refusal::check(call(&mut words))?;
    Ok(T::from_words(words))
}
