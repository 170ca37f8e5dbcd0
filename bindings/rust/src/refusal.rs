//! Why a call was refused.

use core::fmt;

use crate::ffi::WORDS_PER_START;

/// Why a call was refused. Where several reasons apply, the one that is checked
/// first is given, in the order in which they stand here: `Field` directly after
/// `Key`, `Limit` last; of a [`frame`](crate::frame)'s `Key`, `Frame`, `Length`, `Field`,
/// `Body`, `Tag`; of the [`Guard`](crate::Guard)'s `Link`, `Age`, `Reuse`.
#[derive(Clone, Copy, Debug, PartialEq, Eq, Hash)]
pub enum Refusal {
    /// The tag width is not 4, 8 or 16 bytes.
    Width = 1,
    /// The key is not 16 bytes, or 32 for ZUC-256.
    Key = 2,
    /// A strict form or a frame: the bearer is above 31 or the direction above 1.
    Field = 8,
    /// The IV is not 16 bytes, or 23 for ZUC-256.
    Iv = 3,
    /// The state is malformed; of a tag here: it is closed.
    State = 4,
    /// The bit length is more than 8 times the bytes given.
    Bits = 5,
    /// The call would draw more words than the start has left of its
    /// [`WORDS_PER_START`](crate::WORDS_PER_START).
    Limit = 16,
    /// A frame has fewer than 17 bytes, or to be opened: its version is not 1.
    Frame = 6,
    /// A frame to be opened says another length than it has, or one to be sealed has more
    /// than 65538 bytes.
    Length = 7,
    /// A frame's bit length is not one of its body, or a bit past it is set.
    Body = 9,
    /// A frame's tag is wrong.
    Tag = 10,
    /// There is no such link.
    Link = 13,
    /// The COUNT is more than 63 below the link's highest.
    Age = 12,
    /// The COUNT was already accepted.
    Reuse = 11,
}

impl Refusal {
    const ALL: [Self; 14] = [
        Self::Width,
        Self::Key,
        Self::Field,
        Self::Iv,
        Self::State,
        Self::Bits,
        Self::Limit,
        Self::Frame,
        Self::Length,
        Self::Body,
        Self::Tag,
        Self::Link,
        Self::Age,
        Self::Reuse,
    ];

    /// The number that the C interface answers.
    #[must_use]
    pub const fn number(self) -> u32 {
        self as u32
    }

    /// What an answer of the C interface says.
    ///
    /// # Errors
    /// The refusal, unless the answer is 0.
    ///
    /// # Panics
    /// If the answer is neither 0 nor a refusal's number, which no function of the
    /// library answers.
    pub fn check(answer: u32) -> Result<(), Self> {
        if answer == 0 {
            return Ok(());
        }
        match Self::ALL
            .into_iter()
            .find(|refusal| refusal.number() == answer)
        {
            Some(refusal) => Err(refusal),
            None => panic!("the library answered {answer}"),
        }
    }
}

impl fmt::Display for Refusal {
    fn fmt(&self, f: &mut fmt::Formatter<'_>) -> fmt::Result {
        f.write_str(match self {
            Self::Width => "the tag width is not 4, 8 or 16 bytes",
            Self::Key => "the key has the wrong length",
            Self::Field => "the bearer is above 31 or the direction above 1",
            Self::Iv => "the IV has the wrong length",
            Self::State => "the state is malformed or the tag is closed",
            Self::Bits => "the bit length is more than 8 times the bytes given",
            Self::Limit => {
                let left = "words can be drawn from it, and this call asks for more than are left";
                return write!(f, "the start is spent: {WORDS_PER_START} {left}");
            }
            Self::Frame => "the frame has fewer than 17 bytes, or its version is not 1",
            Self::Length => "the frame has not the length that it says, or more than 65538 bytes",
            Self::Body => "the bit length is not the body's, or a bit past it is set",
            Self::Tag => "the frame's tag is wrong",
            Self::Link => "there is no such link",
            Self::Age => "the COUNT is more than 63 below the highest",
            Self::Reuse => "the COUNT was already accepted",
        })
    }
}

impl core::error::Error for Refusal {}

/// The value, for the calls that panic as the crate's do.
#[track_caller]
pub(crate) fn or_panic<T>(answer: Result<T, Refusal>) -> T {
    match answer {
        Ok(value) => value,
        Err(refusal) => panic!("{refusal}"),
    }
}
