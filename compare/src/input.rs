//! One input: a call, and all that it is given.

use std::fmt;

use yegetmur::capi::{State, TagState};

use crate::hex::hex;

/// The starts of a generator.
#[derive(Clone, Copy, PartialEq, Eq, Debug)]
pub enum Start {
    Zuc128,
    Zuc256,
    Eea3,
}

/// The kinds of tag.
#[derive(Clone, Copy, PartialEq, Eq, Debug)]
pub enum Tagger {
    Zuc128,
    Eia3,
    Zuc256 { width: usize },
}

impl Tagger {
    /// Whether it closes as EIA3 does, with one word more; and its width in bytes.
    pub fn kind(self) -> (bool, usize) {
        match self {
            Self::Zuc128 | Self::Eia3 => (true, 4),
            Self::Zuc256 { width } => (false, width),
        }
    }
}

/// What masking leaves past the bit length.
#[derive(Clone, Copy, PartialEq, Eq, Debug)]
pub enum Mode {
    Crate,
    Clean,
}

#[derive(Clone, Copy, PartialEq, Eq, Debug)]
pub enum Call {
    /// A start and then `words` words.
    Words(Start),
    /// A start and then a mask of `data` by `bits`.
    Mask(Mode, Start),
    /// A tag of `data`: its pieces by `cuts` in updates, the rest by `bits` at the end.
    Tag(Tagger),
    /// `words` words, and both masks of `data` by `bits`, from the state `array`.
    LentState,
    /// An update by `data`, and a finish by `data` and `bits`, on the tag state `array`.
    LentTag,
    /// As `LentState`, from the well-formed state `array` in all its turns.
    StateTurns,
    /// As `LentTag`, on the tag state `array`, its well-formed generator in all its turns.
    TagTurns,
}

#[derive(Clone, PartialEq, Debug)]
pub struct Input {
    pub call: Call,
    pub key: Vec<u8>,
    pub iv: Vec<u8>,
    pub count: u32,
    pub bearer: u8,
    pub direction: u8,
    pub data: Vec<u8>,
    pub cuts: Vec<usize>,
    pub bits: usize,
    pub words: usize,
    pub array: Vec<u64>,
    /// How many words a state that a start gave is set to have left, if it is.
    pub left: Option<usize>,
}

impl Input {
    /// A call with a key and an IV of the right length, all zeros, and nothing else.
    pub fn of(call: Call) -> Self {
        let (key, iv) = lengths(call);
        Self {
            call,
            key: vec![0; key],
            iv: vec![0; iv],
            count: 0,
            bearer: 0,
            direction: 0,
            data: Vec::new(),
            cuts: Vec::new(),
            bits: 0,
            words: 0,
            array: Vec::new(),
            left: None,
        }
    }

    /// Whether the IV is made of COUNT, BEARER and DIRECTION.
    pub fn takes_fields(&self) -> bool {
        matches!(
            self.call,
            Call::Words(Start::Eea3) | Call::Mask(_, Start::Eea3) | Call::Tag(Tagger::Eia3)
        )
    }

    /// The array as a generator's.
    pub fn state(&self) -> State {
        std::array::from_fn(|i| self.array[i] as u32)
    }

    /// The array as a tag's.
    pub fn tag_state(&self) -> TagState {
        std::array::from_fn(|i| self.array[i])
    }

    /// The pieces of `data` that go into updates.
    pub fn pieces(&self) -> impl Iterator<Item = &[u8]> {
        self.cuts.iter().scan(&self.data[..], |rest, &length| {
            let (piece, after) = rest.split_at(length);
            *rest = after;
            Some(piece)
        })
    }

    /// What is left of `data` for the closing call.
    pub fn tail(&self) -> &[u8] {
        &self.data[self.cuts.iter().sum()..]
    }
}

/// The right lengths of a call's key and IV; 0 where it has none.
pub fn lengths(call: Call) -> (usize, usize) {
    match call {
        Call::Words(start) | Call::Mask(_, start) => match start {
            Start::Zuc128 => (16, 16),
            Start::Zuc256 => (32, 23),
            Start::Eea3 => (16, 0),
        },
        Call::Tag(tagger) => match tagger {
            Tagger::Zuc128 => (16, 16),
            Tagger::Zuc256 { .. } => (32, 23),
            Tagger::Eia3 => (16, 0),
        },
        Call::LentState | Call::LentTag | Call::StateTurns | Call::TagTurns => (0, 0),
    }
}

/// All that matters of the input, on one line.
impl fmt::Display for Input {
    fn fmt(&self, f: &mut fmt::Formatter<'_>) -> fmt::Result {
        write!(f, "{:?}", self.call)?;
        match self.call {
            _ if !self.array.is_empty() => write!(f, " array={:x?}", self.array)?,
            _ if self.takes_fields() => {
                let Self { count, bearer, direction, .. } = self;
                write!(f, " count={count:#x} bearer={bearer} direction={direction}")?;
                write!(f, " key={}", hex(&self.key))?;
            }
            _ => write!(f, " key={} iv={}", hex(&self.key), hex(&self.iv))?,
        }
        if !matches!(self.call, Call::Words(_)) {
            write!(f, " data={} ({} bytes)", hex(&self.data), self.data.len())?;
            write!(f, " bits={}", self.bits)?;
        }
        if matches!(self.call, Call::Tag(_)) {
            write!(f, " cuts={:?}", self.cuts)?;
        }
        if matches!(self.call, Call::Words(_) | Call::LentState | Call::StateTurns) {
            write!(f, " words={}", self.words)?;
        }
        if let Some(left) = self.left {
            write!(f, ", {left} words left after the start")?;
        }
        Ok(())
    }
}
