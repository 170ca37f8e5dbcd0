//! Strict forms, and EEA3 in one call (request 2026-04): all forms of EEA3 and EIA3 on one
//! input, through the C interface and through the Rust package. Which refusal is due is the
//! request's; what an accepted call answers is the crate's, or in clean mode the model's.

use std::fmt;

use yegetmur::capi::{self, STATE_WORDS, TAG_WORDS};
use yegetmur::eea3::{self, Eea3Keystream};
use yegetmur::eia3::Eia3Mac;
use yegetmur::Refusal;

use crate::check::{same, same_list, Verdict};
use crate::drawn::drawn_by_tag;
use crate::hex::hex;
use crate::input::{Call, Input, Mode, Start, Tagger};
use crate::plan::MODES;
use crate::report::Trial;
use crate::ring::Ring;
use crate::rng::Rng;
use crate::rules::{bits_refusal, first, limit_refusal, mask_words, BAD_KEY, LIMIT};
use crate::shrink::Shrinks;
use crate::users::with_crate;
use crate::{layout, model, original};

pub const BAD_FIELD: u32 = 8;

/// What a mask in one call is in C.
type Once = fn(u32, u8, u8, &[u8], &mut [u8], usize, &mut usize) -> u32;

/// And in the package.
type OnceInPackage = fn(u32, u8, u8, &[u8], &mut [u8], usize) -> Result<usize, Refusal>;

/// What every form is given.
#[derive(Clone)]
pub struct Fields {
    count: u32,
    bearer: u8,
    direction: u8,
    key: Vec<u8>,
    data: Vec<u8>,
    /// So many zeros in the place of `data`, if not 0: too many for any call to look at.
    zeros: usize,
    bits: usize,
}

/// What is done with an input.
pub type Try<'a> = &'a mut dyn FnMut(Fields);

pub type Inputs = fn(&mut Rng, Try);

pub const FIELDS: [(&str, Inputs); 4] = [
    ("fields: every bearer, every direction", every_pair),
    ("fields: key, field, bits, limit mixed", combinations),
    ("fields: 0 to 12 bytes, every bit length", short_blocks),
    ("fields: random", random),
];

fn keyed(rng: &mut Rng, bearer: u8, direction: u8, data: Vec<u8>, bits: usize) -> Fields {
    let (count, key) = (rng.number() as u32, rng.bytes(16));
    Fields { count, bearer, direction, key, data, zeros: 0, bits }
}

fn every_pair(rng: &mut Rng, attempt: Try) {
    for bearer in 0..=u8::MAX {
        for direction in 0..=u8::MAX {
            let (data, bits) = (rng.bytes(5), 32 + rng.below(9));
            attempt(keyed(rng, bearer, direction, data, bits));
        }
    }
}

/// Numbers about the edges of both fields, and far from them.
const EDGES: [(u8, u8); 9] =
    [(0, 0), (31, 1), (32, 1), (31, 2), (32, 2), (33, 0), (0, 3), (64, 128), (255, 255)];

fn combinations(rng: &mut Rng, attempt: Try) {
    for (bearer, direction) in EDGES {
        for key in [16, 0, 1, 15, 17, 32] {
            // of the long ones: the last length and bit length that are within the limit in no
            // mode, and one bit more than is lent
            for (zeros, bits) in [
                (0, 40),
                (0, 41),
                (0, usize::MAX),
                (4 * LIMIT + 8, 32 * LIMIT + 1),
                (4 * LIMIT + 8, 32 * LIMIT + 65),
            ] {
                let data = rng.bytes(5);
                let given = keyed(rng, bearer, direction, data, bits);
                attempt(Fields { key: rng.bytes(key), zeros, ..given });
            }
        }
    }
}

fn short_blocks(rng: &mut Rng, attempt: Try) {
    for len in 0..=12 {
        for bits in 0..=8 * len + 1 {
            for (bearer, direction) in [(31, 1), (32, 0)] {
                let data = rng.bytes(len);
                attempt(keyed(rng, bearer, direction, data, bits));
            }
        }
    }
}

fn random(rng: &mut Rng, attempt: Try) {
    for _ in 0..2000 {
        let len = rng.length(11);
        let (data, bits) = (rng.bytes(len), rng.below(8 * len + 2));
        let inside = (rng.byte() % 32, rng.byte() % 2);
        let (bearer, direction) = rng.pick(&[inside, (33, 1)]);
        attempt(keyed(rng, bearer, direction, data, bits));
    }
}

impl Trial for Fields {
    fn verdict(&self) -> Verdict {
        for strict in [false, true] {
            self.start(strict)?;
            self.tag_start(strict)?;
            self.tag(strict)?;
            for mode in MODES {
                self.mask(mode, strict)?;
            }
        }
        Ok(())
    }
}

impl Fields {
    /// The number by which a start is refused: 2, and strictly 8 after it.
    fn start_refusal(&self, strict: bool) -> u32 {
        if self.key.len() != 16 {
            BAD_KEY
        } else if strict && (self.bearer > 31 || self.direction > 1) {
            BAD_FIELD
        } else {
            0
        }
    }

    /// The number by which a call is refused that would draw so many words: 5 after that, then
    /// 16.
    fn refusal(&self, strict: bool, words: usize) -> u32 {
        let bits = bits_refusal(self.bits, self.len());
        first(first(self.start_refusal(strict), bits), limit_refusal(0, words))
    }

    fn len(&self) -> usize {
        self.data.len().max(self.zeros)
    }

    /// What is lent. No memory stands behind zeros that nobody writes to.
    fn lent(&self) -> Vec<u8> {
        match self.zeros {
            0 => self.data.clone(),
            n => vec![0; n],
        }
    }

    /// The same for what is made on the crate.
    fn input(&self, call: Call, words: usize) -> Input {
        let Self { count, bearer, direction, bits, .. } = *self;
        let (key, data) = (self.key.clone(), self.data.clone());
        Input { key, data, count, bearer, direction, bits, words, ..Input::of(call) }
    }

    fn start(&self, strict: bool) -> Verdict {
        let Self { count, bearer, direction, key, .. } = self;
        let refusal = self.start_refusal(strict);
        let mut state = [7; STATE_WORDS];
        let (answer, package) = if strict {
            (
                capi::eea3_start_strict(&mut state, *count, *bearer, *direction, key),
                Eea3Keystream::new_strict(*count, *bearer, *direction, key),
            )
        } else {
            (
                capi::eea3_start(&mut state, *count, *bearer, *direction, key),
                Eea3Keystream::try_new(*count, *bearer, *direction, key),
            )
        };
        same("refusal of the EEA3 start", refusal, answer)?;
        let Ok(mut keystream) = in_package("EEA3 start", refusal, package)? else {
            return same_list("state after a refused EEA3 start", &[0; STATE_WORDS], &state);
        };
        let start = Start::Eea3;
        let input = self.input(Call::Words(start), 3);
        let ring = Ring::turned(&original::start_state(start, &input), 0);
        same_list("state after the EEA3 start", &ring.array(), &state)?;
        let words = [0; 3].map(|_: u32| keystream.generate());
        same_list("words of EEA3", &with_crate::words(start, &input), &words)
    }

    fn tag_start(&self, strict: bool) -> Verdict {
        let Self { count, bearer, direction, key, .. } = self;
        let refusal = self.start_refusal(strict);
        let mut state = [7; TAG_WORDS];
        let (answer, package) = if strict {
            (
                capi::eia3_tag_start_strict(&mut state, *count, *bearer, *direction, key),
                Eia3Mac::new_strict(*count, *bearer, *direction, key),
            )
        } else {
            (
                capi::eia3_tag_start(&mut state, *count, *bearer, *direction, key),
                Eia3Mac::try_new(*count, *bearer, *direction, key),
            )
        };
        same("refusal of the EIA3 start", refusal, answer)?;
        let Ok(mut mac) = in_package("EIA3 start", refusal, package)? else {
            return same_list("state after a refused EIA3 start", &[0; TAG_WORDS], &state);
        };
        let tagger = Tagger::Eia3;
        let mut input = self.input(Call::Tag(tagger), 0);
        let generator = Ring::turned(&original::tag_start_state(tagger, &input), 0);
        let parts = model::Tag::start(tagger, generator).parts();
        same_list("state after the EIA3 start", &layout::pack(&parts), &state)?;
        input.bits = 8 * self.data.len();
        mac.update(&self.data);
        let expected = with_crate::tag_at_once(tagger, &input);
        same("tag by the package's start", expected, mac.finish(&[], 0).into())
    }

    fn tag(&self, strict: bool) -> Verdict {
        let Self { count, bearer, direction, key, bits, .. } = self;
        let data = self.lent();
        let refusal = self.refusal(strict, drawn_by_tag(true, 4, *bits));
        let mut tag = [7; 2];
        let (answer, package) = if strict {
            (
                capi::eia3_tag_strict(*count, *bearer, *direction, key, &data, *bits, &mut tag),
                Eia3Mac::compute_strict(*count, *bearer, *direction, key, &data, *bits),
            )
        } else {
            (
                capi::eia3_tag(*count, *bearer, *direction, key, &data, *bits, &mut tag),
                Eia3Mac::try_compute(*count, *bearer, *direction, key, &data, *bits),
            )
        };
        same("refusal of the EIA3 tag", refusal, answer)?;
        let Ok(by_package) = in_package("EIA3 tag", refusal, package)? else {
            return same_list("tag of a refused call", &[0; 2], &tag);
        };
        let tagger = Tagger::Eia3;
        let expected = with_crate::tag_at_once(tagger, &self.input(Call::Tag(tagger), 0));
        same_list("EIA3 tag", &[expected as u64, 0], &tag)?;
        same("EIA3 tag by the package", expected, by_package.into())
    }

    fn mask(&self, mode: Mode, strict: bool) -> Verdict {
        let Self { count, bearer, direction, key, bits, .. } = self;
        let words = mask_words(mode, self.len(), *bits);
        let refusal = self.refusal(strict, words);
        let (once, in_the_package) = forms(mode, strict);
        let what = |part: &str| format!("{part}, {mode:?} mode, strict: {strict}");
        let (mut buffer, mut other) = (self.lent(), self.lent());
        let mut drawn = usize::MAX;
        let answer = once(*count, *bearer, *direction, key, &mut buffer, *bits, &mut drawn);
        same(&what("refusal of EEA3 at once"), refusal, answer)?;
        let package = in_the_package(*count, *bearer, *direction, key, &mut other, *bits);
        let Ok(by_package) = in_package(&what("EEA3 at once"), refusal, package)? else {
            same(&what("words drawn by a refused call"), 0, drawn)?;
            self.untouched(&what("buffer of a refused call"), &buffer)?;
            return self.untouched(&what("buffer refused by the package"), &other);
        };
        let expected = self.masked(mode, words);
        same(&what("words drawn"), words, drawn)?;
        same(&what("words drawn by the package"), words, by_package)?;
        same_list(&what("buffer"), &expected, &buffer)?;
        same_list(&what("buffer of the package"), &expected, &other)
    }

    /// By the crate's own call in its mode, and by the model over the crate's words in clean
    /// mode.
    fn masked(&self, mode: Mode, words: usize) -> Vec<u8> {
        let start = Start::Eea3;
        match mode {
            Mode::Crate => {
                let mut buffer = self.data.clone();
                with_crate::mask(start, &self.input(Call::Mask(mode, start), 0), &mut buffer);
                buffer
            }
            Mode::Clean => {
                let words = with_crate::words(start, &self.input(Call::Words(start), words));
                model::clean(&words, &self.data, self.bits)
            }
        }
    }

    /// Of zeros the ends alone are looked at.
    fn untouched(&self, what: &str, buffer: &[u8]) -> Verdict {
        match self.zeros {
            0 => same_list(what, &self.data, buffer),
            n => same_list(what, &[0; 2], &[buffer[0], buffer[n - 1]]),
        }
    }
}

fn forms(mode: Mode, strict: bool) -> (Once, OnceInPackage) {
    match (mode, strict) {
        (Mode::Crate, false) => (capi::eea3_mask_crate, eea3::try_eea3_xor_inplace),
        (Mode::Clean, false) => (capi::eea3_mask_clean, eea3::try_eea3_xor_clean),
        (Mode::Crate, true) => (capi::eea3_mask_crate_strict, eea3::eea3_xor_inplace_strict),
        (Mode::Clean, true) => (capi::eea3_mask_clean_strict, eea3::eea3_xor_clean_strict),
    }
}

/// The package refuses by the same number; what it answers, if it does not.
fn in_package<T>(
    what: &str,
    refusal: u32,
    answer: Result<T, Refusal>,
) -> Result<Result<T, Refusal>, String> {
    let number = answer.as_ref().err().map_or(0, |refusal| refusal.number());
    same(&format!("refusal by the package, {what}"), refusal, number)?;
    Ok(answer)
}

impl Shrinks for Fields {
    fn size(&self) -> (usize, usize, usize, u64) {
        let Self { count, bearer, direction, .. } = self;
        let fields = u64::from(*bearer) + u64::from(*direction) + u64::from(count.count_ones());
        (self.len(), self.key.len().abs_diff(16), self.bits, fields)
    }

    /// A call that is lent zeros stays one that is refused.
    fn steps(&self) -> Vec<Self> {
        let Self { bearer, direction, bits, .. } = *self;
        let mut steps = vec![
            Self { key: vec![0; 16], ..self.clone() },
            Self { count: 0, ..self.clone() },
            Self { bearer: 0, ..self.clone() },
            Self { bearer: bearer.saturating_sub(1), ..self.clone() },
            Self { direction: 0, ..self.clone() },
            Self { direction: direction.saturating_sub(1), ..self.clone() },
        ];
        if self.zeros > 0 {
            steps.push(Self { zeros: 0, bits: bits.min(8 * self.data.len() + 1), ..self.clone() });
            return steps;
        }
        let half = self.data.len() / 2;
        let (data, fewer) = (self.data[..half].to_vec(), bits.min(8 * half));
        steps.push(Self { data, bits: fewer, ..self.clone() });
        steps.push(Self { bits: bits / 2, ..self.clone() });
        steps.push(Self { bits: bits.saturating_sub(1), ..self.clone() });
        steps
    }
}

impl fmt::Display for Fields {
    fn fmt(&self, f: &mut fmt::Formatter<'_>) -> fmt::Result {
        let Self { count, bearer, direction, key, data, bits, .. } = self;
        write!(f, "EEA3 and EIA3 count={count:#x} bearer={bearer} direction={direction}")?;
        write!(f, " key={} data={} ({} bytes)", hex(key), hex(data), self.len())?;
        write!(f, " bits={bits}")
    }
}
