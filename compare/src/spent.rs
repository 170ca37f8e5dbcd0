//! The limit truly reached (request 2026-09): from a start, with no count set. What is
//! refused is quick; what is accepted draws 134217730 words, and runs under `--long`.

use std::fmt;

use yegetmur::capi::{self, STATE_WORDS, TAG_WORDS};

use crate::check::{held, same, same_list, tag_at_once, tag_in_steps, Verdict};
use crate::drawn::drawn_by_tag;
use crate::input::{Call, Input, Mode, Start, Tagger};
use crate::plan::{keyed, STARTS, TAGGERS};
use crate::quiet::caught;
use crate::report::Trial;
use crate::ring::Ring;
use crate::rng::Rng;
use crate::rules::{LIMIT, SPENT};
use crate::shrink::Shrinks;
use crate::users::{with_crate, with_port};
use crate::{original, port};

/// Bytes of a message that is long enough for every tag.
const LONG: usize = (1 << 29) + 1;

/// The longest piece of words drawn in one call.
const PIECE: usize = 1 << 20;

/// What is reached from a start: by its call, key, IV and fields.
#[derive(Clone)]
pub struct Spent {
    input: Input,
    /// Whether all words are drawn, or a call is refused that would draw too many.
    drawn: bool,
}

fn every_call(rng: &mut Rng, drawn: bool) -> Vec<Spent> {
    let calls = STARTS.map(Call::Words).into_iter().chain(TAGGERS.map(Call::Tag));
    calls.map(|call| Spent { input: keyed(rng, call), drawn }).collect()
}

/// Calls that would draw too many words, from every start.
pub fn refused(rng: &mut Rng) -> Vec<Spent> {
    every_call(rng, false)
}

/// All words of every start, and the longest tag of every kind.
pub fn reached(rng: &mut Rng) -> Vec<Spent> {
    every_call(rng, true)
}

impl Trial for Spent {
    fn verdict(&self) -> Verdict {
        match (self.input.call, self.drawn) {
            (Call::Words(start), false) => too_many_words(start, &self.input),
            (Call::Words(start), true) => all_words(start, &self.input),
            (Call::Tag(tagger), false) => too_long_tag(tagger, &self.input),
            (Call::Tag(tagger), true) => longest_tag(tagger, &self.input),
            _ => unreachable!("no other call is made above"),
        }
    }
}

/// They are what they are: none is smaller.
impl Shrinks for Spent {
    fn size(&self) -> (usize, usize, usize, u64) {
        (0, 0, 0, 0)
    }

    fn steps(&self) -> Vec<Self> {
        Vec::new()
    }
}

impl fmt::Display for Spent {
    fn fmt(&self, f: &mut fmt::Formatter<'_>) -> fmt::Result {
        let what = if self.drawn { "all words of" } else { "too many words of" };
        write!(f, "{what} {}", self.input)
    }
}

/// A buffer that would take one word too many. Its ends are looked at, to see that they are
/// untouched; no memory stands behind the rest.
fn too_many_words(start: Start, input: &Input) -> Verdict {
    let mut before = [0; STATE_WORDS];
    same("refusal of the start", 0, port::start(start, input, &mut before))?;
    let (mut state, mut out) = (before, vec![0; LIMIT + 1]);
    same("refusal of zuc_words", SPENT, capi::zuc_words(&mut state, &mut out))?;
    same_list("words after a refusal", &[0; 2], &[out[0], out[LIMIT]])?;
    // one byte more than the words that are left mask: crate mode is refused for any bits, clean
    // mode for these
    let mut data = vec![0; 4 * LIMIT + 1];
    for (mode, bits) in [(Mode::Crate, 8), (Mode::Clean, 32 * LIMIT + 1)] {
        let mut count = usize::MAX;
        let refusal = port::mask(mode, &mut state, &mut data, bits, &mut count);
        same("refusal of a mask", SPENT, refusal)?;
        same("count of a refused mask", 0, count)?;
        same_list("buffer of a refused mask", &[0; 2], &[data[0], data[4 * LIMIT]])?;
    }
    same_list("state after refusals", &before, &state)
}

/// Every word of a start, in pieces of all sizes, the last three one at a time.
fn all_words(start: Start, input: &Input) -> Verdict {
    let mut meaning = original::start_state(start, input);
    let mut state = [0; STATE_WORDS];
    same("refusal of the start", 0, port::start(start, input, &mut state))?;
    let (mut out, mut drawn) = (vec![0; PIECE], 0);
    while drawn < LIMIT - 3 {
        let n = (1 + drawn % 40_503 * 31 % PIECE).min(LIMIT - 3 - drawn);
        same("refusal of zuc_words", 0, capi::zuc_words(&mut state, &mut out[..n]))?;
        same_list("words", &original::words(&mut meaning, n), &out[..n])?;
        drawn += n;
    }
    for word in &mut out[..3] {
        same("refusal of zuc_draw", 0, capi::zuc_draw(&mut state, word))?;
        same("word", original::draw(&mut meaning), *word)?;
    }
    let ring = Ring::turned(&meaning, LIMIT % 16).counted(LIMIT);
    same_list("state after all words", &ring.array(), &state)?;
    held(&ring, &Input { words: 2, ..input.clone() })
}

/// The bits of the longest tag: 2^32 of EIA3's kind, a little fewer of ZUC-256.
fn longest(tagger: Tagger) -> usize {
    let (extra_word, width) = tagger.kind();
    let fits = |bits: &usize| drawn_by_tag(extra_word, width, *bits) <= LIMIT;
    (0..=8 * LONG).rev().find(fits).expect("a short tag fits")
}

/// One bit more than the longest tag has, at once and by a finish: nothing is touched. The
/// message is not written to, so that no memory stands behind it.
fn too_long_tag(tagger: Tagger, input: &Input) -> Verdict {
    let bits = longest(tagger) + 1;
    let input = Input { data: vec![0; LONG], bits, ..input.clone() };
    tag_at_once(tagger, &input, None)?;
    let package = [with_port::tag_at_once, with_port::tag_in_steps];
    if package.iter().any(|tag| caught(|| tag(tagger, &input)).is_some()) {
        return Err("the package answers a tag that is too long".into());
    }
    let mut before = [0; TAG_WORDS];
    same("refusal of the tag's start", 0, port::tag_start(tagger, &input, &mut before))?;
    let (mut state, mut tag) = (before, [!0; 2]);
    let refusal = port::tag_finish(tagger, &mut state, &input.data, bits, &mut tag);
    same("refusal of the finish", SPENT, refusal)?;
    same_list("tag of a refused finish", &[0; 2], &tag)?;
    same_list("tag state after a refused finish", &before, &state)
}

/// The longest tag, and one of one bit more, which the crate accepts: at once, and cut.
fn longest_tag(tagger: Tagger, input: &Input) -> Verdict {
    let mut rng = Rng::new(1);
    let block = rng.bytes(65_537);
    let mut data = block.repeat(LONG.div_ceil(block.len()));
    data.truncate(LONG);
    let mut input = Input { data, ..input.clone() };
    for bits in [longest(tagger), longest(tagger) + 1] {
        input.bits = bits;
        let expected = Some(with_crate::tag_at_once(tagger, &input));
        tag_at_once(tagger, &input, expected)?;
        // the closing call has the last bits, up to some hundred bytes
        let updated = bits / 8 - rng.below(200);
        let steps = Input { cuts: cuts(&mut rng, updated), bits: bits - 8 * updated, ..input };
        let mut state = [0; TAG_WORDS];
        same("refusal of the tag's start", 0, port::tag_start(tagger, &steps, &mut state))?;
        tag_in_steps(tagger, &steps, state, expected)?;
        input = Input { cuts: Vec::new(), ..steps };
    }
    Ok(())
}

/// So many bytes in four pieces.
fn cuts(rng: &mut Rng, bytes: usize) -> Vec<usize> {
    let mut places = [0; 3].map(|_: usize| rng.below(bytes + 1));
    places.sort_unstable();
    let [one, two, three] = places;
    vec![one, two - one, three - two, bytes - three]
}
