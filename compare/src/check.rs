//! One input on the crate and on the port: the first thing that differs, if any does.

use std::fmt::LowerHex;

use yegetmur::capi::{self, State, TagState, STATE_WORDS, TAG_WORDS};

use crate::drawn::{drawn_by_tag, Words};
use crate::input::{Call, Input, Mode, Start, Tagger};
use crate::quiet::caught;
use crate::report::Trial;
use crate::ring::Ring;
use crate::rules::{
    bits_refusal, first, limit_refusal, mask_words, start_refusal, BAD_STATE, LIMIT, SPENT,
};
use crate::users::{with_crate, with_port};
use crate::{blocks, hops, layout, model, original, port, turn};

/// What differs.
pub type Verdict = Result<(), String>;

/// What stands in lent memory before a call that is to overwrite it.
const DIRT: u8 = 0xa5;

/// Up to so many bytes a tag is also held to the model, which is slow.
const MODEL_BYTES: usize = 64;

/// Bytes around a lent buffer that no call may touch.
const MARGIN: usize = 16;

impl Trial for Input {
    fn verdict(&self) -> Verdict {
        check(self)
    }
}

pub fn check(input: &Input) -> Verdict {
    match input.call {
        Call::Words(start) => words(start, input),
        Call::Mask(mode, start) => mask(mode, start, input),
        Call::Tag(tagger) => tag(tagger, input),
        Call::LentState => lent_state(input),
        Call::LentTag => lent_tag_state(&input.tag_state(), input),
        Call::StateTurns => turn::state_turns(input),
        Call::TagTurns => turn::tag_turns(input),
    }
}

pub fn same<T: PartialEq + LowerHex>(what: &str, expected: T, port: T) -> Verdict {
    if expected == port {
        return Ok(());
    }
    Err(format!("{what}: expected {expected:#x}, the port has {port:#x}"))
}

pub fn same_list<T>(what: &str, expected: &[T], port: &[T]) -> Verdict
where
    T: PartialEq + LowerHex + Copy,
{
    assert_eq!(expected.len(), port.len(), "{what}");
    match (0..port.len()).find(|&i| expected[i] != port[i]) {
        Some(i) => same(&format!("{what}, place {i}"), expected[i], port[i]),
        None => Ok(()),
    }
}

/// Whether the port refuses where the crate panics.
fn same_refusal(what: &str, expected: bool, refusal: u32) -> Verdict {
    match (expected, refusal) {
        (true, 0) => Err(format!("{what}: the crate panics, the port accepts")),
        (false, 1..) => Err(format!("{what}: the crate accepts, the port refuses by {refusal}")),
        _ => Ok(()),
    }
}

/// Answers of calls that may panic: nothing stands for a panic.
fn same_answer(what: &str, expected: Option<u128>, port: Option<u128>) -> Verdict {
    match (expected, port) {
        (Some(one), Some(other)) => same(what, one, other),
        (None, None) => Ok(()),
        (Some(one), None) => Err(format!("{what}: expected {one:#x}, the port panics")),
        (None, Some(other)) => Err(format!("{what}: expected a panic, the port has {other:#x}")),
    }
}

fn dirty_state() -> State {
    [u32::from_ne_bytes([DIRT; 4]); STATE_WORDS]
}

fn dirty_tag_state() -> TagState {
    [u64::from_ne_bytes([DIRT; 8]); TAG_WORDS]
}

/// The state after a start, or nothing if it is rightly refused.
fn started(start: Start, input: &Input) -> Result<Option<Ring>, String> {
    let refusal = start_refusal(input);
    let mut state = dirty_state();
    same("refusal of the start", refusal, port::start(start, input, &mut state))?;
    if refusal != 0 {
        same_list("state after a refused start", &[0; STATE_WORDS], &state)?;
        return Ok(None);
    }
    let ring = Ring::turned(&original::start_state(start, input), 0);
    same_list("state after the start", &ring.array(), &state)?;
    Ok(Some(ring.counted(input.left.map_or(0, |left| LIMIT - left))))
}

fn words(start: Start, input: &Input) -> Verdict {
    let Some(ring) = started(start, input)? else {
        return Ok(());
    };
    let expected = with_crate::words(start, input);
    same_list("words of the package", &expected, &with_port::words(start, input))?;
    let inside = original::words(&mut ring.meaning(), input.words);
    same_list("words of the crate's inside", &expected, &inside)?;
    draws(&ring, &expected)
}

/// Words from a well-formed state, one at a time and in one call.
fn draws(ring: &Ring, expected: &[u32]) -> Verdict {
    single_draws(ring, expected)?;
    let refusal = limit_refusal(ring.count(), expected.len());
    let nothing = vec![!0; expected.len()];
    let (words, after) = match refusal {
        0 => (expected, ring.after(expected.len()).array()),
        _ => (&nothing[..], ring.array()),
    };
    let mut all = ring.array();
    let mut out = vec![!0; expected.len() + 2];
    let lent = &mut out[1..=expected.len()];
    same("refusal of zuc_words", refusal, capi::zuc_words(&mut all, lent))?;
    same_list("words by zuc_words", words, lent)?;
    same_list("state after zuc_words", &after, &all)?;
    same_list("words around those lent", &[!0; 2], &[out[0], out[out.len() - 1]])
}

/// As many as are left, one at a time; every further one is refused.
fn single_draws(ring: &Ring, expected: &[u32]) -> Verdict {
    let left = expected.len().min(LIMIT - ring.count());
    let mut state = ring.array();
    let mut drawn = vec![!0; expected.len()];
    for (i, word) in drawn.iter_mut().enumerate() {
        let refusal = if i < left { 0 } else { SPENT };
        same("refusal of zuc_draw", refusal, capi::zuc_draw(&mut state, word))?;
    }
    let mut words = expected.to_vec();
    words[left..].fill(0);
    same_list("words by zuc_draw", &words, &drawn)?;
    same_list("state after zuc_draw", &ring.after(left).array(), &state)
}

fn mask(mode: Mode, start: Start, input: &Input) -> Verdict {
    let Some(ring) = started(start, input)? else {
        return Ok(());
    };
    masked_from(mode, &ring, input)?;
    if mode == Mode::Clean {
        blocks::in_turn(&ring, input)?;
        return hopped(start, ring, input);
    }
    let (mut expected, mut port) = (input.data.clone(), input.data.clone());
    let answer = caught(|| with_crate::mask(start, input, &mut expected));
    let other = caught(|| with_port::mask(start, input, &mut port));
    same_answer("mask by the package", answer.map(u128::from), other.map(u128::from))?;
    same_list("buffer by the package", &expected, &port)
}

/// A block masked under two and three keys, if it can be masked under one and is short.
fn hopped(start: Start, first: Ring, input: &Input) -> Verdict {
    let Input { data, bits, left, .. } = input;
    if bits_refusal(*bits, data.len()) != 0 || left.is_some() || data.len() > MODEL_BYTES {
        return Ok(());
    }
    let other = |change: u8| {
        let key = input.key.iter().map(|byte| byte ^ change).collect();
        started(start, &Input { key, ..input.clone() })
    };
    match (other(0x5a)?, other(0xa5)?) {
        (Some(second), Some(third)) => hops::in_every_order(&[first, second, third], input),
        _ => Ok(()),
    }
}

/// A mask from a well-formed state: number, count, state, and every byte in and around
/// the buffer.
fn masked_from(mode: Mode, ring: &Ring, input: &Input) -> Verdict {
    let Input { data, bits, .. } = input;
    let mut expected = data.clone();
    let by_crate = original::mask(&mut ring.meaning(), &mut expected, *bits);
    let words = mask_words(mode, data.len(), *bits);
    let spent = limit_refusal(ring.count(), words);
    let drawn = by_crate.filter(|_| spent == 0).map(|_| words);
    if drawn.is_none() {
        expected.copy_from_slice(data);
    } else if mode == Mode::Clean {
        expected = clean_buffer(ring, input, expected)?;
    } else {
        same("words that the crate drew", by_crate.unwrap_or(0), words)?;
    }
    let expected_state = ring.after(drawn.unwrap_or(0)).array();

    let mut port_state = ring.array();
    let mut count = usize::MAX;
    // the buffer begins at any place within a word
    let (front, end) = (MARGIN + bits % 8, MARGIN + bits % 8 + data.len());
    let mut memory = vec![DIRT; end + MARGIN];
    let buffer = &mut memory[front..end];
    buffer.copy_from_slice(data);
    let refusal = port::mask(mode, &mut port_state, buffer, *bits, &mut count);

    same("refusal of the mask", first(bits_refusal(*bits, data.len()), spent), refusal)?;
    if spent == 0 {
        same_refusal("mask", by_crate.is_none(), refusal)?;
    }
    same("words that the mask drew", drawn.unwrap_or(0), count)?;
    same_list("buffer", &expected, buffer)?;
    same_list("state after the mask", &expected_state, &port_state)?;
    same_list("bytes before the buffer", &vec![DIRT; front], &memory[..front])?;
    same_list("bytes after the buffer", &[DIRT; MARGIN], &memory[end..])
}

/// What clean mode leaves: the model's buffer, and the crate's where that has no stray byte.
fn clean_buffer(ring: &Ring, input: &Input, by_crate: Vec<u8>) -> Result<Vec<u8>, String> {
    let Input { data, bits, .. } = input;
    let words = original::words(&mut ring.meaning(), bits.div_ceil(32));
    let clean = model::clean(&words, data, *bits);
    if bits % 8 != 0 || *bits == 8 * data.len() {
        same_list("the crate's buffer, no stray byte in it, and the model's", &by_crate, &clean)?;
    }
    Ok(clean)
}

fn tag(tagger: Tagger, input: &Input) -> Verdict {
    let mut state = dirty_tag_state();
    let refusal = start_refusal(input);
    same("refusal of the tag's start", refusal, port::tag_start(tagger, input, &mut state))?;
    if refusal != 0 {
        same_list("tag state after a refused start", &[0; TAG_WORDS], &state)?;
        return tag_at_once(tagger, input, None);
    }

    let expected = caught(|| with_crate::tag_in_steps(tagger, input));
    let package = caught(|| with_port::tag_in_steps(tagger, input));
    same_answer("tag in steps by the package", expected, package)?;
    tag_in_steps(tagger, input, state, expected)?;
    if input.cuts.is_empty() {
        let at_once = caught(|| with_crate::tag_at_once(tagger, input));
        let package = caught(|| with_port::tag_at_once(tagger, input));
        same_answer("the crate's tag at once and in steps", expected, at_once)?;
        same_answer("tag at once by the package", expected, package)?;
        tag_at_once(tagger, input, expected)?;
    }
    Ok(())
}

/// The one-shot. Nothing is expected where it is refused for its lengths.
pub fn tag_at_once(tagger: Tagger, input: &Input, expected: Option<u128>) -> Verdict {
    let refusal = first(start_refusal(input), bits_refusal(input.bits, input.data.len()));
    let (extra_word, width) = tagger.kind();
    let spent = match refusal {
        0 => limit_refusal(0, drawn_by_tag(extra_word, width, input.bits)),
        _ => 0,
    };
    let mut tag = [!0; 2];
    let answer = port::tag_at_once(tagger, input, &mut tag);
    same("refusal at once", first(refusal, spent), answer)?;
    if start_refusal(input) == 0 && spent == 0 {
        same_refusal("tag at once", expected.is_none(), refusal)?;
    }
    let expected = expected.filter(|_| spent == 0);
    same_list("tag at once", &expected.map_or([0; 2], |tag| port::split(tagger, tag)), &tag)
}

/// Updates and finish from the state after the start. Nothing is expected where the crate
/// refuses the finish.
pub fn tag_in_steps(
    tagger: Tagger,
    input: &Input,
    mut state: TagState,
    expected: Option<u128>,
) -> Verdict {
    let mut model = (input.data.len() <= MODEL_BYTES)
        .then(|| Ring::turned(&original::tag_start_state(tagger, input), 0))
        .map(|generator| model::Tag::start(tagger, generator));
    same_tag_state("tag state after the start", &model, &state)?;
    let mut words = Words::started(tagger.kind());
    same_count("words drawn by the start", &words, &state)?;
    if let Some(left) = input.left {
        state[layout::DRAWN] = (LIMIT - left) as u64;
        words = words.counted(LIMIT - left);
        model = model.map(|model| model.counted(LIMIT - left));
    }
    for piece in input.pieces() {
        let before = state;
        let refusal = words.update(piece.len());
        same("refusal of an update", refusal, port::tag_update(tagger, &mut state, piece))?;
        if refusal != 0 {
            return same_list("tag state after a refused update", &before, &state);
        }
        if let Some(model) = &mut model {
            model.update(piece);
        }
        same_tag_state("tag state after an update", &model, &state)?;
        same_count("words drawn by updates", &words, &state)?;
    }
    let spent = if expected.is_none() { 0 } else { words.finish(input.bits) };
    tag_finish(tagger, input, state, expected, spent)?;
    match (model, expected) {
        (Some(model), Some(expected)) if spent == 0 => {
            let tag = model.finish(input.tail(), input.bits);
            same("the crate's tag and the model's", tag, expected)
        }
        _ => Ok(()),
    }
}

/// The finish, with the number by which the limit refuses it.
fn tag_finish(
    tagger: Tagger,
    input: &Input,
    mut state: TagState,
    expected: Option<u128>,
    spent: u32,
) -> Verdict {
    let (before, tail) = (state, input.tail());
    let mut tag = [!0; 2];
    let refusal = port::tag_finish(tagger, &mut state, tail, input.bits, &mut tag);
    same("refusal of the finish", first(bits_refusal(input.bits, tail.len()), spent), refusal)?;
    if spent == 0 {
        same_refusal("finish", expected.is_none(), refusal)?;
    }
    match expected {
        Some(expected) if spent == 0 => {
            same_list("tag in steps", &port::split(tagger, expected), &tag)?;
            same_list("tag state after the finish", &[0; TAG_WORDS], &state)
        }
        _ => {
            same_list("tag of a refused finish", &[0; 2], &tag)?;
            same_list("tag state after a refused finish", &before, &state)
        }
    }
}

fn same_count(what: &str, words: &Words, state: &TagState) -> Verdict {
    same(what, words.count() as u64, state[layout::DRAWN])
}

fn same_tag_state(what: &str, model: &Option<model::Tag>, state: &TagState) -> Verdict {
    match model {
        Some(model) => same_list(what, &layout::pack(&model.parts()), state),
        None => Ok(()),
    }
}

/// Every call that a generator's state can be lent to.
fn lent_state(input: &Input) -> Verdict {
    let state = input.state();
    match Ring::of_array(&state) {
        Some(ring) => held(&ring, input),
        None => malformed(&state, input),
    }
}

/// Every call on a well-formed state.
pub fn held(ring: &Ring, input: &Input) -> Verdict {
    draws(ring, &original::words(&mut ring.meaning(), input.words))?;
    masked_from(Mode::Crate, ring, input)?;
    masked_from(Mode::Clean, ring, input)
}

fn malformed(state: &State, input: &Input) -> Verdict {
    let mut lent = *state;
    let (mut word, mut out) = (!0, vec![!0; input.words]);
    same("refusal of a draw", BAD_STATE, capi::zuc_draw(&mut lent, &mut word))?;
    same("refused word", 0, word)?;
    same("refusal of zuc_words", BAD_STATE, capi::zuc_words(&mut lent, &mut out))?;
    same_list("words after a refusal", &vec![!0; input.words], &out)?;
    for mode in [Mode::Crate, Mode::Clean] {
        let (mut count, mut buffer) = (usize::MAX, input.data.clone());
        let refusal = port::mask(mode, &mut lent, &mut buffer, input.bits, &mut count);
        same("refusal of a mask", BAD_STATE, refusal)?;
        same("count of a refused mask", 0, count)?;
        same_list("buffer of a refused mask", &input.data, &buffer)?;
    }
    same_list("state after refusals", state, &lent)
}

/// Every call that a tag's state can be lent to.
pub fn lent_tag_state(array: &TagState, input: &Input) -> Verdict {
    let parts = layout::unpack(array);
    for tagger in [Tagger::Zuc128, Tagger::Zuc256 { width: 4 }] {
        let extra_word = tagger == Tagger::Zuc128;
        let model = model::Tag::from_parts(extra_word, &parts);
        lent_update(tagger, array, model.clone(), input)?;
        lent_finish(tagger, array, model, input)?;
    }
    Ok(())
}

fn lent_update(
    tagger: Tagger,
    array: &TagState,
    model: Option<model::Tag>,
    input: &Input,
) -> Verdict {
    let mut lent = *array;
    let refusal = port::tag_update(tagger, &mut lent, &input.data);
    let expected = model.as_ref().map_or(BAD_STATE, |tag| tag.words().update(input.data.len()));
    same("refusal of an update", expected, refusal)?;
    match model {
        Some(mut model) if refusal == 0 => {
            model.update(&input.data);
            same_list("tag state after an update", &layout::pack(&model.parts()), &lent)
        }
        _ => same_list("tag state after a refused update", array, &lent),
    }
}

fn lent_finish(
    tagger: Tagger,
    array: &TagState,
    model: Option<model::Tag>,
    input: &Input,
) -> Verdict {
    let Input { data, bits, .. } = input;
    let expected = match (&model, bits_refusal(*bits, data.len())) {
        (None, _) => BAD_STATE,
        (Some(model), 0) => model.words().finish(*bits),
        (_, refusal) => refusal,
    };
    let (mut lent, mut tag) = (*array, [!0; 2]);
    let refusal = port::tag_finish(tagger, &mut lent, data, *bits, &mut tag);
    same("refusal of a finish", expected, refusal)?;
    match model {
        Some(model) if refusal == 0 => {
            let wide = model.parts().width == 16;
            let number = model.finish(data, *bits);
            let halves = [(number >> 64) as u64, number as u64];
            same_list("tag", &if wide { halves } else { [halves[1], 0] }, &tag)?;
            same_list("tag state after a finish", &[0; TAG_WORDS], &lent)
        }
        _ => {
            same_list("tag of a refused finish", &[0; 2], &tag)?;
            same_list("tag state after a refused finish", array, &lent)
        }
    }
}
