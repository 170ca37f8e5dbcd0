//! One state in all its sixteen turns (request 2026-08): the crate's answers to each, the
//! same as at index 0, and at exit the array that as many single draws leave.

use yegetmur::capi::{self, State, TagState};

use crate::check::{held, lent_tag_state, same, same_list, Verdict};
use crate::input::{Input, Mode, Tagger};
use crate::layout::{pack, unpack, Parts};
use crate::port;
use crate::ring::Ring;

/// What the calls answer: their refusals, and all that they set but the state.
type Answers = Vec<u64>;

/// A generator's state, through every call that it can be lent to.
pub fn state_turns(input: &Input) -> Verdict {
    let lent = Ring::of_array(&input.state()).expect("a well-formed state");
    let mut first = None;
    for start in 0..16 {
        let ring = Ring::turned(&lent.meaning(), start).counted(lent.count());
        held(&ring, input)?;
        let answers = answers(&ring.array(), input)?;
        let first = first.get_or_insert_with(|| answers.clone());
        same_list(&format!("answers at index {start} and at 0"), first, &answers)?;
    }
    Ok(())
}

/// A tag's state, the same.
pub fn tag_turns(input: &Input) -> Verdict {
    let parts = unpack(&input.tag_state());
    let held = Ring::held(&parts.generator, parts.start, parts.drawn);
    let meaning = held.expect("a well-formed generator").meaning();
    let mut first = None;
    for start in 0..16 {
        let ring = Ring::turned(&meaning, start);
        let generator = ring.numbers();
        let array = pack(&Parts { generator, start: start as u64, ..parts.clone() });
        lent_tag_state(&array, input)?;
        let answers = tag_answers(&array, input)?;
        let first = first.get_or_insert_with(|| answers.clone());
        same_list(&format!("answers at index {start} and at 0"), first, &answers)?;
    }
    Ok(())
}

/// What so many calls of `zuc_draw` leave, and their words.
fn drawn(state: &State, words: usize) -> Result<(State, Vec<u32>), String> {
    let (mut lent, mut out) = (*state, vec![0; words]);
    for word in &mut out {
        same("refusal of zuc_draw", 0, capi::zuc_draw(&mut lent, word))?;
    }
    Ok((lent, out))
}

fn answers(state: &State, input: &Input) -> Result<Answers, String> {
    let (mut lent, mut out) = (*state, vec![0; input.words]);
    let refusal = capi::zuc_words(&mut lent, &mut out);
    let mut answers = vec![refusal.into()];
    answers.extend(out.iter().map(|&word| u64::from(word)));
    let n = if refusal == 0 { input.words } else { 0 };
    let (after, words) = drawn(state, n)?;
    same_list("words by zuc_draw and by zuc_words", &words, &out[..n])?;
    same_list("state after zuc_words and after single draws", &after, &lent)?;

    for mode in [Mode::Crate, Mode::Clean] {
        let (mut lent, mut buffer, mut count) = (*state, input.data.clone(), usize::MAX);
        answers.push(port::mask(mode, &mut lent, &mut buffer, input.bits, &mut count).into());
        answers.push(count as u64);
        answers.extend(buffer.iter().map(|&byte| u64::from(byte)));
        let (after, _) = drawn(state, count)?;
        same_list("state after a mask and after single draws", &after, &lent)?;
    }
    Ok(answers)
}

fn tag_answers(array: &TagState, input: &Input) -> Result<Answers, String> {
    let Input { data, bits, .. } = input;
    let mut answers = Vec::new();
    for tagger in [Tagger::Zuc128, Tagger::Zuc256 { width: 4 }] {
        let mut updated = *array;
        let refusal = port::tag_update(tagger, &mut updated, data);
        answers.push(refusal.into());
        if refusal == 0 {
            let (before, after) = (unpack(array), unpack(&updated));
            let blocks = (before.count + data.len()) / before.width;
            let (generator, _) = drawn(&generator(&before), blocks * before.width / 4)?;
            let what = "generator after an update and after single draws";
            same_list(what, &generator, &self::generator(&after))?;
        }
        for mut lent in [*array, updated] {
            let mut tag = [!0; 2];
            answers.push(port::tag_finish(tagger, &mut lent, data, *bits, &mut tag).into());
            answers.extend(tag);
        }
    }
    Ok(answers)
}

/// The generator of a well-formed tag state as an array of its own.
fn generator(parts: &Parts) -> State {
    let ring = Ring::held(&parts.generator, parts.start, parts.drawn);
    ring.expect("a well-formed generator").array()
}
