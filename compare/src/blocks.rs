//! Several blocks from one start (request 2026-02): clean masks one after the other, the state
//! handed on, against one long mask.

use crate::check::{same, same_list, Verdict};
use crate::input::{Input, Mode};
use crate::port;
use crate::ring::Ring;
use crate::rules::BAD_BITS;

/// Sizes of the blocks before the last one, all whole words.
const SIZES: [usize; 4] = [4, 8, 32, 256];

/// What a mask tells: the refusal, the words drawn.
type Told = (u32, usize);

/// `data` is cut into full blocks of one size, as many as the bit length reaches past, and the
/// rest. Where the long mask is accepted, so is every block, and bytes and state are the same;
/// where it is spent, a block is. Of a bit length that does not fit, blocks say nothing.
pub fn in_turn(ring: &Ring, input: &Input) -> Verdict {
    let Input { data, bits, .. } = input;
    let (mut long, mut long_state) = (data.clone(), ring.array());
    let at_once = mask(&mut long_state, &mut long, *bits);
    if at_once.0 == BAD_BITS {
        return Ok(());
    }
    for size in SIZES {
        let full = (bits / (8 * size)).min(data.len() / size);
        let (mut buffer, mut state) = (data.clone(), ring.array());
        let (front, last) = buffer.split_at_mut(full * size);
        let blocks = front.chunks_mut(size).map(|block| mask(&mut state, block, 8 * size));
        let (refusal, drawn) = told_in_turn(blocks);
        let (refusal, drawn) = if refusal == 0 {
            told_in_turn([(0, drawn), mask(&mut state, last, bits - 8 * full * size)])
        } else {
            (refusal, drawn)
        };
        same(&format!("refusal of blocks of {size} bytes"), at_once.0, refusal)?;
        if refusal == 0 {
            same(&format!("words of blocks of {size} bytes"), at_once.1, drawn)?;
            same_list(&format!("blocks of {size} bytes"), &long, &buffer)?;
            same_list(&format!("state after blocks of {size} bytes"), &long_state, &state)?;
        }
    }
    Ok(())
}

/// The first refusal, or none, and the words drawn up to it.
fn told_in_turn(calls: impl IntoIterator<Item = Told>) -> Told {
    let mut drawn = 0;
    for (refusal, words) in calls {
        if refusal != 0 {
            return (refusal, drawn);
        }
        drawn += words;
    }
    (0, drawn)
}

fn mask(state: &mut yegetmur::capi::State, buffer: &mut [u8], bits: usize) -> Told {
    let mut count = usize::MAX;
    let refusal = port::mask(Mode::Clean, state, buffer, bits, &mut count);
    (refusal, count)
}
