//! Double masking (request 2026-10): one block, masked in clean mode once per hop, each hop from
//! a state of its own, in every order.

use crate::check::{same, same_list, Verdict};
use crate::input::{Input, Mode};
use crate::ring::Ring;
use crate::{model, original, port};

/// Which state each hop starts from: one, two and three in every order, and hops in pairs.
const ORDERS: [&[usize]; 17] = [
    &[0],
    &[0, 1],
    &[1, 0],
    &[0, 0],
    &[0, 1, 2],
    &[0, 2, 1],
    &[1, 0, 2],
    &[1, 2, 0],
    &[2, 0, 1],
    &[2, 1, 0],
    &[0, 1, 0],
    &[1, 0, 0],
    &[0, 0, 1],
    &[0, 1, 0, 1],
    &[0, 1, 1, 0],
    &[1, 1, 0, 0],
    &[0, 1, 2, 0, 1],
];

/// Each order gives the clean mask by the exclusive or of the crate's words of all hops, and
/// leaves each state moved by as many words as one mask draws.
pub fn in_every_order(rings: &[Ring; 3], input: &Input) -> Verdict {
    let Input { data, bits, .. } = input;
    let drawn = bits.div_ceil(32);
    let words = rings.each_ref().map(|ring| original::words(&mut ring.meaning(), drawn));
    for order in ORDERS {
        let mut sum = vec![0; drawn];
        let mut buffer = data.clone();
        for &hop in order {
            sum.iter_mut().zip(&words[hop]).for_each(|(sum, word)| *sum ^= word);
            let (mut state, mut count) = (rings[hop].array(), usize::MAX);
            let refusal = port::mask(Mode::Clean, &mut state, &mut buffer, *bits, &mut count);
            same("refusal of a hop", 0, refusal)?;
            same_list("state after a hop", &rings[hop].after(drawn).array(), &state)?;
        }
        let expected = model::clean(&sum, data, *bits);
        same_list(&format!("buffer after the hops {order:?}"), &expected, &buffer)?;
    }
    Ok(())
}
