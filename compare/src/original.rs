//! The crate's side beyond what a user calls: its states, and its own code run from a
//! state (see the package `window`).

use window::{Inside, State};
use zuc::zuc128::Zuc128Keystream;
use zuc::zuc256::Zuc256Keystream;

use crate::input::{Input, Start, Tagger};
use crate::quiet::caught;
use crate::rules::{d_row, eea3_iv, eia3_iv};

/// The state after a start.
pub fn start_state(start: Start, input: &Input) -> State {
    match start {
        Start::Zuc128 => zuc128_state(&input.key, &input.iv),
        Start::Zuc256 => {
            let (key, iv) = (array(&input.key), array(&input.iv));
            shown(&format!("{:?}", Zuc256Keystream::new(key, iv)))
        }
        Start::Eea3 => {
            let iv = eea3_iv(input.count, input.bearer, input.direction);
            zuc128_state(&input.key, &iv)
        }
    }
}

/// The state of a tag's generator before it has drawn anything.
pub fn tag_start_state(tagger: Tagger, input: &Input) -> State {
    match tagger {
        Tagger::Zuc128 => zuc128_state(&input.key, &input.iv),
        Tagger::Eia3 => {
            let iv = eia3_iv(input.count, input.bearer, input.direction);
            zuc128_state(&input.key, &iv)
        }
        Tagger::Zuc256 { width } => {
            let (key, iv) = (array(&input.key), array(&input.iv));
            let zuc = <Zuc256Keystream as window::WithD>::with_d(key, iv, &d_row(width));
            shown(&format!("{zuc:?}"))
        }
    }
}

fn zuc128_state(key: &[u8], iv: &[u8]) -> State {
    shown(&format!("{:?}", Zuc128Keystream::new(array(key), array(iv))))
}

fn array<const N: usize>(bytes: &[u8]) -> &[u8; N] {
    bytes.try_into().expect("a key or an IV of the right length")
}

/// The state that a keystream's `Debug` shows: `.. s: [1, ..], r1: 2, r2: 3 ..`.
fn shown(debug: &str) -> State {
    let (_, numbers) = debug.split_once("s: [").expect("the cells");
    let numbers = numbers.replace("r1:", "").replace("r2:", "");
    let mut state = [0; 18];
    let mut found = numbers.split(|c: char| !c.is_ascii_digit()).filter(|run| !run.is_empty());
    for word in &mut state {
        *word = found.next().expect("a number").parse().expect("a word");
    }
    assert!(found.next().is_none(), "{debug}");
    state
}

pub fn draw(state: &mut State) -> u32 {
    Zuc128Keystream::draw(state)
}

pub fn words(state: &mut State, n: usize) -> Vec<u32> {
    (0..n).map(|_| draw(state)).collect()
}

/// The crate's `xor_inplace` from a state: how many words it drew, nothing if it
/// panicked.
pub fn mask(state: &mut State, data: &mut [u8], bits: usize) -> Option<usize> {
    caught(|| Zuc128Keystream::xor_inplace(state, data, bits))
}

#[cfg(test)]
mod tests {
    use super::*;

    #[test]
    fn a_shown_state_gives_the_words() {
        let mut state = zuc128_state(&[0; 16], &[0; 16]);
        assert_eq!(words(&mut state, 2), [0x27be_de74, 0x0180_82da]);
    }
}
