// Included by users.rs, where `library` is the crate or this port.

use library::eea3::{eea3_xor_inplace, Eea3Keystream};
use library::eia3::Eia3Mac;
use library::zuc128::{zuc128_xor_inplace, Zuc128Keystream, Zuc128Mac};
use library::zuc256::{Zuc256Keystream, Zuc256Mac};

use crate::input::{Input, Start, Tagger};

fn array<const N: usize>(bytes: &[u8]) -> &[u8; N] {
    bytes.try_into().expect("a key or an IV of the right length")
}

/// The first `words` words, one at a time.
pub fn words(start: Start, input: &Input) -> Vec<u32> {
    let Input { key, iv, count, bearer, direction, .. } = input;
    let n = 0..input.words;
    match start {
        Start::Zuc128 => {
            let mut zuc = Zuc128Keystream::new(array(key), array(iv));
            n.map(|_| zuc.generate()).collect()
        }
        Start::Zuc256 => {
            let mut zuc = Zuc256Keystream::new(array(key), array(iv));
            n.map(|_| zuc.generate()).collect()
        }
        Start::Eea3 => {
            let mut zuc = Eea3Keystream::new(*count, *bearer, *direction, array(key));
            n.map(|_| zuc.generate()).collect()
        }
    }
}

/// Masks `buffer` in place of `data`; answers whether there is a call for this start.
pub fn mask(start: Start, input: &Input, buffer: &mut [u8]) -> bool {
    let Input { key, iv, count, bearer, direction, bits, .. } = input;
    match start {
        Start::Zuc128 => zuc128_xor_inplace(array(key), array(iv), buffer, *bits),
        Start::Eea3 => eea3_xor_inplace(*count, *bearer, *direction, array(key), buffer, *bits),
        Start::Zuc256 => return false,
    }
    true
}

/// The tag in steps: a start, updates, a finish.
pub fn tag_in_steps(tagger: Tagger, input: &Input) -> u128 {
    let Input { key, iv, count, bearer, direction, .. } = input;

    macro_rules! steps {
        ($start:expr) => {{
            let mut mac = $start;
            for piece in input.pieces() {
                mac.update(piece);
            }
            u128::from(mac.finish(input.tail(), input.bits))
        }};
    }

    match tagger {
        Tagger::Zuc128 => steps!(Zuc128Mac::new(array(key), array(iv))),
        Tagger::Eia3 => steps!(Eia3Mac::new(*count, *bearer, *direction, array(key))),
        Tagger::Zuc256 { width: 4 } => steps!(Zuc256Mac::<u32>::new(array(key), array(iv))),
        Tagger::Zuc256 { width: 8 } => steps!(Zuc256Mac::<u64>::new(array(key), array(iv))),
        Tagger::Zuc256 { .. } => steps!(Zuc256Mac::<u128>::new(array(key), array(iv))),
    }
}

/// The tag of all of `data` at once.
pub fn tag_at_once(tagger: Tagger, input: &Input) -> u128 {
    let Input { key, iv, count, bearer, direction, data, bits, .. } = input;
    match tagger {
        Tagger::Zuc128 => Zuc128Mac::compute(array(key), array(iv), data, *bits).into(),
        Tagger::Eia3 => {
            Eia3Mac::compute(*count, *bearer, *direction, array(key), data, *bits).into()
        }
        Tagger::Zuc256 { width: 4 } => {
            Zuc256Mac::<u32>::compute(array(key), array(iv), data, *bits).into()
        }
        Tagger::Zuc256 { width: 8 } => {
            Zuc256Mac::<u64>::compute(array(key), array(iv), data, *bits).into()
        }
        Tagger::Zuc256 { .. } => Zuc256Mac::<u128>::compute(array(key), array(iv), data, *bits),
    }
}
