//! What stands where in the array of a tag state: the one place that knows.
//!
//! A caller needs none of this. The driver does, to hold every number of an array to
//! document 01 after each call, and to spoil arrays one number at a time.

use yegetmur::capi::{TagState, TAG_WORDS};

/// The generator's places, R1 and R2; its start index; how many words it has drawn; the key
/// pair and the tag in 64-bit words (as many as the width asks, the others zero); the bytes
/// that wait for a block with zeros after them, their count; the tag's width in bytes.
#[derive(Clone, PartialEq, Debug)]
pub struct Parts {
    pub generator: [u32; 18],
    pub start: u64,
    pub drawn: u64,
    pub key: [u64; 4],
    pub tag: [u64; 2],
    pub waiting: [u8; 16],
    pub count: usize,
    pub width: usize,
}

pub const START: usize = 9;
pub const DRAWN: usize = 10;
const KEY: usize = 11;
const TAG: usize = 15;
const WAITING: usize = 17;
const COUNT: usize = 19;
const WIDTH: usize = 20;

pub fn pack(parts: &Parts) -> TagState {
    let mut array = [0; TAG_WORDS];
    for (number, pair) in array.iter_mut().zip(parts.generator.chunks(2)) {
        *number = u64::from(pair[0]) << 32 | u64::from(pair[1]);
    }
    array[START] = parts.start;
    array[DRAWN] = parts.drawn;
    array[KEY..TAG].copy_from_slice(&parts.key);
    array[TAG..WAITING].copy_from_slice(&parts.tag);
    for (number, bytes) in array[WAITING..].iter_mut().zip(parts.waiting.chunks(8)) {
        *number = u64::from_be_bytes(bytes.try_into().expect("eight bytes"));
    }
    array[COUNT] = parts.count as u64;
    array[WIDTH] = parts.width as u64;
    array
}

/// The parts that an array holds. Every array holds some: no number is too great for its place.
pub fn unpack(array: &TagState) -> Parts {
    let mut generator = [0; 18];
    for (pair, number) in generator.chunks_mut(2).zip(array) {
        pair.copy_from_slice(&[(number >> 32) as u32, *number as u32]);
    }
    let mut waiting = [0; 16];
    for (bytes, number) in waiting.chunks_mut(8).zip(&array[WAITING..]) {
        bytes.copy_from_slice(&number.to_be_bytes());
    }
    Parts {
        generator,
        start: array[START],
        drawn: array[DRAWN],
        key: array[KEY..TAG].try_into().expect("four words"),
        tag: array[TAG..WAITING].try_into().expect("two words"),
        waiting,
        count: array[COUNT] as usize,
        width: array[WIDTH] as usize,
    }
}

#[cfg(test)]
mod tests {
    use super::*;
    use crate::rng::Rng;

    #[test]
    fn packing_loses_nothing() {
        let mut rng = Rng::new(1);
        for _ in 0..1000 {
            let parts = Parts {
                generator: [0; 18].map(|_: u32| rng.number() as u32),
                start: rng.number(),
                drawn: rng.number(),
                key: [0; 4].map(|_: u64| rng.number()),
                tag: [0; 2].map(|_: u64| rng.number()),
                waiting: rng.bytes(16).try_into().expect("sixteen bytes"),
                count: rng.below(16),
                width: rng.below(17),
            };
            assert_eq!(unpack(&pack(&parts)), parts);
            let array = [0; TAG_WORDS].map(|_: u64| rng.number());
            assert_eq!(pack(&unpack(&array)), array);
        }
    }
}
