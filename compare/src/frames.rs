//! Which frames are tried (request 2026-01).

use crate::frame::{Call, Frame};
use crate::rng::Rng;
use crate::seal::{Contents, Keys, BESIDE, BODY, LONGEST};

/// What is done with a frame.
pub type Try<'a> = &'a mut dyn FnMut(Frame);

pub type Inputs = fn(&mut Rng, Try);

pub const FRAMES: [(&str, Inputs); 6] = [
    ("frames: written, 0 to 60 bytes, every L", short_writes),
    ("frames: read, 0 to 60 bytes, every L", short_reads),
    ("frames: each byte altered in turn", each_byte),
    ("frames: about 65521 and 65538 bytes", longest),
    ("frames: keys, length, fields, body, tag mixed", combinations),
    ("frames: random, to 65538 bytes", random_frames),
];

const CALLS: [Call; 2] = [Call::Write, Call::Read];

/// So many bytes, at random but for the bits past the bit length, which are 0.
fn body(rng: &mut Rng, bytes: usize, bits: u32) -> Vec<u8> {
    let mut body = rng.bytes(bytes);
    for place in bits as usize..8 * bytes {
        body[place / 8] &= !(0x80 >> (place % 8));
    }
    body
}

/// A frame of n bytes with this bit length, and all else at random within its bounds.
fn keyed(rng: &mut Rng, call: Call, n: usize, bits: u32) -> Frame {
    let keys = Keys { ck: rng.bytes(16), ik: rng.bytes(16) };
    let (bearer, direction) = (rng.byte() % 32, rng.byte() % 2);
    let contents = Contents { count: rng.number() as u32, bearer, direction, bits };
    let bytes = n.saturating_sub(BESIDE);
    let tail = n as isize - (bytes + BESIDE) as isize;
    Frame { call, keys, contents, body: body(rng, bytes, bits), tail, altered: Vec::new() }
}

/// The bit length that is the whole of such a frame's body.
fn all_bits(n: usize) -> u32 {
    8 * n.saturating_sub(BESIDE) as u32
}

fn short_writes(rng: &mut Rng, attempt: Try) {
    every_bit_length(rng, Call::Write, attempt);
}

fn short_reads(rng: &mut Rng, attempt: Try) {
    every_bit_length(rng, Call::Read, attempt);
}

/// With every bit past L 0; with one of the body's bits turned, which may be past it; and with
/// any body.
fn every_bit_length(rng: &mut Rng, call: Call, attempt: Try) {
    for n in 0..=60 {
        for bits in 0..=8 * n as u32 {
            let frame = keyed(rng, call, n, bits);
            if !frame.body.is_empty() {
                let mut turned = frame.clone();
                let place = 8 * frame.body.len() - 1 - rng.below(8);
                turned.body[place / 8] ^= 0x80 >> (place % 8);
                attempt(turned);
                attempt(Frame { body: rng.bytes(frame.body.len()), ..frame.clone() });
            }
            attempt(frame);
        }
    }
}

/// Each bit of each byte, all of them, and any other byte.
fn each_byte(rng: &mut Rng, attempt: Try) {
    for n in BESIDE..=60 {
        for less in [0, 1, 3, 7] {
            let frame = keyed(rng, Call::Read, n, all_bits(n).saturating_sub(less));
            for place in 0..n {
                let any = 1 + rng.below(255) as u8;
                for by in (0..8).map(|bit| 1 << bit).chain([0xff, any]) {
                    attempt(Frame { altered: vec![(place, by)], ..frame.clone() });
                }
            }
        }
    }
}

/// Lengths at which a length field ends or a number of 16 bits goes round.
fn longest(rng: &mut Rng, attempt: Try) {
    let near = (65514..=65524).chain(65532..=65544);
    for n in near.chain([65552, 65553, 65555, 65556, 70000, 131_074, 131_075, 131_091]) {
        for call in CALLS {
            for bits in
                [0, 1, 7, 8].map(|less| all_bits(n) - less).into_iter().chain([all_bits(n) + 1])
            {
                attempt(keyed(rng, call, n, bits));
            }
        }
        let frame = keyed(rng, Call::Read, n, all_bits(n));
        for place in [0, 1, 2, 6, 7, 8, 9, 12, BODY, n / 2, n - 5, n - 4, n - 1] {
            attempt(Frame { altered: vec![(place, 1)], ..frame.clone() });
        }
    }
    // lent with other bytes after it, as if it stood in a stream
    for n in [BESIDE, 60, LONGEST - 1, LONGEST] {
        for tail in [-17, -4, -1, 1, 2, 17] {
            attempt(Frame { tail, ..keyed(rng, Call::Read, n, all_bits(n)) });
        }
    }
}

/// Every refusal of its own with every other: keys, length, fields, body and tag.
fn combinations(rng: &mut Rng, attempt: Try) {
    for (call, n) in CALLS.into_iter().flat_map(|call| [(call, 16), (call, 19), (call, 65539)]) {
        for wrong in 0..1_usize << 9 {
            let has = |place: usize| wrong >> place & 1 == 1;
            let mut frame = keyed(rng, call, n, 13.max(all_bits(n).saturating_sub(3)));
            if has(0) {
                frame.keys.ck = key(rng);
            }
            if has(1) {
                frame.keys.ik = key(rng);
            }
            if has(2) {
                frame.contents.bearer |= 32 << rng.below(3);
            }
            if has(3) {
                frame.contents.direction |= 2 << rng.below(7);
            }
            if has(4) {
                frame.contents.bits ^= 1 << (3 + rng.below(29));
            }
            if let (true, Some(last)) = (has(5), frame.body.last_mut()) {
                *last |= 1 << rng.below(3);
            }
            let alterations = [(0, 1 << rng.below(8)), (2, 1 << rng.below(8)), (n - 1, 1)];
            let chosen = (6..9).filter(|&place| has(place)).map(|place| alterations[place - 6]);
            frame.altered = chosen.collect();
            attempt(frame);
        }
    }
}

/// A key that is not of 16 bytes.
fn key(rng: &mut Rng) -> Vec<u8> {
    let length = rng.pick(&[0, 1, 15, 17, 32, 272, 65552]);
    rng.bytes(length)
}

fn random_frames(rng: &mut Rng, attempt: Try) {
    for _ in 0..60_000 {
        let log = if rng.below(64) == 0 { 16 } else { 10 };
        attempt(random(rng, log));
    }
}

/// Any frame of up to 2^`log` bytes and some: right, with something wrong, or bytes of no meaning.
pub fn random(rng: &mut Rng, log: usize) -> Frame {
    let n = rng.length(log) + rng.below(BESIDE + 3);
    let call = rng.pick(&CALLS);
    let less = rng.below(8) as u32;
    let mut frame = keyed(rng, call, n, all_bits(n).saturating_sub(less));
    match rng.below(8) {
        0 => frame.contents.bits = rng.below(8 * n + 9) as u32,
        1 => frame.altered = vec![(rng.below(n + 1), 1 + rng.below(255) as u8)],
        2 => frame.altered = (0..n).map(|place| (place, rng.byte())).collect(),
        3 => frame.tail += rng.below(40) as isize - 20,
        4 => frame.body = rng.bytes(frame.body.len()),
        _ => {}
    }
    frame
}
