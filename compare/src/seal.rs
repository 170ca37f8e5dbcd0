//! Sealed frames as request 2026-01 says them, over the crate's own EEA3 and EIA3. It is written
//! from the request and knows nothing of the port.

use zuc::eea3::eea3_xor_inplace;
use zuc::eia3::Eia3Mac;

use crate::fields::BAD_FIELD;
use crate::rules::BAD_KEY;

pub const BAD_FRAME: u32 = 6;
pub const BAD_LENGTH: u32 = 7;
pub const BAD_BODY: u32 = 9;
pub const BAD_TAG: u32 = 10;

/// The body begins there; so many bytes are not the body's; and no frame has more.
pub const BODY: usize = 13;
pub const BESIDE: usize = 17;
pub const LONGEST: usize = 65538;

/// The two keys, of any length.
#[derive(Clone)]
pub struct Keys {
    pub ck: Vec<u8>,
    pub ik: Vec<u8>,
}

#[derive(Clone, Copy, PartialEq, Debug)]
pub struct Contents {
    pub count: u32,
    pub bearer: u8,
    pub direction: u8,
    pub bits: u32,
}

fn key(bytes: &[u8]) -> Option<&[u8; 16]> {
    bytes.try_into().ok()
}

fn number(bytes: &[u8]) -> u32 {
    bytes.iter().fold(0, |number, &byte| number << 8 | u32::from(byte))
}

/// The bytes before a body of so many, with any numbers; the length field is cut to two bytes.
pub fn head(contents: Contents, body: usize) -> Vec<u8> {
    let Contents { count, bearer, direction, bits } = contents;
    let mut head = vec![1];
    head.extend(((body + 14) as u16).to_be_bytes());
    head.extend(count.to_be_bytes());
    head.extend([bearer, direction]);
    head.extend(bits.to_be_bytes());
    head
}

/// The tag of a masked body, of as many bits as it has at most; other numbers are trimmed.
pub fn tag(ik: &[u8; 16], contents: Contents, masked: &[u8]) -> u32 {
    let Contents { count, bearer, direction, bits } = contents;
    let bits = (bits as usize).min(8 * masked.len());
    Eia3Mac::compute(count, bearer, direction, ik, masked, bits)
}

/// Masks and unmasks. With no byte past the bits' own the crate's mode is the clean one.
fn mask(ck: &[u8; 16], contents: Contents, body: &mut [u8]) {
    let Contents { count, bearer, direction, bits } = contents;
    eea3_xor_inplace(count, bearer, direction, ck, body, bits as usize);
}

/// The refusals that both have of the contents: 8, then 9.
fn contents_refusal(contents: Contents, body: &[u8]) -> u32 {
    if contents.bearer > 31 || contents.direction > 1 {
        return BAD_FIELD;
    }
    let bits = contents.bits as usize;
    let past = |place: usize| place >= bits && body[place / 8] >> (7 - place % 8) & 1 == 1;
    let last_byte = 8 * body.len().saturating_sub(1)..8 * body.len();
    if bits.div_ceil(8) != body.len() || last_byte.into_iter().any(past) {
        return BAD_BODY;
    }
    0
}

/// The number, and every byte of the frame after a write.
pub fn written(keys: &Keys, contents: Contents, frame: &[u8]) -> (u32, Vec<u8>) {
    let as_it_came = |number| (number, frame.to_vec());
    let (Some(ck), Some(ik)) = (key(&keys.ck), key(&keys.ik)) else {
        return as_it_came(BAD_KEY);
    };
    if frame.len() < BESIDE {
        return as_it_came(BAD_FRAME);
    }
    if frame.len() > LONGEST {
        return as_it_came(BAD_LENGTH);
    }
    let mut body = frame[BODY..frame.len() - 4].to_vec();
    match contents_refusal(contents, &body) {
        0 => {}
        number => return as_it_came(number),
    }
    mask(ck, contents, &mut body);
    let tag = tag(ik, contents, &body);
    (0, [&head(contents, body.len())[..], &body, &tag.to_be_bytes()].concat())
}

/// The number, the contents if it is 0, and every byte of the frame after a read.
pub fn read(keys: &Keys, frame: &[u8]) -> (u32, Option<Contents>, Vec<u8>) {
    let as_it_came = |number| (number, None, frame.to_vec());
    let (Some(ck), Some(ik)) = (key(&keys.ck), key(&keys.ik)) else {
        return as_it_came(BAD_KEY);
    };
    if frame.len() < BESIDE || frame[0] != 1 {
        return as_it_came(BAD_FRAME);
    }
    if number(&frame[1..3]) as usize != frame.len() - 3 {
        return as_it_came(BAD_LENGTH);
    }
    let (count, bits) = (number(&frame[3..7]), number(&frame[9..13]));
    let contents = Contents { count, bearer: frame[7], direction: frame[8], bits };
    let (rest, told) = frame.split_at(frame.len() - 4);
    match contents_refusal(contents, &rest[BODY..]) {
        0 => {}
        number => return as_it_came(number),
    }
    if number(told) != tag(ik, contents, &rest[BODY..]) {
        return as_it_came(BAD_TAG);
    }
    let mut plain = frame.to_vec();
    mask(ck, contents, &mut plain[BODY..rest.len()]);
    (0, Some(contents), plain)
}
