//! The published vectors: ETSI/SAGE Implementor's Test Data for ZUC, 128-EEA3 and
//! 128-EIA3, and those of the ZUC-256 paper, version 1.1. Each call of
//! vectors.tsv goes through every way that the package has to make it.
//!
//! ```text
//! zuc128 KEY IV N      the first N words      word128 KEY IV N   word N, from 1
//! zuc256 KEY IV N
//! eea3 COUNT BEARER DIRECTION KEY BITS DATA                the masked buffer
//! eia3 COUNT BEARER DIRECTION KEY BITS MESSAGE             the tag
//! mac256 WIDTH KEY IV BITS MESSAGE                         the tag; WIDTH in bytes
//! ```

use yegetmur::eea3::{eea3_xor_clean, eea3_xor_inplace, Eea3Keystream};
use yegetmur::eia3::Eia3Mac;
use yegetmur::zuc128::Zuc128Keystream;
use yegetmur::zuc256::{MacTag, Zuc256Keystream, Zuc256Mac};

fn hex(digits: &str) -> Vec<u8> {
    assert!(digits.len() % 2 == 0);
    let byte = |at| u8::from_str_radix(&digits[at..at + 2], 16).unwrap();
    (0..digits.len()).step_by(2).map(byte).collect()
}

fn array<const N: usize>(digits: &str) -> [u8; N] {
    hex(digits).try_into().unwrap()
}

fn number(text: &str) -> u32 {
    match text.strip_prefix("0x") {
        Some(digits) => u32::from_str_radix(digits, 16).unwrap(),
        None => text.parse().unwrap(),
    }
}

fn byte(text: &str) -> u8 {
    u8::try_from(number(text)).unwrap()
}

fn length(text: &str) -> usize {
    text.parse().unwrap()
}

fn joined(words: &[u32]) -> String {
    words.iter().map(|word| format!("{word:08x}")).collect()
}

/// The first `n` words, one at a time and in one call.
fn words(n: usize, mut one: impl FnMut() -> u32, all: impl FnOnce(&mut [u32])) -> Vec<u32> {
    let mut out = vec![0; n];
    all(&mut out);
    assert_eq!(out, (0..n).map(|_| one()).collect::<Vec<_>>());
    out
}

fn zuc128(key: &str, iv: &str, n: usize) -> Vec<u32> {
    let start = || Zuc128Keystream::new(&array(key), &array(iv));
    let (mut one, mut all) = (start(), start());
    words(n, || one.generate(), |out| all.generate_into(out))
}

fn zuc256(key: &str, iv: &str, n: usize) -> Vec<u32> {
    let start = || Zuc256Keystream::new(&array(key), &array(iv));
    let (mut one, mut all) = (start(), start());
    words(n, || one.generate(), |out| all.generate_into(out))
}

/// The published buffers are zero past BITS and no longer than they need be, so
/// both modes give them.
fn eea3(count: u32, bearer: u8, direction: u8, key: &str, bits: usize, data: &str) -> Vec<u8> {
    let ck = array(key);
    let mut buffer = hex(data);
    eea3_xor_inplace(count, bearer, direction, &ck, &mut buffer, bits);

    let mut clean = hex(data);
    eea3_xor_clean(count, bearer, direction, &ck, &mut clean, bits);
    assert_eq!(clean, buffer);

    let mut masked = hex(data);
    let drawn = Eea3Keystream::new(count, bearer, direction, &ck).xor_inplace(&mut masked, bits);
    assert_eq!((masked, drawn), (buffer.clone(), buffer.len() / 4 + 1));
    let drawn = Eea3Keystream::new(count, bearer, direction, &ck).xor_clean(&mut hex(data), bits);
    assert_eq!(drawn, bits.div_ceil(32));
    buffer
}

fn eia3(count: u32, bearer: u8, direction: u8, key: &str, bits: usize, message: &str) -> u32 {
    let (ik, message) = (array(key), hex(message));
    let tag = Eia3Mac::compute(count, bearer, direction, &ik, &message, bits);
    let (head, tail) = message.split_at(bits / 8 / 2);
    let mut mac = Eia3Mac::new(count, bearer, direction, &ik);
    mac.update(head);
    assert_eq!(mac.finish(tail, bits - 8 * head.len()), tag);
    tag
}

fn mac256<T>(key: &str, iv: &str, bits: usize, message: &str) -> T
where
    T: MacTag + PartialEq + std::fmt::Debug,
{
    let (ik, iv, message) = (array(key), array(iv), hex(message));
    let tag = Zuc256Mac::compute(&ik, &iv, &message, bits);
    let (head, tail) = message.split_at(bits / 8 / 2);
    let mut mac = Zuc256Mac::<T>::new(&ik, &iv);
    mac.update(head);
    assert_eq!(mac.finish(tail, bits - 8 * head.len()), tag);
    tag
}

fn answer(call: &str) -> String {
    let fields: Vec<&str> = call.split(' ').collect();
    match fields[..] {
        ["zuc128", key, iv, n] => joined(&zuc128(key, iv, length(n))),
        ["word128", key, iv, n] => joined(&zuc128(key, iv, length(n))[length(n) - 1..]),
        ["zuc256", key, iv, n] => joined(&zuc256(key, iv, length(n))),
        ["eea3", count, bearer, direction, key, bits, data] => {
            let (count, bearer, direction) = (number(count), byte(bearer), byte(direction));
            let buffer = eea3(count, bearer, direction, key, length(bits), data);
            buffer.iter().map(|byte| format!("{byte:02x}")).collect()
        }
        ["eia3", count, bearer, direction, key, bits, message] => {
            let (count, bearer, direction) = (number(count), byte(bearer), byte(direction));
            let tag = eia3(count, bearer, direction, key, length(bits), message);
            format!("{tag:08x}")
        }
        ["mac256", "4", key, iv, bits, message] => {
            format!("{:08x}", mac256::<u32>(key, iv, length(bits), message))
        }
        ["mac256", "8", key, iv, bits, message] => {
            format!("{:016x}", mac256::<u64>(key, iv, length(bits), message))
        }
        ["mac256", "16", key, iv, bits, message] => {
            format!("{:032x}", mac256::<u128>(key, iv, length(bits), message))
        }
        _ => panic!("{call}"),
    }
}

#[test]
fn published_vectors() {
    let mut tried = 0;
    for line in include_str!("vectors.tsv").lines() {
        if line.starts_with('#') {
            continue;
        }
        let fields: Vec<&str> = line.split('\t').collect();
        let [id, call, expected] = fields[..] else {
            panic!("{line}")
        };
        assert_eq!(answer(call), expected, "{id}");
        tried += 1;
    }
    assert_eq!(tried, 29);
}
