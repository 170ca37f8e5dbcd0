//! What is refused and by which number, what a refusal leaves as it was, and
//! that the calls without `try_` panic where the crate's panic.

use std::panic::{catch_unwind, AssertUnwindSafe};

use yegetmur::capi::{self, STATE_WORDS, TAG_WORDS};
use yegetmur::eea3::{self, Eea3Keystream};
use yegetmur::eia3::Eia3Mac;
use yegetmur::zuc128::{self, Zuc128Keystream, Zuc128Mac};
use yegetmur::zuc256::{Zuc256Keystream, Zuc256Mac};
use yegetmur::Refusal;

const BYTES: [u8; 40] = [0x5a; 40];

/// The refusal of a key and an IV of so many bytes, where `right` are the right ones.
fn by_length(key: usize, iv: usize, right: (usize, usize)) -> Option<Refusal> {
    if key != right.0 {
        Some(Refusal::Key)
    } else if iv != right.1 {
        Some(Refusal::Iv)
    } else {
        None
    }
}

#[test]
fn keys_and_ivs_of_any_length() {
    for k in 0..=40 {
        for v in 0..=40 {
            let (key, iv) = (&BYTES[..k], &BYTES[..v]);
            let (short, long) = (by_length(k, v, (16, 16)), by_length(k, v, (32, 23)));
            assert_eq!(Zuc128Keystream::try_new(key, iv).err(), short);
            assert_eq!(Zuc128Mac::try_new(key, iv).err(), short);
            assert_eq!(Zuc128Mac::try_compute(key, iv, &[], 0).err(), short);
            assert_eq!(Zuc256Keystream::try_new(key, iv).err(), long);
            assert_eq!(Zuc256Mac::<u32>::try_new(key, iv).err(), long);
            assert_eq!(Zuc256Mac::<u64>::try_new(key, iv).err(), long);
            assert_eq!(Zuc256Mac::<u128>::try_compute(key, iv, &[], 0).err(), long);
        }
        let alone = by_length(k, 0, (16, 0));
        assert_eq!(Eea3Keystream::try_new(1, 2, 0, &BYTES[..k]).err(), alone);
        assert_eq!(Eia3Mac::try_new(1, 2, 0, &BYTES[..k]).err(), alone);
        assert_eq!(
            Eia3Mac::try_compute(1, 2, 0, &BYTES[..k], &[], 0).err(),
            alone
        );
    }
}

#[test]
fn the_lowest_number_is_given() {
    let mut data = [1, 2, 3];
    let short = &BYTES[..15];
    let answers = [
        zuc128::try_zuc128_xor_inplace(short, short, &mut data, 25),
        zuc128::try_zuc128_xor_clean(&BYTES[..16], short, &mut data, 25),
        eea3::try_eea3_xor_inplace(0, 0, 0, short, &mut data, 25),
        eea3::try_eea3_xor_clean(0, 0, 0, &BYTES[..16], &mut data, 25),
    ];
    let expected = [Refusal::Key, Refusal::Iv, Refusal::Key, Refusal::Bits];
    assert_eq!(answers, expected.map(Err));
    assert_eq!(data, [1, 2, 3]);

    let mut tag = [7; 2];
    let answers = [
        capi::zuc256_tag(5, short, short, &data, 25, &mut tag),
        capi::zuc256_tag(4, short, short, &data, 25, &mut tag),
        capi::zuc256_tag(4, &BYTES[..32], short, &data, 25, &mut tag),
    ];
    let expected = [Refusal::Width, Refusal::Key, Refusal::Iv];
    assert_eq!(answers, expected.map(Refusal::number));
    assert_eq!(tag, [0; 2]);
}

/// What a strict form answers, where the plain one answers so.
fn in_field<T>(bearer: u8, direction: u8, plain: T) -> Result<T, Refusal> {
    if bearer <= 31 && direction <= 1 {
        Ok(plain)
    } else {
        Err(Refusal::Field)
    }
}

/// Request 2026-04: 8 exactly if the bearer is above 31 or the direction above 1, and else the
/// plain forms' answers.
#[test]
fn strict_forms() {
    let key = &BYTES[..16];
    for bearer in 0..=u8::MAX {
        for direction in [0, 1, 2, 3, 128, 255] {
            let word = Eea3Keystream::try_new(1, bearer, direction, key).map(|mut z| z.generate());
            let strict =
                Eea3Keystream::new_strict(1, bearer, direction, key).map(|mut z| z.generate());
            assert_eq!(strict, in_field(bearer, direction, word.unwrap()));

            let tag = Eia3Mac::try_compute(1, bearer, direction, key, &BYTES[..9], 70).unwrap();
            let strict = Eia3Mac::compute_strict(1, bearer, direction, key, &BYTES[..9], 70);
            assert_eq!(strict, in_field(bearer, direction, tag));
            let strict = Eia3Mac::new_strict(1, bearer, direction, key)
                .map(|mac| mac.finish(&BYTES[..9], 70));
            assert_eq!(strict, in_field(bearer, direction, tag));

            let (mut plain, mut strict) = ([7; 9], [7; 9]);
            let words = eea3::try_eea3_xor_inplace(1, bearer, direction, key, &mut plain, 64);
            let answer = eea3::eea3_xor_inplace_strict(1, bearer, direction, key, &mut strict, 64);
            assert_eq!(answer, in_field(bearer, direction, words.unwrap()));
            assert_eq!(strict, in_field(bearer, direction, plain).unwrap_or([7; 9]));
            (plain, strict) = ([7; 9], [7; 9]);
            let words = eea3::try_eea3_xor_clean(1, bearer, direction, key, &mut plain, 64);
            let answer = eea3::eea3_xor_clean_strict(1, bearer, direction, key, &mut strict, 64);
            assert_eq!(answer, in_field(bearer, direction, words.unwrap()));
            assert_eq!(strict, in_field(bearer, direction, plain).unwrap_or([7; 9]));
        }
    }
}

/// 8 is checked directly after 2, and before 5.
#[test]
fn strict_refusals_in_order() {
    let cases = [
        (15, 32, Refusal::Key),
        (16, 32, Refusal::Field),
        (16, 31, Refusal::Bits),
    ];
    for (key, bearer, refusal) in cases {
        let (key, mut data) = (&BYTES[..key], [1, 2, 3]);
        let answers = [
            eea3::eea3_xor_inplace_strict(1, bearer, 0, key, &mut data, 25).err(),
            eea3::eea3_xor_clean_strict(1, bearer, 0, key, &mut data, 25).err(),
            Eia3Mac::compute_strict(1, bearer, 0, key, &data, 25).err(),
        ];
        assert_eq!((answers, data), ([Some(refusal); 3], [1, 2, 3]));
    }
}

/// In one call, and by a start and a mask of it.
#[test]
fn eea3_in_one_call() {
    for len in 0..=20_usize {
        for bits in 0..=8 * len {
            let (mut once, mut steps) = ([0x5a; 20], [0x5a; 20]);
            let start = || Eea3Keystream::new(1, 40, 3, &[6; 16]);
            let words = start().try_xor_inplace(&mut steps[..len], bits);
            let at_once = eea3::try_eea3_xor_inplace(1, 40, 3, &[6; 16], &mut once[..len], bits);
            assert_eq!((at_once, once), (words, steps), "{len} bytes, {bits} bits");
            let words = start().try_xor_clean(&mut steps[..len], bits);
            let at_once = eea3::try_eea3_xor_clean(1, 40, 3, &[6; 16], &mut once[..len], bits);
            assert_eq!(
                (at_once, once),
                (words, steps),
                "clean, {len} bytes, {bits} bits"
            );
        }
    }
}

#[test]
fn a_refused_mask_alters_nothing() {
    let start = || Zuc128Keystream::new(&[1; 16], &[2; 16]);
    let (mut zuc, mut data) = (start(), [9; 5]);
    assert_eq!(zuc.try_xor_inplace(&mut data, 41), Err(Refusal::Bits));
    assert_eq!(zuc.try_xor_clean(&mut data, usize::MAX), Err(Refusal::Bits));
    assert_eq!(data, [9; 5]);
    assert_eq!(zuc.generate(), start().generate());
}

#[test]
fn a_refused_finish_can_go_on() {
    let mut mac = Eia3Mac::new(1, 2, 1, &[3; 16]);
    mac.update(b"abc");
    assert_eq!(mac.try_finish(b"de", 17), Err(Refusal::Bits));
    let tag = mac.try_finish(b"de", 15);
    assert_eq!(tag, Ok(Eia3Mac::compute(1, 2, 1, &[3; 16], b"abcde", 39)));
    assert_eq!(mac.try_update(b""), Err(Refusal::State));
    assert_eq!(mac.try_finish(b"", 0), Err(Refusal::State));
}

#[test]
fn no_bytes_draw_one_word_as_the_crate_and_none_in_clean_mode() {
    let mut zuc = Zuc256Keystream::new(&[4; 32], &[5; 23]);
    let mut ahead = zuc.clone();
    assert_eq!(zuc.try_xor_inplace(&mut [], 0), Ok(1));
    assert_eq!(zuc.try_xor_clean(&mut [], 0), Ok(0));
    assert_eq!(zuc.try_xor_clean(&mut [7; 9], 0), Ok(0));
    ahead.generate_into(&mut [0; 1]);
    assert_eq!(zuc.generate(), ahead.generate());
}

/// Request 2026-02: a head end masks 32 bytes and then 32 more from the state that they leave.
#[test]
fn blocks_from_one_start() {
    let start = || Eea3Keystream::new(1, 2, 0, &[6; 16]);
    let (mut at_once, mut in_turn) = ([0; 71], [0; 71]);
    let (mut one, mut zuc) = (start(), start());
    assert_eq!(one.xor_clean(&mut at_once, 565), 18);
    let drawn: Vec<usize> = [(0..32, 256), (32..64, 256), (64..71, 53)]
        .into_iter()
        .map(|(block, bits)| zuc.xor_clean(&mut in_turn[block], bits))
        .collect();
    assert_eq!((drawn, in_turn), (vec![8, 8, 2], at_once));
    assert_eq!(zuc.generate(), one.generate());
    assert_eq!(start().xor_inplace(&mut in_turn[..32], 256), 9);
}

/// Document P11: words 11223344 55667788 are not to be had from a start, so the
/// modes are held to a keystream of their own.
#[test]
fn past_the_bit_length() {
    let start = || Eea3Keystream::new(0, 0, 0, &[6; 16]);
    let mut stream = [0; 8];
    start().xor_inplace(&mut stream, 64);
    for bits in 0..=40_usize {
        let (mut as_the_crate, mut clean) = ([0; 5], [0; 5]);
        start().xor_inplace(&mut as_the_crate, bits);
        start().xor_clean(&mut clean, bits);
        for (j, &masked) in stream[..5].iter().enumerate() {
            let kept = bits.saturating_sub(8 * j).min(8);
            let cut = masked & !u8::try_from(0xff_u16 >> kept).unwrap();
            assert_eq!(clean[j], cut, "clean, {bits} bits, byte {j}");
            let expected = if bits == 8 * j { masked } else { cut };
            assert_eq!(as_the_crate[j], expected, "{bits} bits, byte {j}");
        }
    }
}

fn panics<T>(call: impl FnOnce() -> T) -> bool {
    catch_unwind(AssertUnwindSafe(call)).is_err()
}

#[test]
fn panics_where_the_crate_does() {
    let (ck, long, iv) = ([0; 16], [0; 32], [0; 23]);
    let data = &mut [0; 2];
    assert!(panics(|| zuc128::zuc128_xor_inplace(&ck, &ck, data, 17)));
    assert!(panics(|| zuc128::zuc128_xor_clean(&ck, &ck, data, 17)));
    assert!(panics(|| eea3::eea3_xor_inplace(0, 0, 0, &ck, data, 17)));
    assert!(panics(|| eea3::eea3_xor_clean(0, 0, 0, &ck, data, 17)));
    assert!(panics(|| Zuc128Mac::compute(&ck, &ck, &[0; 2], 17)));
    assert!(panics(|| Zuc128Mac::new(&ck, &ck).finish(&[0; 2], 17)));
    assert!(panics(|| Eia3Mac::compute(0, 0, 0, &ck, &[0; 2], 17)));
    assert!(panics(|| Eia3Mac::new(0, 0, 0, &ck).finish(&[], 1)));
    assert!(panics(|| Zuc256Mac::<u32>::compute(
        &long, &iv, &[0; 2], 17
    )));
    assert!(panics(
        || Zuc256Mac::<u128>::new(&long, &iv).finish(&[0; 2], 17)
    ));
    assert!(!panics(
        || Zuc256Mac::<u64>::new(&long, &iv).finish(&[0; 2], 16)
    ));
}

#[test]
fn malformed_states() {
    let malformed = Refusal::State.number();
    let mut state = [0; STATE_WORDS];
    let mut word = 7;
    assert_eq!(capi::zuc_draw(&mut state, &mut word), malformed);
    assert_eq!(word, 0);
    for cell in [0, 1 << 31, u32::MAX] {
        assert_eq!(capi::zuc128_start(&mut state, &[0; 16], &[0; 16]), 0);
        state[15] = cell;
        let (before, mut out, mut count) = (state, [7; 3], 7);
        assert_eq!(capi::zuc_words(&mut state, &mut out), malformed);
        assert_eq!(
            capi::zuc_mask_clean(&mut state, &mut [], 1, &mut count),
            malformed
        );
        assert_eq!((state, out, count), (before, [7; 3], 0));
    }
    let mut tag = [7; 2];
    for value in [0, u64::MAX] {
        let mut state = [value; TAG_WORDS];
        assert_eq!(capi::zuc128_tag_update(&mut state, b"abc"), malformed);
        assert_eq!(capi::zuc256_tag_update(&mut state, b""), malformed);
        assert_eq!(
            capi::zuc128_tag_finish(&mut state, b"", 1, &mut tag),
            malformed
        );
        assert_eq!(
            capi::zuc256_tag_finish(&mut state, b"", 0, &mut tag),
            malformed
        );
        assert_eq!((state, tag), ([value; TAG_WORDS], [0; 2]));
    }
}

#[test]
fn zuc128_takes_no_wide_zuc256_state() {
    let malformed = Refusal::State.number();
    for (width, answer) in [(4, 0), (8, malformed), (16, malformed)] {
        let mut state = [0; TAG_WORDS];
        assert_eq!(
            capi::zuc256_tag_start(&mut state, width, &[0; 32], &[0; 23]),
            0
        );
        assert_eq!(capi::zuc128_tag_update(&mut state, b""), answer);
    }
}

#[test]
fn debug_hides_the_state() {
    let zuc = Zuc128Keystream::new(&[0; 16], &[0; 16]);
    assert_eq!(format!("{zuc:?}"), "Zuc128Keystream { .. }");
    assert_eq!(Refusal::Key.to_string(), "the key has the wrong length");
}
