//! The limit per start as a user of the package meets it: keystreams and MAC generators
//! that truly draw all their words, one-shots one bit too long, the messages of the calls
//! that panic, and states whose count a caller has set.

use std::panic::{catch_unwind, AssertUnwindSafe};

use yegetmur::capi::{self, State, TagState, STATE_WORDS, TAG_WORDS};
use yegetmur::eea3::{self, Eea3Keystream};
use yegetmur::eia3::Eia3Mac;
use yegetmur::zuc128::{self, Zuc128Keystream, Zuc128Mac};
use yegetmur::zuc256::{Zuc256Keystream, Zuc256Mac};
use yegetmur::{Refusal, WORDS_PER_START};

const MEBI: usize = 1 << 20;
const COUNT: usize = 19;
const SPENT: u32 = 16;

/// Where the count of a tag state stands. No caller needs this.
const TAG_COUNT: usize = 10;

/// Whether a call panics and says that the start is spent.
fn says_spent<T>(call: impl FnOnce() -> T) -> bool {
    let Err(panic) = catch_unwind(AssertUnwindSafe(call)) else {
        return false;
    };
    let message = panic.downcast_ref::<String>().expect("a message");
    message.starts_with("the start is spent: 134217730 words")
}

/// Draws all words of a keystream, the last two one at a time, and then asks for more.
macro_rules! spend {
    ($start:expr) => {{
        let mut zuc = $start;
        let mut out = vec![0; MEBI];
        for _ in 0..128 {
            zuc.generate_into(&mut out);
        }
        let before = out[..3].to_vec();
        assert_eq!(zuc.try_generate_into(&mut out[..3]), Err(Refusal::Limit));
        assert_eq!(out[..3], before);
        let one = zuc.generate();
        assert_ne!(zuc.try_generate(), Ok(one));

        assert_eq!(zuc.try_generate(), Err(Refusal::Limit));
        assert_eq!(zuc.try_generate_into(&mut []), Ok(()));
        assert_eq!(zuc.try_xor_inplace(&mut [], 0), Err(Refusal::Limit));
        assert_eq!(zuc.try_xor_clean(&mut [], 1), Err(Refusal::Bits));
        assert!(says_spent(|| zuc.generate()));
        assert!(says_spent(|| zuc.generate_into(&mut [0])));
        assert!(says_spent(|| zuc.xor_inplace(&mut [0; 3], 24)));
        assert!(says_spent(|| zuc.xor_clean(&mut [0; 3], 1)));
        assert_eq!(zuc.try_xor_clean(&mut [0; 3], 0), Ok(0));
    }};
}

#[test]
fn zuc128_is_spent() {
    spend!(Zuc128Keystream::new(&[1; 16], &[2; 16]));
}

#[test]
fn zuc256_is_spent() {
    spend!(Zuc256Keystream::new(&[1; 32], &[2; 23]));
}

#[test]
fn eea3_is_spent() {
    spend!(Eea3Keystream::new(1, 2, 0, &[3; 16]));
}

/// 2^32 bits in steps draw all the words that there are, and one more is refused.
#[test]
fn a_tag_of_two_to_the_32_bits() {
    let key = [7; 16];
    let message = vec![0x5a; 1 << 29];
    let mut mac = Eia3Mac::new(1, 2, 0, &key);
    for piece in message.chunks(MEBI) {
        mac.update(piece);
    }
    mac.update(&[]);
    assert_eq!(mac.try_finish(&[0x80], 1), Err(Refusal::Limit));
    assert_eq!(mac.try_finish(&[0x80], 9), Err(Refusal::Bits));
    assert_eq!(mac.try_update(&[0; 4]), Err(Refusal::Limit));
    assert!(says_spent(|| mac.update(&[0; 4])));
    let at_once = Eia3Mac::compute(1, 2, 0, &key, &message, 1 << 32);
    assert_eq!(mac.try_finish(&[], 0), Ok(at_once));
}

/// A message that no memory stands behind: it is not written to, and nothing reads it.
fn long_message() -> Vec<u8> {
    vec![0; (1 << 29) + 1]
}

#[test]
fn one_bit_too_long() {
    let (key, message, bits) = ([7; 16], long_message(), (1 << 32) + 1);
    let answers = [
        Zuc128Mac::try_compute(&key, &key, &message, bits),
        Eia3Mac::try_compute(1, 2, 0, &key, &message, bits),
        Eia3Mac::new(1, 2, 0, &key).try_finish(&message, bits),
    ];
    assert_eq!(answers, [Err(Refusal::Limit); 3]);
    assert!(says_spent(|| {
        Zuc128Mac::compute(&key, &key, &message, bits)
    }));
    assert!(says_spent(|| {
        Eia3Mac::compute(1, 2, 0, &key, &message, bits)
    }));
    assert!(says_spent(|| {
        Zuc128Mac::new(&key, &key).finish(&message, bits)
    }));
}

/// One bit too long for a ZUC-256 tag of each width.
#[test]
fn one_bit_too_long_for_zuc256() {
    let (key, iv, message) = ([7; 32], [7; 23], long_message());
    let bits = [1 << 32, (1 << 32) - 64, (1 << 32) - 256];
    assert!(says_spent(|| {
        Zuc256Mac::<u32>::compute(&key, &iv, &message, bits[0])
    }));
    assert!(says_spent(|| {
        Zuc256Mac::<u64>::compute(&key, &iv, &message, bits[1])
    }));
    assert!(says_spent(|| {
        Zuc256Mac::<u128>::compute(&key, &iv, &message, bits[2])
    }));
    assert!(says_spent(|| {
        Zuc256Mac::<u32>::new(&key, &iv).update(&message);
    }));
    assert!(says_spent(|| {
        Zuc256Mac::<u64>::new(&key, &iv).finish(&message, bits[1])
    }));
    let past_the_end = Zuc256Mac::<u128>::try_compute(&key, &iv, &message, usize::MAX);
    assert_eq!(past_the_end, Err(Refusal::Bits));
}

/// 2^29 + 9 bytes, all of them masked, draw one word more than a start has. Crate mode draws
/// as many for any bit length, clean mode for these bits.
#[test]
fn masks_too_long() {
    let key = [7; 16];
    let mut data = vec![0; (1 << 29) + 9];
    let all = 8 * data.len();
    assert!(says_spent(|| eea3::eea3_xor_inplace(
        1, 2, 0, &key, &mut data, 8
    )));
    assert!(says_spent(|| eea3::eea3_xor_clean(
        1, 2, 0, &key, &mut data, all
    )));
    assert!(says_spent(|| zuc128::zuc128_xor_inplace(
        &key, &key, &mut data, 8
    )));
    assert!(says_spent(|| zuc128::zuc128_xor_clean(
        &key, &key, &mut data, all
    )));
    for answer in [
        eea3::try_eea3_xor_inplace(1, 2, 0, &key, &mut data, 8),
        eea3::try_eea3_xor_clean(1, 2, 0, &key, &mut data, all - 7),
        zuc128::try_zuc128_xor_inplace(&key, &key, &mut data, 8),
        zuc128::try_zuc128_xor_clean(&key, &key, &mut data, all - 7),
    ] {
        assert_eq!(answer, Err(Refusal::Limit));
    }
    assert_eq!(data[..8], [0; 8]);
    assert_eq!(eea3::try_eea3_xor_clean(1, 2, 0, &key, &mut data, 8), Ok(1));
}

type Mask = fn(&mut State, &mut [u8], usize, &mut usize) -> u32;

fn started(count: u32) -> State {
    let mut state = [7; STATE_WORDS];
    assert_eq!(capi::zuc128_start(&mut state, &[1; 16], &[2; 16]), 0);
    assert_eq!(state[COUNT], 0);
    state[COUNT] = count;
    state
}

#[test]
fn counts_that_a_caller_has_set() {
    for left in 0..20 {
        let state = started(WORDS_PER_START - left);
        for n in 0..=left + 3 {
            let (mut lent, mut out) = (state, vec![7; n as usize]);
            if n <= left {
                assert_eq!(capi::zuc_words(&mut lent, &mut out), 0);
                assert_eq!(lent[COUNT], state[COUNT] + n);
            } else {
                assert_eq!(capi::zuc_words(&mut lent, &mut out), SPENT);
                assert_eq!((lent, out), (state, vec![7; n as usize]));
            }
            let by_bytes: (Mask, u32) = (capi::zuc_mask_crate, n / 4 + 1);
            let by_bits: (Mask, u32) = (capi::zuc_mask_clean, n.div_ceil(4));
            for (mask, words) in [by_bytes, by_bits] {
                let (mut lent, mut data, mut count) = (state, vec![7; n as usize], 7);
                let answer = mask(&mut lent, &mut data, 8 * n as usize, &mut count);
                if words <= left {
                    assert_eq!((answer, count), (0, words as usize));
                    assert_eq!(lent[COUNT], state[COUNT] + words);
                } else {
                    assert_eq!((answer, count), (SPENT, 0));
                    assert_eq!((lent, data), (state, vec![7; n as usize]));
                }
            }
        }
    }
}

#[test]
fn a_count_above_the_limit_is_malformed() {
    let malformed = Refusal::State.number();
    for count in [WORDS_PER_START + 1, 1 << 31, u32::MAX] {
        let (mut state, mut word) = (started(count), 7);
        assert_eq!(capi::zuc_draw(&mut state, &mut word), malformed);
        assert_eq!(capi::zuc_words(&mut state, &mut []), malformed);
        assert_eq!((state, word), (started(count), 0));
    }
    for count in [u64::from(WORDS_PER_START) + 1, 1 << 32, u64::MAX] {
        let mut state: TagState = [0; TAG_WORDS];
        assert_eq!(capi::zuc256_tag_start(&mut state, 8, &[1; 32], &[2; 23]), 0);
        assert_eq!(state[TAG_COUNT], 6);
        state[TAG_COUNT] = count;
        let (before, mut tag) = (state, [7; 2]);
        assert_eq!(capi::zuc256_tag_update(&mut state, &[]), malformed);
        assert_eq!(
            capi::zuc256_tag_finish(&mut state, &[], 1, &mut tag),
            malformed
        );
        assert_eq!((state, tag), (before, [0; 2]));
    }
}
