// Stands in for internal/keystream.rs: the trait, as its users in the supplied
// files show it. Below it stands the driver's window into the crate: this is
// the one file of ours from which the private modules can be reached.

use super::stream_cipher::xor_inplace;
use super::zuc::Zuc;
use crate::zuc128::Zuc128Keystream;
use crate::zuc256::Zuc256Keystream;

pub trait Keystream {
    type Word;

    fn next_key(&mut self) -> Self::Word;
}

/// A generator whose state stands in an array and which counts its words.
struct Counted<'a> {
    state: &'a mut window::State,
    drawn: usize,
}

impl Keystream for Counted<'_> {
    type Word = u32;

    fn next_key(&mut self) -> u32 {
        let mut zuc = Zuc::zeroed();
        zuc.s.copy_from_slice(&self.state[..16]);
        (zuc.r1, zuc.r2) = (self.state[16], self.state[17]);
        let word = zuc.generate();
        self.state[..16].copy_from_slice(&zuc.s);
        (self.state[16], self.state[17]) = (zuc.r1, zuc.r2);
        self.drawn += 1;
        word
    }
}

impl window::Inside for Zuc128Keystream {
    fn draw(state: &mut window::State) -> u32 {
        Counted { state, drawn: 0 }.next_key()
    }

    fn xor_inplace(state: &mut window::State, data: &mut [u8], bitlen: usize) -> usize {
        let mut zuc = Counted { state, drawn: 0 };
        xor_inplace(&mut zuc, data, bitlen);
        zuc.drawn
    }
}

impl window::WithD for Zuc256Keystream {
    fn with_d(key: &[u8; 32], iv: &[u8; 23], d: &[u8; 16]) -> Self {
        Zuc256Keystream::new_with_d(key, iv, d)
    }
}
