//! What the driver sees of the crate beyond its public calls: its own code for
//! a draw and for masking, run from any state, and how many words it drew.

#![no_std]

/// s0..s15, R1, R2.
pub type State = [u32; 18];

/// Implemented by the crate's `Zuc128Keystream`, in the stand-in for
/// internal/keystream.rs.
pub trait Inside {
    /// `Zuc::generate` of internal/zuc.rs.
    fn draw(state: &mut State) -> u32;

    /// `xor_inplace` of internal/stream_cipher.rs; answers how many words it drew.
    ///
    /// # Panics
    /// Where the crate's own code does, with `state` as that code left it.
    fn xor_inplace(state: &mut State, data: &mut [u8], bitlen: usize) -> usize;
}

/// Implemented by the crate's `Zuc256Keystream`, in the same place.
pub trait WithD {
    /// `new_with_d` of zuc256/keystream.rs.
    fn with_d(key: &[u8; 32], iv: &[u8; 23], d: &[u8; 16]) -> Self;
}
