//! Stand-in for digest: the traits that zuc implements.

#![no_std]

pub use generic_array::{self, typenum};

use generic_array::{ArrayLength, GenericArray};

pub type Output<D> = GenericArray<u8, <D as OutputSizeUser>::OutputSize>;

pub trait Update {
    fn update(&mut self, data: &[u8]);
}

pub trait OutputSizeUser {
    type OutputSize: ArrayLength<u8>;
}

pub trait FixedOutput: OutputSizeUser + Sized {
    fn finalize_into(self, out: &mut Output<Self>);
}

pub trait MacMarker {}
