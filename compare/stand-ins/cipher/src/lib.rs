//! Stand-in for cipher: the traits that zuc implements. Nothing is ever called
//! through them here, so the wrapper is a name and no more.

#![no_std]

pub use generic_array::{self, typenum};

use core::fmt;
use core::marker::PhantomData;
use generic_array::{ArrayLength, GenericArray};

pub type Key<B> = GenericArray<u8, <B as KeySizeUser>::KeySize>;
pub type Iv<B> = GenericArray<u8, <B as IvSizeUser>::IvSize>;
pub type Block<B> = GenericArray<u8, <B as BlockSizeUser>::BlockSize>;

pub trait AlgorithmName {
    fn write_alg_name(f: &mut fmt::Formatter) -> fmt::Result;
}

pub trait KeySizeUser {
    type KeySize: ArrayLength<u8>;
}

pub trait IvSizeUser {
    type IvSize: ArrayLength<u8>;
}

pub trait BlockSizeUser {
    type BlockSize: ArrayLength<u8>;
}

pub trait ParBlocksSizeUser: BlockSizeUser {
    type ParBlocksSize;
}

pub trait KeyIvInit: KeySizeUser + IvSizeUser + Sized {
    fn new(key: &Key<Self>, iv: &Iv<Self>) -> Self;
}

pub trait StreamBackend: ParBlocksSizeUser {
    fn gen_ks_block(&mut self, block: &mut Block<Self>);
}

pub trait StreamClosure: BlockSizeUser {
    fn call<B: StreamBackend<BlockSize = Self::BlockSize>>(self, backend: &mut B);
}

pub trait StreamCipherCore: BlockSizeUser + Sized {
    fn remaining_blocks(&self) -> Option<usize>;

    fn process_with_backend(&mut self, f: impl StreamClosure<BlockSize = Self::BlockSize>);
}

pub struct StreamCipherCoreWrapper<T: StreamCipherCore>(PhantomData<T>);
