//! Stand-in for generic-array and typenum: arrays whose length is a type, for
//! the six lengths that zuc names.

#![no_std]

use core::ops::{Deref, DerefMut};

/// Lengths as types.
pub mod typenum {
    macro_rules! lengths {
        ($($name:ident = $n:literal),*) => { $(
            pub struct $name;

            impl<T> super::ArrayLength<T> for $name {
                type Array = [T; $n];

                fn defaults() -> [T; $n]
                where
                    T: Copy + Default,
                {
                    [T::default(); $n]
                }
            }

            impl<T> From<[T; $n]> for super::GenericArray<T, $name> {
                #[inline(always)]
                fn from(array: [T; $n]) -> Self {
                    Self(array)
                }
            }

            impl<T> AsRef<[T; $n]> for super::GenericArray<T, $name> {
                #[inline(always)]
                fn as_ref(&self) -> &[T; $n] {
                    &self.0
                }
            }
        )* };
    }

    lengths!(U1 = 1, U4 = 4, U8 = 8, U16 = 16, U23 = 23, U32 = 32);
}

pub trait ArrayLength<T>: Sized + 'static {
    type Array: AsRef<[T]> + AsMut<[T]>;

    fn defaults() -> Self::Array
    where
        T: Copy + Default;
}

pub struct GenericArray<T, N: ArrayLength<T>>(N::Array);

impl<T, N: ArrayLength<T>> GenericArray<T, N> {
    #[inline(always)]
    pub fn as_mut_slice(&mut self) -> &mut [T] {
        self.0.as_mut()
    }
}

impl<T: Copy + Default, N: ArrayLength<T>> Default for GenericArray<T, N> {
    #[inline(always)]
    fn default() -> Self {
        Self(N::defaults())
    }
}

impl<T, N: ArrayLength<T>> Deref for GenericArray<T, N> {
    type Target = [T];

    #[inline(always)]
    fn deref(&self) -> &[T] {
        self.0.as_ref()
    }
}

impl<T, N: ArrayLength<T>> DerefMut for GenericArray<T, N> {
    #[inline(always)]
    fn deref_mut(&mut self) -> &mut [T] {
        self.0.as_mut()
    }
}
