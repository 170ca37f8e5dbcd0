//! Stand-in for stdx: one function and one method.

#![no_std]

pub mod default {
    #[inline(always)]
    #[must_use]
    pub fn default<T: Default>() -> T {
        T::default()
    }
}

pub mod slice {
    pub trait SliceExt<T> {
        fn as_chunks_mut_<const N: usize>(&mut self) -> (&mut [[T; N]], &mut [T]);
    }

    impl<T> SliceExt<T> for [T] {
        #[inline(always)]
        fn as_chunks_mut_<const N: usize>(&mut self) -> (&mut [[T; N]], &mut [T]) {
            self.as_chunks_mut::<N>()
        }
    }
}
