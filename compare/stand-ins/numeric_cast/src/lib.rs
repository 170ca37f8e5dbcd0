//! Stand-in for numeric_cast: a cast that keeps the low bits, for the two pairs
//! of types that zuc casts between.

#![no_std]

pub trait TruncatingCast: Sized {
    #[inline(always)]
    fn truncating_cast<T: TruncatingFrom<Self>>(self) -> T {
        T::truncating_from(self)
    }
}

pub trait TruncatingFrom<S> {
    fn truncating_from(wide: S) -> Self;
}

macro_rules! casts {
    ($($wide:ty => $narrow:ty),*) => { $(
        impl TruncatingCast for $wide {}

        impl TruncatingFrom<$wide> for $narrow {
            #[inline(always)]
            fn truncating_from(wide: $wide) -> $narrow {
                wide as $narrow
            }
        }
    )* };
}

casts!(u64 => u32, usize => u8);
