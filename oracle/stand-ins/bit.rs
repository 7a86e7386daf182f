//! Stand-in for the crate `bit`: one bit of a word, by its position.
#![no_std]

pub trait BitIndex {
    fn bit(&self, position: usize) -> bool;
    fn set_bit(&mut self, position: usize, value: bool) -> &mut Self;
}

macro_rules! words {
    ($($word:ty),*) => { $(
        impl BitIndex for $word {
            fn bit(&self, position: usize) -> bool {
                (*self >> position) & 1 == 1
            }
            fn set_bit(&mut self, position: usize, value: bool) -> &mut Self {
                *self = (*self & !(1 << position)) | (<$word>::from(value) << position);
                self
            }
        }
    )* };
}
words!(u32, u64);
