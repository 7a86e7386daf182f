//! Stand-in for the crate `tock_registers`: the two macros and the few types that the original's files name.
//!
//! A register is one word of memory, a field is a mask at an offset, and a field's value is that mask with the value in its
//! place. `FieldValue::mask` is the field's mask, whatever the value, and a value that no name stands for is no enum value: as
//! in the crate that this stands in for.
#![no_std]

use core::marker::PhantomData;

/// The integers that registers are made of.
pub trait Word: Copy + PartialEq {
    const ZERO: Self;
    /// `(self & !mask) | value`
    fn with(self, mask: Self, value: Self) -> Self;
    fn and(self, mask: Self) -> Self;
    fn shifted_down(self, by: usize) -> Self;
}

macro_rules! words {
    ($($word:ty),*) => { $(
        impl Word for $word {
            const ZERO: Self = 0;
            fn with(self, mask: Self, value: Self) -> Self { (self & !mask) | value }
            fn and(self, mask: Self) -> Self { self & mask }
            fn shifted_down(self, by: usize) -> Self { self >> by }
        }
        impl<R> fields::Field<$word, R> {
            pub const fn new(bits: usize, shift: usize) -> Self {
                let ones = if bits == <$word>::BITS as usize { <$word>::MAX } else { (1 << bits) - 1 };
                Self { mask: ones, shift, register: PhantomData }
            }
        }
        impl<R> fields::FieldValue<$word, R> {
            /// The value of a field of so many bits at an offset.
            pub const fn new(bits: usize, shift: usize, value: $word) -> Self {
                let ones = fields::Field::<$word, R>::new(bits, shift).mask;
                Self { mask: ones << shift, value: (value & ones) << shift, register: PhantomData }
            }
            pub const fn mask(&self) -> $word { self.mask }
        }
    )* };
}
words!(u32, u64, u128);

pub mod fields {
    use core::marker::PhantomData;

    /// Where a field lies: its mask before shifting, and its lowest bit.
    pub struct Field<T, R> {
        pub mask: T,
        pub shift: usize,
        pub register: PhantomData<R>,
    }

    /// A value for a field, in its place, with the field's mask.
    pub struct FieldValue<T, R> {
        pub(crate) mask: T,
        pub value: T,
        pub(crate) register: PhantomData<R>,
    }

    /// A word as one of a field's named values, if it is one.
    pub trait TryFromValue<T> {
        type EnumType;
        fn try_from_value(value: T) -> Option<Self::EnumType>;
    }
}

use fields::{Field, FieldValue, TryFromValue};

fn read<T: Word, R>(word: T, field: Field<T, R>) -> T {
    word.shifted_down(field.shift).and(field.mask)
}

/// A register's contents, held apart from the register.
pub struct LocalRegisterCopy<T, R> {
    value: T,
    register: PhantomData<R>,
}

impl<T: Copy, R> Clone for LocalRegisterCopy<T, R> {
    fn clone(&self) -> Self {
        *self
    }
}

impl<T: Copy, R> Copy for LocalRegisterCopy<T, R> {}

impl<T: Word, R> LocalRegisterCopy<T, R> {
    pub const fn new(value: T) -> Self {
        Self { value, register: PhantomData }
    }
    pub fn get(&self) -> T {
        self.value
    }
    pub fn set(&mut self, value: T) {
        self.value = value;
    }
    pub fn read(&self, field: Field<T, R>) -> T {
        read(self.value, field)
    }
    pub fn read_as_enum<E: TryFromValue<T, EnumType = E>>(&self, field: Field<T, R>) -> Option<E> {
        E::try_from_value(self.read(field))
    }
    pub fn is_set(&self, field: Field<T, R>) -> bool {
        self.read(field) != T::ZERO
    }
    pub fn modify(&mut self, value: FieldValue<T, R>) {
        self.value = self.value.with(value.mask, value.value);
    }
}

pub mod interfaces {
    use super::{Field, FieldValue, LocalRegisterCopy, TryFromValue, Word, read};

    pub trait Readable {
        type T: Word;
        type R;
        fn get(&self) -> Self::T;
        fn read(&self, field: Field<Self::T, Self::R>) -> Self::T {
            read(self.get(), field)
        }
        fn read_as_enum<E: TryFromValue<Self::T, EnumType = E>>(&self, field: Field<Self::T, Self::R>) -> Option<E> {
            E::try_from_value(self.read(field))
        }
        fn is_set(&self, field: Field<Self::T, Self::R>) -> bool {
            self.read(field) != Self::T::ZERO
        }
        fn extract(&self) -> LocalRegisterCopy<Self::T, Self::R> {
            LocalRegisterCopy::new(self.get())
        }
    }

    pub trait Writeable {
        type T: Word;
        type R;
        fn set(&self, value: Self::T);
    }

    pub trait ReadWriteable: Readable + Writeable<T = <Self as Readable>::T, R = <Self as Readable>::R> {
        fn modify(&self, value: FieldValue<<Self as Readable>::T, <Self as Readable>::R>) {
            self.set(self.get().with(value.mask, value.value));
        }
    }

    impl<X: Readable + Writeable<T = <X as Readable>::T, R = <X as Readable>::R>> ReadWriteable for X {}
}

pub mod registers {
    use super::{
        Word,
        interfaces::{Readable, Writeable},
    };
    use core::{cell::UnsafeCell, marker::PhantomData};

    macro_rules! register {
        ($name:ident) => {
            /// One word of the register page.
            #[repr(transparent)]
            pub struct $name<T, R = ()> {
                word: UnsafeCell<T>,
                register: PhantomData<R>,
            }
        };
    }
    macro_rules! readable {
        ($name:ident) => {
            impl<T: Word, R> Readable for $name<T, R> {
                type T = T;
                type R = R;
                fn get(&self) -> T {
                    // SAFETY: the word lives as long as `self`; one thread only.
                    unsafe { self.word.get().read_volatile() }
                }
            }
        };
    }
    macro_rules! writeable {
        ($name:ident) => {
            impl<T: Word, R> Writeable for $name<T, R> {
                type T = T;
                type R = R;
                fn set(&self, value: T) {
                    // SAFETY: as for reading; nobody holds a reference into the cell.
                    unsafe { self.word.get().write_volatile(value) }
                }
            }
        };
    }
    register!(ReadWrite);
    register!(ReadOnly);
    register!(WriteOnly);
    readable!(ReadWrite);
    readable!(ReadOnly);
    writeable!(ReadWrite);
    writeable!(WriteOnly);
}

/// A module for the register, a constant for each field, and a module for each field with its values.
#[macro_export]
macro_rules! register_bitfields {
    ($word:ident, $vis:vis $name:ident [ $(
        $(#[$about:meta])*
        $field:ident OFFSET($offset:literal) NUMBITS($bits:literal) [
            $( $(#[$meaning:meta])* $value:ident = $number:literal ),* $(,)?
        ]
    ),* $(,)? ]) => {
        #[allow(non_snake_case, non_camel_case_types, non_upper_case_globals, dead_code)]
        $vis mod $name {
            pub struct Register;
            $(
                $(#[$about])*
                pub const $field: $crate::fields::Field<$word, Register> =
                    $crate::fields::Field::<$word, Register>::new($bits, $offset);
                $(#[$about])*
                pub mod $field {
                    use super::Register;
                    use $crate::fields::{FieldValue, TryFromValue};

                    pub const SET: FieldValue<$word, Register> =
                        FieldValue::<$word, Register>::new($bits, $offset, <$word>::MAX);
                    $( $(#[$meaning])* pub const $value: FieldValue<$word, Register> =
                        FieldValue::<$word, Register>::new($bits, $offset, $number); )*

                    #[derive(Clone, Copy, Debug, Eq, PartialEq)]
                    pub enum Value { $( $(#[$meaning])* $value = $number ),* }

                    impl TryFromValue<$word> for Value {
                        type EnumType = Value;
                        fn try_from_value(value: $word) -> Option<Value> {
                            $( if value == $number { return Some(Value::$value); } )*
                            let _ = value;
                            None
                        }
                    }
                }
            )*
        }
    };
}

/// A struct whose fields lie at the offsets that are written beside them; a wrong offset doesn't compile.
#[macro_export]
macro_rules! register_structs {
    (@fields [$($head:tt)*] [$name:ident] [$($done:tt)*] [$($at:literal $known:ident)*] ($end:literal => @END),) => {
        #[repr(C)]
        $($head)* struct $name { $($done)* }
        const _: () = {
            $( assert!(core::mem::offset_of!($name, $known) == $at); )*
            assert!(core::mem::size_of::<$name>() == $end);
        };
    };
    (@fields $head:tt $name:tt [$($done:tt)*] [$($places:tt)*]
        ($from:literal => $gap:ident), $(#[$next:meta])* ($to:literal => $($item:tt)*), $($rest:tt)*
    ) => {
        $crate::register_structs! { @fields $head $name [$($done)* $gap: [u8; $to - $from],] [$($places)* $from $gap]
            $(#[$next])* ($to => $($item)*), $($rest)* }
    };
    (@fields $head:tt $name:tt [$($done:tt)*] [$($places:tt)*]
        $(#[$about:meta])* ($at:literal => $vis:vis $field:ident : $type:ty), $($rest:tt)*
    ) => {
        $crate::register_structs! { @fields $head $name [$($done)* $(#[$about])* $vis $field: $type,] [$($places)* $at $field]
            $($rest)* }
    };
    ($(#[$about:meta])* $vis:vis $name:ident { $($body:tt)* }) => {
        $crate::register_structs! { @fields [$(#[$about])* #[allow(dead_code)] $vis] [$name] [] [] $($body)* }
    };
}
