//! Addresses, ports, widths and errors.
//!
//! After types.rs of x86_vlapic 0.5.4 (Copyright 2026 The Axvisor Team, Apache License 2.0; `NOTICE`). Changed: the
//! timers' types are left out, and `X86VlapicError` has the refusals of docs/REFERENCE.md in the place of the kinds
//! that can't occur. The addresses, ports and ranges serve [`x86_vlapic`](crate::x86_vlapic) too, which has the
//! original's errors.

use core::fmt::{Debug, Formatter, LowerHex, UpperHex};

/// What a call gives that can be refused.
pub type X86VlapicResult<T = ()> = Result<T, X86VlapicError>;

/// A vCPU's number in its VM.
pub type X86VcpuId = usize;

/// A guest interrupt vector.
pub type X86InterruptVector = u8;

/// Why a call was refused; the discriminant is the refusal's number in docs/REFERENCE.md. A refused call has changed
/// nothing, with two exceptions: an interrupt command that is refused for its kind or destination has stored its
/// command words; and a claim whose vector finds no place in a waiting list ([`ListFull`](Self::ListFull)) is restored,
/// as [`restore_interrupt`](crate::EmulatedPic::restore_interrupt) does it, and the line that it raised stays latched.
#[derive(Clone, Copy, Debug, Eq, PartialEq, Hash)]
#[repr(u8)]
pub enum X86VlapicError {
    /// An access width, or a port that the PIC doesn't have.
    Unsupported = 1,
    /// A local register not listed for that use, or written in the wrong mode or width; a line's lowest vector above its highest.
    InvalidInput = 2,
    /// An interrupt command's delivery mode, or the destination format's model.
    InvalidData = 3,
    /// An address below the I/O APIC, or a base and size whose sum doesn't fit in 64 bits. The original panics.
    InvalidAddress = 4,
    /// A destination, vCPU count or vCPU id that is too large, where the original panics or wraps; more than 24 lines to plan.
    OutOfRange = 5,
    /// Lines that can't each have a vector of its own.
    NoPlan = 8,
    /// A vCPU's waiting list with no place left.
    ListFull = 9,
    /// Bytes that no state which keeps its chips' rules writes as its image.
    BadImage = 10,
    /// A lent buffer with fewer bytes than what goes into it.
    TooShort = 11,
}

impl X86VlapicError {
    /// The refusal's number, as docs/REFERENCE.md and include/sillwander.h have it.
    pub const fn number(self) -> u8 {
        self as u8
    }

    /// The archives' refusals are 1 to 5 and 8 to 11.
    #[inline]
    pub(crate) const fn of_number(number: u8) -> Self {
        match number {
            1 => Self::Unsupported,
            2 => Self::InvalidInput,
            3 => Self::InvalidData,
            4 => Self::InvalidAddress,
            8 => Self::NoPlan,
            9 => Self::ListFull,
            10 => Self::BadImage,
            11 => Self::TooShort,
            _ => {
                debug_assert!(number == 5);
                Self::OutOfRange
            }
        }
    }
}

impl core::fmt::Display for X86VlapicError {
    fn fmt(&self, f: &mut core::fmt::Formatter<'_>) -> core::fmt::Result {
        f.write_str(match self {
            Self::Unsupported => "no such access width or PIC port",
            Self::InvalidInput => "no such local register for that use, mode or width; or a lowest vector above a highest",
            Self::InvalidData => "no such delivery mode or destination format",
            Self::InvalidAddress => "an address below the I/O APIC, or beyond 64 bits",
            Self::OutOfRange => "a destination, vCPU count or vCPU id is too large, or there are too many lines",
            Self::NoPlan => "there aren't enough free vectors for the lines",
            Self::ListFull => "64 interrupts wait for the vCPU already",
            Self::BadImage => "no board and pair have this image",
            Self::TooShort => "the lent buffer is too short",
        })
    }
}

impl core::error::Error for X86VlapicError {}

/// The original's texts of a number: its name around it, and hex forms that have `0x` always.
macro_rules! texts_of_number {
    ($number:ident, $name:literal) => {
        impl Debug for $number {
            fn fmt(&self, f: &mut Formatter<'_>) -> core::fmt::Result {
                write!(f, "{}({:#x})", $name, self.0)
            }
        }

        impl LowerHex for $number {
            fn fmt(&self, f: &mut Formatter<'_>) -> core::fmt::Result {
                write!(f, "{:#x}", self.0)
            }
        }

        impl UpperHex for $number {
            fn fmt(&self, f: &mut Formatter<'_>) -> core::fmt::Result {
                write!(f, "{:#X}", self.0)
            }
        }
    };
}

macro_rules! address {
    ($address:ident, $name:literal, $what:literal) => {
        #[doc = $what]
        #[derive(Clone, Copy, Eq, PartialEq, Ord, PartialOrd, Hash)]
        pub struct $address(usize);

        impl $address {
            /// The address with this number.
            pub const fn from_usize(addr: usize) -> Self {
                Self(addr)
            }

            /// The address's number.
            pub const fn as_usize(self) -> usize {
                self.0
            }

            /// The address as a pointer.
            pub const fn as_ptr<T>(self) -> *const T {
                self.0 as *const T
            }

            /// The address as a pointer for writing.
            pub const fn as_mut_ptr<T>(self) -> *mut T {
                self.0 as *mut T
            }
        }

        impl From<usize> for $address {
            fn from(value: usize) -> Self {
                Self(value)
            }
        }

        impl From<$address> for usize {
            fn from(value: $address) -> Self {
                value.0
            }
        }

        texts_of_number!($address, $name);
    };
}

address!(X86GuestPhysAddr, "GPA", "A guest physical address.");
address!(X86HostPhysAddr, "HPA", "A host physical address. No call here has one: a host's own code does.");
address!(X86HostVirtAddr, "HVA", "A host virtual address. No call here has one: a host's own code does.");

/// Guest physical addresses from `start` to before `end`.
#[derive(Clone, Copy, Debug, Eq, PartialEq)]
pub struct X86GuestPhysAddrRange {
    /// The first address.
    pub start: X86GuestPhysAddr,
    /// The first address after it.
    pub end: X86GuestPhysAddr,
}

impl X86GuestPhysAddrRange {
    /// From `start` to before `end`. As in the original, an end before the start panics.
    pub fn new(start: X86GuestPhysAddr, end: X86GuestPhysAddr) -> Self {
        assert!(start <= end, "invalid x86 guest physical address range");
        Self { start, end }
    }

    /// Whether the address is in the range.
    pub fn contains(self, addr: X86GuestPhysAddr) -> bool {
        self.start <= addr && addr < self.end
    }
}

/// A model-specific register's number.
#[derive(Clone, Copy, Eq, PartialEq, Ord, PartialOrd, Hash)]
pub struct X86MsrAddr(usize);

impl X86MsrAddr {
    /// The register with this number.
    pub const fn new(addr: usize) -> Self {
        Self(addr)
    }

    /// The register's number.
    pub const fn addr(self) -> usize {
        self.0
    }
}

impl From<usize> for X86MsrAddr {
    fn from(value: usize) -> Self {
        Self(value)
    }
}

texts_of_number!(X86MsrAddr, "MSR");

/// An I/O port's number.
#[derive(Clone, Copy, Eq, PartialEq, Ord, PartialOrd, Hash)]
pub struct X86Port(u16);

impl X86Port {
    /// The port with this number.
    pub const fn new(port: u16) -> Self {
        Self(port)
    }

    /// The port's number.
    pub const fn number(self) -> u16 {
        self.0
    }
}

impl From<u16> for X86Port {
    fn from(value: u16) -> Self {
        Self(value)
    }
}

texts_of_number!(X86Port, "Port");

macro_rules! inclusive_range {
    ($range:ident of $number:ident, $what:literal, $first:literal, $last:literal) => {
        #[doc = $what]
        #[derive(Clone, Copy, Debug, Eq, PartialEq)]
        pub struct $range {
            #[doc = $first]
            pub start: $number,
            #[doc = $last]
            pub end: $number,
        }

        impl $range {
            /// From `start` to `end`, both in it.
            pub const fn new(start: $number, end: $number) -> Self {
                Self { start, end }
            }

            /// Whether it is in the range.
            pub const fn contains(self, one: $number) -> bool {
                self.start.0 <= one.0 && one.0 <= self.end.0
            }
        }
    };
}

inclusive_range!(X86MsrAddrRange of X86MsrAddr, "Model-specific registers from `start` to `end`, both in it.", "The first register.", "The last register.");
inclusive_range!(X86PortRange of X86Port, "I/O ports from `start` to `end`, both in it.", "The first port.", "The last port.");

/// The width type, whose conversion from a number fails with `$error`: here and in [`x86_vlapic`](crate::x86_vlapic).
macro_rules! access_width {
    ($error:ident) => {
        /// The width of a guest's access.
        #[derive(Clone, Copy, Debug, Eq, PartialEq, Ord, PartialOrd, Hash)]
        pub enum X86AccessWidth {
            /// 8 bits.
            Byte,
            /// 16 bits.
            Word,
            /// 32 bits.
            Dword,
            /// 64 bits.
            Qword,
        }

        impl X86AccessWidth {
            /// The width in bytes.
            #[inline]
            pub const fn size(self) -> usize {
                1 << self as usize
            }

            /// The bits of a number that an access of this width has.
            pub fn bits_range(self) -> core::ops::Range<usize> {
                0..8 * self.size()
            }
        }

        impl TryFrom<usize> for X86AccessWidth {
            type Error = $error;

            fn try_from(value: usize) -> Result<Self, Self::Error> {
                match value {
                    1 => Ok(Self::Byte),
                    2 => Ok(Self::Word),
                    4 => Ok(Self::Dword),
                    8 => Ok(Self::Qword),
                    _ => Err($error::InvalidInput),
                }
            }
        }

        impl From<X86AccessWidth> for usize {
            fn from(value: X86AccessWidth) -> Self {
                value.size()
            }
        }
    };
}
pub(crate) use access_width;

access_width!(X86VlapicError);

#[cfg(test)]
mod tests {
    use super::*;
    use std::format;

    #[test]
    fn errors_have_their_numbers() {
        for number in (1..=5).chain(8..=11) {
            assert_eq!(X86VlapicError::of_number(number).number(), number);
        }
    }

    #[test]
    fn numbers_have_the_originals_texts() {
        let [gpa, msr, port] = [
            format!("{0:?} {0:x} {0:X}", X86GuestPhysAddr::from_usize(0xfec0_0000)),
            format!("{0:?} {0:x} {0:X}", X86MsrAddr::new(0x83f)),
            format!("{0:?} {0:x} {0:X}", X86Port::new(0xa1)),
        ];
        assert_eq!(gpa, "GPA(0xfec00000) 0xfec00000 0xFEC00000");
        assert_eq!(msr, "MSR(0x83f) 0x83f 0x83F");
        assert_eq!(port, "Port(0xa1) 0xa1 0xA1");
    }

    #[test]
    fn ranges_hold_their_ends_as_they_say() {
        let [low, high] = [0x20, 0x21].map(X86Port::new);
        assert!(X86PortRange::new(low, high).contains(high));
        let [low, high] = [0x1000, 0x2000].map(X86GuestPhysAddr::from_usize);
        let range = X86GuestPhysAddrRange::new(low, high);
        assert!(range.contains(low) && !range.contains(high));
    }

    #[test]
    #[should_panic(expected = "invalid x86 guest physical address range")]
    fn a_range_has_no_end_before_its_start() {
        let [low, high] = [0x1000, 0x2000].map(X86GuestPhysAddr::from_usize);
        X86GuestPhysAddrRange::new(high, low);
    }

    #[test]
    fn widths_are_1_2_4_and_8() {
        for bytes in 0..=9 {
            match X86AccessWidth::try_from(bytes) {
                Ok(width) => assert_eq!((width.size(), width.bits_range()), (bytes, 0..8 * bytes)),
                Err(error) => assert_eq!((error, [1, 2, 4, 8].contains(&bytes)), (X86VlapicError::InvalidInput, false)),
            }
        }
    }
}
