//! Codes, as include/sillwander.h describes them: bits 63..56 why the call was refused or 0, bits 55..48 how many values it answers, one value in bits
//! 31..0, two of 24 bits each, or three of 16 bits each, from bit 0 up. "Done, and nothing to say" is 0.
//!
//! Of two and three values the archives' are bytes: a line, a vector, a level, flags, a kind; but for the two sets of lines that an I/O APIC of version 0x20 answers.

use crate::types::{X86VlapicError, X86VlapicResult};

/// The code itself where the call was done.
#[inline]
pub fn done(code: u64) -> X86VlapicResult<u64> {
    match code >> 56 {
        0 => Ok(code),
        number => Err(X86VlapicError::of_number(number as u8)),
    }
}

/// How many values a done call answers.
#[inline]
pub fn count(code: u64) -> u8 {
    (code >> 48) as u8
}

/// The one value.
#[inline]
pub fn value(code: u64) -> usize {
    code as u32 as usize
}

/// Value `k`, from 0, of two.
#[inline]
pub const fn of_two(code: u64, k: u32) -> u8 {
    (code >> (24 * k)) as u8
}

/// Value `k`, from 0, of two that are sets of 24 lines.
#[inline]
pub const fn set_of_two(code: u64, k: u32) -> u32 {
    (code >> (24 * k)) as u32 & 0xff_ffff
}

/// Value `k`, from 0, of three.
#[inline]
pub const fn of_three(code: u64, k: u32) -> u8 {
    (code >> (16 * k)) as u8
}

#[cfg(test)]
mod tests {
    use super::*;

    #[test]
    fn codes_are_read_as_the_header_has_them() {
        assert_eq!(done(0), Ok(0));
        assert_eq!(done(4 << 56), Err(X86VlapicError::InvalidAddress));
        let one = 1 << 48 | 0xffff_fffe;
        assert_eq!((count(one), value(one)), (1, 0xffff_fffe));
        let two = 2 << 48 | 0xab_cdef << 24 | 0x12_3456;
        assert_eq!((count(two), of_two(two, 0), of_two(two, 1)), (2, 0x56, 0xef));
        assert_eq!((set_of_two(two, 0), set_of_two(two, 1)), (0x12_3456, 0xab_cdef));
        let three = 3 << 48 | 0x03 << 32 | 0x0c << 16 | 0x74;
        assert_eq!((count(three), [0, 1, 2].map(|k| of_three(three, k))), (3, [0x74, 0x0c, 0x03]));
    }
}
