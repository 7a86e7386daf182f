//! The I/O APIC, in two versions: 0x11, the original's, and 0x20, whose EOI ends every entry of a vector and whose Remote IRR (bit 14) is read-only. [`EmulatedIoApic`] is
//! of version 0x20.
//!
//! The names and signatures are those of vioapic.rs of x86_vlapic 0.5.4 (Copyright The Axvisor Team, Apache License 2.0; `NOTICE`); behind them are calls of the archive.
//! The original has no version 0x20: [`EmulatedIoApic20`], [`IoApicEois`] and [`IoApicWritten`] are ours.

use crate::{
    archives::*,
    code::{count, done, of_three, of_two, set_of_two, value},
    text::{Entries, Hex},
    types::{X86AccessWidth, X86GuestPhysAddr, X86GuestPhysAddrRange, X86VlapicError, X86VlapicResult},
};
use core::fmt::{Debug, Formatter};

const IOAPIC_SIZE: usize = 0x1000;
const VERSION_11: u64 = 0x11;
const VERSION_20: u64 = 0x20;
const IOEOI: u64 = 0x40;
/// The words that hold the selector, the base address, the size and the version.
const SELECTOR: usize = 26;
const BASE: usize = 27;
const SIZE: usize = 28;
pub(crate) const VERSION: usize = 29;

/// An interrupt that the I/O APIC sends.
#[derive(Clone, Copy, Debug, Eq, PartialEq)]
pub struct IoApicInterrupt {
    /// The guest's vector.
    pub vector: u8,
    /// Whether its entry is level-triggered.
    pub level_triggered: bool,
}

/// What an EOI broadcast ended.
#[derive(Clone, Copy, Debug, Eq, PartialEq)]
pub struct IoApicEoi {
    /// The line whose interrupt was in flight.
    pub gsi: usize,
    /// The interrupt that the line sends again, to be injected now.
    pub pending: Option<IoApicInterrupt>,
}

/// What an EOI ended in an I/O APIC of version 0x20, as two sets of lines: bit `gsi` is line `gsi`.
///
/// All of them have the vector of the EOI, and all are level-triggered: a line in `sent` is the interrupt of that vector, to be injected now.
#[derive(Clone, Copy, Debug, Eq, PartialEq)]
pub struct IoApicEois {
    /// The lines whose interrupt was in flight with the vector. At least one.
    pub cleared: u32,
    /// Those of them whose interrupt is sent again.
    pub sent: u32,
}

impl IoApicEois {
    /// The lines whose interrupt was in flight, from the lowest up.
    #[inline]
    pub fn cleared_lines(self) -> impl Iterator<Item = usize> {
        lines(self.cleared)
    }

    /// The lines whose interrupt is sent again, from the lowest up.
    #[inline]
    pub fn sent_lines(self) -> impl Iterator<Item = usize> {
        lines(self.sent)
    }

    /// None where no line was in flight with the vector.
    #[inline]
    pub(crate) fn of(code: u64) -> Option<Self> {
        (code != 0).then(|| Self { cleared: set_of_two(code, 0), sent: set_of_two(code, 1) })
    }
}

/// What a write to an I/O APIC of version 0x20 caused.
#[derive(Clone, Copy, Debug, Eq, PartialEq)]
pub enum IoApicWritten {
    /// Nothing that is to be injected.
    Done,
    /// The interrupt of the entry that was written, to be injected now: the low word leaves it fit to be sent and level-triggered, its line is up, and it isn't in flight.
    Sent(IoApicInterrupt),
    /// What a write of the EOI register, at offset 0x40, ended.
    Ended(IoApicEois),
}

impl IoApicWritten {
    /// Of a done write at an address of the I/O APIC in these words. Either answer has two values: which it is goes by the address.
    #[inline]
    pub(crate) fn of(code: u64, words: &[u64; IOAPIC_WORDS], addr: u64) -> Self {
        if addr.wrapping_sub(words[BASE]) == IOEOI {
            IoApicEois::of(code).map_or(Self::Done, Self::Ended)
        } else {
            sent(code).map_or(Self::Done, Self::Sent)
        }
    }
}

/// The lines of a set, from the lowest up.
#[inline]
fn lines(mut set: u32) -> impl Iterator<Item = usize> {
    core::iter::from_fn(move || {
        let line = (set != 0).then(|| set.trailing_zeros() as usize);
        set &= set.wrapping_sub(1);
        line
    })
}

/// The I/O APIC that is made where no version is asked for.
pub type EmulatedIoApic = EmulatedIoApic20;

/// A 24-line I/O APIC of version 0x11 (82093AA), the original's, with its signatures.
pub struct EmulatedIoApic11 {
    words: [u64; IOAPIC_WORDS],
}

/// A 24-line I/O APIC of version 0x20, as in Intel's I/O Controller Hubs: an EOI ends every line in flight with the vector, where version 0x11 ends the first, and a
/// guest may write it to the register at offset 0x40. So two lines that share a vector and stay up are both sent again at each EOI of it.
///
/// Remote IRR is read-only there: a guest that masks a line in flight, gives the EOI and unmasks it gets the interrupt of a line that is still up by the unmasking
/// write, whose answer has it ([`IoApicWritten::Sent`]).
///
/// ```
/// # use sillwander::{EmulatedIoApic20, IoApicEois, X86AccessWidth::Dword, X86GuestPhysAddr};
/// let mut io = EmulatedIoApic20::new_default();
/// for gsi in [3, 5] {
///     io.handle_write(X86GuestPhysAddr::from_usize(0xfec0_0000), Dword, 0x10 + 2 * gsi)?; // entry `gsi`, low word
///     io.handle_write(X86GuestPhysAddr::from_usize(0xfec0_0010), Dword, 0x8041)?; // level, vector 0x41
///     io.set_gsi_level(gsi, true);
/// }
/// assert_eq!(io.end_of_interrupt(0x41), Some(IoApicEois { cleared: 0b101000, sent: 0b101000 }));
/// # Ok::<(), sillwander::X86VlapicError>(())
/// ```
pub struct EmulatedIoApic20 {
    words: [u64; IOAPIC_WORDS],
}

/// None, or vector and level.
#[inline]
pub(crate) fn sent(code: u64) -> Option<IoApicInterrupt> {
    (code != 0).then(|| IoApicInterrupt { vector: of_two(code, 0), level_triggered: of_two(code, 1) != 0 })
}

/// What is the same in both versions.
macro_rules! calls_of_both_versions {
    ($($chip:ident, $is_20:literal;)*) => {$(
        impl $chip {
            /// The vector programmed for a line. None where its entry is masked, isn't of fixed delivery or has a vector below 16, and from line 24 up.
            #[inline]
            pub fn vector_for_gsi(&self, gsi: usize) -> Option<u8> {
                let code = sillwander_ioapic_vector_for_gsi(&self.words, gsi as u64);
                (code != 0).then_some(code as u8)
            }

            /// Sends a line's interrupt, its level left as it is. None where nothing is to be injected.
            #[inline]
            pub fn assert_gsi(&mut self, gsi: usize) -> Option<IoApicInterrupt> {
                sent(sillwander_ioapic_assert_gsi(&mut self.words, gsi as u64))
            }

            /// Moves a line up or down. None where nothing is to be injected. A level-triggered line that stays up is sent again at each EOI; one that goes down before
            /// the EOI isn't.
            #[inline]
            pub fn set_gsi_level(&mut self, gsi: usize, asserted: bool) -> Option<IoApicInterrupt> {
                sent(sillwander_ioapic_set_gsi_level(&mut self.words, gsi as u64, asserted.into()))
            }

            /// The addresses at which the I/O APIC is.
            pub fn address_range(&self) -> X86GuestPhysAddrRange {
                let mut range = [0; 2];
                let code = sillwander_ioapic_address_range(&self.words, &mut range);
                debug_assert!(code == 0, "new saw that base + size fits");
                let [start, end] = range.map(|address| X86GuestPhysAddr::from_usize(address as usize));
                X86GuestPhysAddrRange::new(start, end)
            }

            /// The words, in the layout that include/sillwander.h has.
            pub const fn to_words(&self) -> [u64; IOAPIC_WORDS] {
                self.words
            }

            /// The I/O APIC with these words. Any are answered, and none makes a call fault; but what docs/PROMISES.md says of states that calls made holds of words from
            /// [`to_words`](Self::to_words), and nothing here sees whether these are such. The road that does is
            /// [`EmulatedBoard::restore`](crate::EmulatedBoard::restore).
            ///
            /// [`BadImage`](X86VlapicError::BadImage) for words of the other version; then [`InvalidAddress`](X86VlapicError::InvalidAddress) for a base and size whose sum is
            /// 2^64 or more.
            pub fn from_words(words: [u64; IOAPIC_WORDS]) -> X86VlapicResult<Self> {
                if (words[VERSION] == VERSION_20) != $is_20 {
                    return Err(X86VlapicError::BadImage);
                }
                done(sillwander_ioapic_address_range(&words, &mut [0; 2]))?;
                Ok(Self { words })
            }

            /// A memory read. [`Unsupported`](crate::X86VlapicError::Unsupported) for a width of 1 or 2 bytes; then
            /// [`InvalidAddress`](crate::X86VlapicError::InvalidAddress) for an address below the base.
            #[inline]
            pub fn handle_read(&self, addr: X86GuestPhysAddr, width: X86AccessWidth) -> X86VlapicResult<usize> {
                done(sillwander_ioapic_handle_read(&self.words, addr.as_usize() as u64, width.size() as u64)).map(value)
            }
        }

        impl Default for $chip {
            fn default() -> Self {
                Self::new_default()
            }
        }

        impl Debug for $chip {
            fn fmt(&self, f: &mut Formatter<'_>) -> core::fmt::Result {
                said(stringify!($chip), &self.words, f)
            }
        }
    )*};
}
calls_of_both_versions!(EmulatedIoApic11, false; EmulatedIoApic20, true;);

/// The words for people: the entries that aren't as new, one by one.
pub(crate) fn said(name: &str, words: &[u64; IOAPIC_WORDS], f: &mut Formatter<'_>) -> core::fmt::Result {
    f.debug_struct(name)
        .field("version", &Hex(if words[VERSION] == VERSION_20 { VERSION_20 } else { VERSION_11 }))
        .field("base", &X86GuestPhysAddr::from_usize(words[BASE] as usize))
        .field("size", &Hex(words[SIZE]))
        .field("selector", &Hex(words[SELECTOR] as u32))
        .field("entries", &Entries(words))
        .finish()
}

impl EmulatedIoApic11 {
    /// An I/O APIC at a base address, of 0x1000 bytes where no size is given. [`InvalidAddress`](crate::X86VlapicError::InvalidAddress) where base + size is 2^64 or
    /// more; the original makes such a one, and panics when it is asked for its range.
    pub fn new(base: X86GuestPhysAddr, size: Option<usize>) -> X86VlapicResult<Self> {
        let mut words = [0; IOAPIC_WORDS];
        let size = size.unwrap_or(IOAPIC_SIZE);
        done(sillwander_ioapic_new_version(&mut words, base.as_usize() as u64, size as u64, VERSION_11))?;
        Ok(Self { words })
    }

    /// An I/O APIC at the PC's address, 0xfec00000.
    pub fn new_default() -> Self {
        let mut words = [0; IOAPIC_WORDS];
        let code = sillwander_ioapic_new_default_version(&mut words, VERSION_11);
        debug_assert!(code == 0, "there is such a version");
        Self { words }
    }

    /// An EOI broadcast of the local APIC. None where no line in flight has the vector.
    #[inline]
    pub fn end_of_interrupt(&mut self, vector: u8) -> Option<IoApicEoi> {
        let code = sillwander_ioapic_end_of_interrupt(&mut self.words, vector.into());
        (code != 0).then(|| IoApicEoi {
            gsi: of_three(code, 0).into(), // or the one value,
            pending: (count(code) == 3)
                .then(|| IoApicInterrupt { vector: of_three(code, 1), level_triggered: of_three(code, 2) != 0 }),
        })
    }

    /// A memory write, of the value's low 32 bits. Refused as a read is.
    #[inline]
    pub fn handle_write(&mut self, addr: X86GuestPhysAddr, width: X86AccessWidth, val: usize) -> X86VlapicResult {
        done(sillwander_ioapic_handle_write(&mut self.words, addr.as_usize() as u64, width.size() as u64, val as u64)).map(|_| ())
    }
}

impl EmulatedIoApic20 {
    /// An I/O APIC at a base address, of 0x1000 bytes where no size is given. [`InvalidAddress`](crate::X86VlapicError::InvalidAddress) where base + size is 2^64 or
    /// more.
    pub fn new(base: X86GuestPhysAddr, size: Option<usize>) -> X86VlapicResult<Self> {
        let mut words = [0; IOAPIC_WORDS];
        let size = size.unwrap_or(IOAPIC_SIZE);
        done(sillwander_ioapic_new(&mut words, base.as_usize() as u64, size as u64))?;
        Ok(Self { words })
    }

    /// An I/O APIC at the PC's address, 0xfec00000.
    pub fn new_default() -> Self {
        let mut words = [0; IOAPIC_WORDS];
        sillwander_ioapic_new_default(&mut words);
        Self { words }
    }

    /// An EOI broadcast of the local APIC: it ends every line in flight with the vector. None where there is none.
    #[inline]
    pub fn end_of_interrupt(&mut self, vector: u8) -> Option<IoApicEois> {
        IoApicEois::of(sillwander_ioapic_end_of_interrupt(&mut self.words, vector.into()))
    }

    /// A memory write, of the value's low 32 bits. Refused as a read is. A write at offset 0x40 is an EOI of the value's low 8 bits, and ends what
    /// [`end_of_interrupt`](Self::end_of_interrupt) does; one of an entry's low word may send its interrupt.
    #[inline]
    pub fn handle_write(&mut self, addr: X86GuestPhysAddr, width: X86AccessWidth, val: usize) -> X86VlapicResult<IoApicWritten> {
        let addr = addr.as_usize() as u64;
        let code = done(sillwander_ioapic_handle_write(&mut self.words, addr, width.size() as u64, val as u64))?;
        Ok(IoApicWritten::of(code, &self.words, addr))
    }
}

#[cfg(test)]
mod tests {
    use super::*;
    use std::format;

    const SELECT: X86GuestPhysAddr = X86GuestPhysAddr::from_usize(0xfec0_0000);
    const WINDOW: X86GuestPhysAddr = X86GuestPhysAddr::from_usize(0xfec0_0010);

    /// Entry 2: level-triggered, vector 0x30, to the processors of the set 3; its line is up.
    fn with_a_line_up() -> EmulatedIoApic20 {
        let mut io = EmulatedIoApic20::new_default();
        for (register, word) in [(0x15, 0x0300_0000), (0x14, 0x8830)] {
            let select = io.handle_write(SELECT, X86AccessWidth::Dword, register);
            let write = io.handle_write(WINDOW, X86AccessWidth::Dword, word);
            assert_eq!((select, write), (Ok(IoApicWritten::Done), Ok(IoApicWritten::Done)));
        }
        assert!(io.set_gsi_level(2, true).is_some());
        io
    }

    #[test]
    fn entries_are_said_in_words() {
        assert_eq!(
            format!("{:?}", EmulatedIoApic20::new_default()),
            "EmulatedIoApic20 { version: 0x20, base: GPA(0xfec00000), size: 0x1000, selector: 0x0, entries: {} }"
        );
        let mut io = with_a_line_up();
        let said =
            |io: &EmulatedIoApic20| format!("{io:?}").split_once("entries: ").expect("entries are said").1.replace(" }", "");
        assert_eq!(said(&io), "{2: vector 0x30, fixed, level, logical 0x3, in flight, line up}");
        io.set_gsi_level(2, false);
        assert_eq!(io.handle_write(WINDOW, X86AccessWidth::Dword, 0x1_a430), Ok(IoApicWritten::Done));
        assert_eq!(said(&io), "{2: vector 0x30, NMI, level, physical 0x3, active low, masked, in flight}");
    }

    #[test]
    fn words_make_the_same_chip() {
        let mut io = with_a_line_up();
        let mut again = EmulatedIoApic20::from_words(io.to_words()).expect("they are a chip's own");
        assert_eq!(again.to_words(), io.to_words());
        assert_eq!(again.end_of_interrupt(0x30), io.end_of_interrupt(0x30));
    }

    #[test]
    fn words_of_another_version_or_range_are_refused() {
        let mut words = with_a_line_up().to_words();
        assert_eq!(EmulatedIoApic11::from_words(words).err(), Some(X86VlapicError::BadImage));
        words[SIZE] = u64::MAX;
        assert_eq!(EmulatedIoApic20::from_words(words).err(), Some(X86VlapicError::InvalidAddress));
        words[VERSION] = 0x11;
        assert_eq!(EmulatedIoApic20::from_words(words).err(), Some(X86VlapicError::BadImage));
    }

    #[test]
    fn lines_come_from_the_lowest_up() {
        let ended = IoApicEois { cleared: 1 << 23 | 0b101, sent: 0 };
        assert!(ended.cleared_lines().eq([0, 2, 23]));
        assert_eq!(ended.sent_lines().next(), None);
    }
}
