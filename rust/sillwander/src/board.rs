//! A whole board: an I/O APIC of version 0x20, one local APIC and its request register. The original has none: the names are ours, after those of its chips.

use crate::{
    archives::*,
    code::{done, value},
    text::Said,
    types::{X86AccessWidth, X86GuestPhysAddr, X86VlapicError, X86VlapicResult},
    vcpus::LocalApicRegisters,
    vioapic::{EmulatedIoApic20, IoApicEois, IoApicInterrupt, IoApicWritten, VERSION, said, sent},
    vpic::EmulatedPic,
};
use core::fmt::{Debug, Formatter};

/// How many bytes the image of a board and a pair has, always.
pub const IMAGE_SIZE: usize = 628;

/// An I/O APIC of version 0x20, one local APIC and its request register as one: what the I/O APIC sends becomes a request, the guest accepts the highest one whose class is
/// above that of PPR, and its EOI goes back to the I/O APIC.
///
/// ```
/// # use sillwander::{EmulatedBoard, IoApicEois, X86AccessWidth::Dword, X86GuestPhysAddr};
/// let mut board = EmulatedBoard::new();
/// board.handle_write(X86GuestPhysAddr::from_usize(0xfec0_0000), Dword, 0x16)?; // entry 3, low word
/// board.handle_write(X86GuestPhysAddr::from_usize(0xfec0_0010), Dword, 0x8041)?; // level, vector 0x41
/// board.set_gsi_level(3, true);
/// assert_eq!(board.accept_interrupt(), Some(0x41));
/// board.set_gsi_level(3, false);
/// assert_eq!(board.handle_eoi(), Some(IoApicEois { cleared: 0b1000, sent: 0 }));
/// # Ok::<(), sillwander::X86VlapicError>(())
/// ```
pub struct EmulatedBoard {
    ioapic: [u64; IOAPIC_WORDS],
    apic: [u64; LAPIC_WORDS],
}

impl EmulatedBoard {
    /// A new board: the I/O APIC at 0xfec00000, the local APIC of vCPU 0 in xAPIC mode, nothing requested.
    pub fn new() -> Self {
        let mut board = Self { ioapic: [0; IOAPIC_WORDS], apic: [0; LAPIC_WORDS] };
        sillwander_board_new(&mut board.ioapic, &mut board.apic);
        board
    }

    /// Moves a line up or down, and requests what it sends: that is answered, and is nothing to inject.
    #[inline]
    pub fn set_gsi_level(&mut self, gsi: usize, asserted: bool) -> Option<IoApicInterrupt> {
        sent(sillwander_board_set_gsi_level(&mut self.ioapic, &mut self.apic, gsi as u64, asserted.into()))
    }

    /// The guest accepts the highest request, whose vector is in service then. None where nothing is requested, or its class isn't above that of PPR.
    #[inline]
    pub fn accept_interrupt(&mut self) -> Option<u8> {
        let code = sillwander_board_accept_interrupt(&mut self.apic);
        (code != 0).then_some(code as u8)
    }

    /// The guest's EOI of the highest vector in service. What it ended in the I/O APIC; what is sent again is requested. None where the vector is edge-triggered, no line in
    /// flight has it, or nothing is in service.
    #[inline]
    pub fn handle_eoi(&mut self) -> Option<IoApicEois> {
        IoApicEois::of(sillwander_board_handle_eoi(&mut self.ioapic, &mut self.apic))
    }

    /// The guest writes TPR, and PPR follows.
    #[inline]
    pub fn write_tpr(&mut self, value: u8) {
        sillwander_board_write_tpr(&mut self.apic, value.into());
    }

    /// A memory write to the I/O APIC, of the value's low 32 bits, and a request of what it sends. [`Unsupported`](crate::X86VlapicError::Unsupported) for a width of 1 or 2
    /// bytes; then [`InvalidAddress`](crate::X86VlapicError::InvalidAddress) for an address below the base.
    #[inline]
    pub fn handle_write(&mut self, addr: X86GuestPhysAddr, width: X86AccessWidth, val: usize) -> X86VlapicResult<IoApicWritten> {
        let addr = addr.as_usize() as u64;
        let code = done(sillwander_board_handle_write(&mut self.ioapic, &mut self.apic, addr, width.size() as u64, val as u64))?;
        Ok(IoApicWritten::of(code, &self.ioapic, addr))
    }

    /// A message, the request of a device without a line. A vector below 16 is dropped, and noted among the pending errors.
    #[inline]
    pub fn receive(&mut self, vector: u8, level_triggered: bool) {
        sillwander_board_receive(&mut self.apic, vector.into(), level_triggered.into());
    }

    /// A memory read of the I/O APIC. Refused as a write is.
    #[inline]
    pub fn handle_read(&self, addr: X86GuestPhysAddr, width: X86AccessWidth) -> X86VlapicResult<usize> {
        done(sillwander_ioapic_handle_read(&self.ioapic, addr.as_usize() as u64, width.size() as u64)).map(value)
    }

    /// A register of the local APIC, by its offset: TPR 0x80, PPR 0xa0, in service from 0x100 and trigger bits from 0x180, a word of 32 vectors every 0x10.
    /// [`InvalidInput`](crate::X86VlapicError::InvalidInput) for one that can't be read.
    #[inline]
    pub fn read_local(&self, offset: usize) -> X86VlapicResult<usize> {
        done(sillwander_lapic_handle_read(&self.apic, offset as u64)).map(value)
    }

    /// The words of the I/O APIC and of the local APIC, in the layouts that include/sillwander.h has.
    pub const fn to_words(&self) -> ([u64; IOAPIC_WORDS], [u64; LAPIC_WORDS]) {
        (self.ioapic, self.apic)
    }

    /// The board with these words, refused as [`EmulatedIoApic20::from_words`] refuses an I/O APIC's. Any others are answered, and none makes a call fault; but what
    /// docs/PROMISES.md says of states that calls made holds of words from [`to_words`](Self::to_words), and nothing here sees whether these are such. The road that does is
    /// [`restore`](Self::restore).
    pub fn from_words(ioapic: [u64; IOAPIC_WORDS], apic: [u64; LAPIC_WORDS]) -> X86VlapicResult<Self> {
        EmulatedIoApic20::from_words(ioapic)?;
        Ok(Self { ioapic, apic })
    }

    /// Writes the image of this board and a pair to the buffer's start, and answers its length, [`IMAGE_SIZE`]; what is behind it stays. The format is docs/IMAGE.md's. Waiting lists
    /// and the records of several vCPUs aren't in it. [`TooShort`](crate::X86VlapicError::TooShort), and the buffer untouched, for fewer bytes.
    ///
    /// ```
    /// # use sillwander::{EmulatedBoard, EmulatedPic, IMAGE_SIZE};
    /// let (mut here, pic) = (EmulatedBoard::new(), EmulatedPic::new());
    /// here.receive(0x41, false);
    /// let mut image = [0; IMAGE_SIZE];
    /// here.save(&pic, &mut image)?;
    ///
    /// let (mut there, mut its_pic) = (EmulatedBoard::new(), EmulatedPic::new());
    /// there.restore(&mut its_pic, &image)?;
    /// assert_eq!(there.accept_interrupt(), Some(0x41));
    /// # Ok::<(), sillwander::X86VlapicError>(())
    /// ```
    pub fn save(&self, pic: &EmulatedPic, image: &mut [u8]) -> X86VlapicResult<usize> {
        // SAFETY: the pointer and the count are the slice's.
        done(unsafe { sillwander_image_save(&self.ioapic, &self.apic, pic.lent(), image.as_mut_ptr(), image.len()) }).map(value)
    }

    /// Makes this board and a pair what they were when the image was saved. [`BadImage`](crate::X86VlapicError::BadImage), and both as they were, for bytes that no board and pair
    /// write which keep their chips' rules; an image of an I/O APIC of version 0x11 too, since a board's is of version 0x20.
    pub fn restore(&mut self, pic: &mut EmulatedPic, image: &[u8]) -> X86VlapicResult {
        let mut read = Self { ioapic: [0; IOAPIC_WORDS], apic: [0; LAPIC_WORDS] };
        let mut words = [0; PIC_WORDS];
        // SAFETY: as above.
        done(unsafe { sillwander_image_restore(image.as_ptr(), image.len(), &mut read.ioapic, &mut read.apic, &mut words) })?;
        if read.ioapic[VERSION] != 0x20 {
            return Err(X86VlapicError::BadImage);
        }
        (*self, *pic.words()) = (read, words);
        Ok(())
    }
}

impl Debug for EmulatedBoard {
    fn fmt(&self, f: &mut Formatter<'_>) -> core::fmt::Result {
        let ioapic = Said(|f: &mut Formatter<'_>| said("IoApic", &self.ioapic, f));
        let apic = Said(|f: &mut Formatter<'_>| LocalApicRegisters::from_words(&self.apic).said("LocalApic", f));
        f.debug_struct("EmulatedBoard").field("ioapic", &ioapic).field("apic", &apic).finish()
    }
}

impl Default for EmulatedBoard {
    fn default() -> Self {
        Self::new()
    }
}

#[cfg(test)]
mod tests {
    use super::*;
    use crate::{EmulatedLocalApic, PicRule};
    use std::format;

    #[test]
    fn both_chips_are_said() {
        let mut board = EmulatedBoard::new();
        board.receive(0x41, false);
        let said = format!("{board:?}");
        assert!(
            said.starts_with("EmulatedBoard { ioapic: IoApic { version: 0x20, base: GPA(0xfec00000), size: 0x1000, "),
            "{said}"
        );
        assert!(said.ends_with("isr: [], tmr: [], irr: [0x41] } }"), "{said}");
    }

    #[test]
    fn words_make_the_same_board() {
        let mut board = EmulatedBoard::new();
        board.receive(0x41, false);
        let (ioapic, apic) = board.to_words();
        let mut again = EmulatedBoard::from_words(ioapic, apic).expect("they are a board's own");
        assert_eq!((again.accept_interrupt(), board.accept_interrupt()), (Some(0x41), Some(0x41)));
        assert_eq!(again.to_words(), board.to_words());
    }

    /// Words that no call made are taken by `from_words`, and not by `restore`.
    #[test]
    fn the_checked_road_is_restore() {
        let (mut ioapic, _) = EmulatedBoard::new().to_words();
        ioapic[30] = 1; // in flight, and the register of entry 0 doesn't say so
        let made_up = EmulatedBoard::from_words(ioapic, EmulatedLocalApic::default().to_words()).expect("any are answered");
        let mut pic = EmulatedPic::new_rule(PicRule::Cascade);
        let mut image = [0; IMAGE_SIZE];
        assert_eq!(made_up.save(&pic, &mut image), Ok(IMAGE_SIZE));
        assert_eq!(EmulatedBoard::new().restore(&mut pic, &image), Err(X86VlapicError::BadImage));
        ioapic[VERSION] = 0x11;
        assert_eq!(EmulatedBoard::from_words(ioapic, [0; LAPIC_WORDS]).err(), Some(X86VlapicError::BadImage));
    }
}
