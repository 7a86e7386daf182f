//! The pair of 8259s.
//!
//! The names and signatures are those of vpic.rs of x86_vlapic 0.5.4 (Copyright The Axvisor Team, Apache License 2.0; `NOTICE`); behind them are calls of the archive.
//! The original has one rule of the cascade, and neither rotation nor polls: [`PicRule`] and [`EmulatedPic::new_rule`] are ours, and a read takes `&mut self`, since a poll is an
//! acknowledgement; a pair that several share goes into [`Locked`](crate::Locked).

use crate::{
    archives::*,
    code::{done, of_three, value},
    text::Pic,
    types::{X86AccessWidth, X86Port, X86PortRange, X86VlapicResult},
};
use core::{
    fmt::{Debug, Formatter},
    num::NonZeroU64,
};

const MASTER: u8 = 1;
const SLAVE: u8 = 2;

/// A request that was taken for delivery.
///
/// It can be restored where its vector can't be published. It is neither [`Copy`] nor [`Clone`], and can't be made: so one claim is restored at most once.
#[derive(Eq, PartialEq)]
#[must_use = "a claim that isn't delivered is to be restored"]
pub struct PicInterruptClaim {
    /// The code that the claim answered: three values, vector, line and flags.
    code: NonZeroU64,
}

impl PicInterruptClaim {
    /// The vector that the guest programmed.
    #[inline]
    pub const fn vector(&self) -> u8 {
        of_three(self.code.get(), 0)
    }

    const fn irq(&self) -> u8 {
        of_three(self.code.get(), 1)
    }

    const fn flags(&self) -> u8 {
        of_three(self.code.get(), 2)
    }

    /// Nothing where there is no claim.
    #[inline]
    fn of(code: u64) -> Option<Self> {
        NonZeroU64::new(code).map(|code| Self { code })
    }
}

/// The original's text.
impl Debug for PicInterruptClaim {
    fn fmt(&self, f: &mut Formatter<'_>) -> core::fmt::Result {
        f.debug_struct("PicInterruptClaim")
            .field("vector", &self.vector())
            .field("irq", &self.irq())
            .field("master_in_service", &(self.flags() & MASTER != 0))
            .field("slave_in_service", &(self.flags() & SLAVE != 0))
            .finish()
    }
}

/// What the slave does to the master's line 2, and whether the chips are full 8259As. The discriminant is the archive's number.
#[derive(Clone, Copy, Debug, Default, Eq, PartialEq, Hash)]
#[repr(u8)]
pub enum PicRule {
    /// The original's: a latch that a line of the slave sets, and that one acknowledgement clears for all lines of the slave that wait.
    Latch = 0,
    /// The 8259A's: it is requested exactly while a request of the slave counts.
    #[default]
    Cascade = 1,
    /// The same, and each chip is a full 8259A: its priorities rotate by all eight OCW2 commands, and it takes special mask mode, polls and special fully nested mode. A restored
    /// claim doesn't turn priorities back.
    Full = 2,
}

/// A PC's two 8259s: the master's lines are 0 to 7, the slave's 8 to 15.
pub struct EmulatedPic {
    words: [u64; PIC_WORDS],
}

impl EmulatedPic {
    /// A new pair of the 8259A's rule, [`PicRule::Cascade`], every line masked. The original's is `new_rule(PicRule::Latch)`.
    pub fn new() -> Self {
        let mut words = [0; PIC_WORDS];
        sillwander_pic_new(&mut words);
        Self { words }
    }

    /// A new pair of any rule, every line masked.
    ///
    /// Two devices on the slave: the second waits for the first, and is delivered when that has ended. By the original's rule it waits until the slave's next edge.
    ///
    /// ```
    /// # use sillwander::{EmulatedPic, PicRule, X86AccessWidth::Byte, X86Port};
    /// let mut pic = EmulatedPic::new_rule(PicRule::Cascade);
    /// for port in [0x21, 0xa1] {
    ///     pic.handle_write(X86Port::new(port), Byte, 0)?; // no line is masked
    /// }
    /// assert_eq!(pic.pulse_irq(12), Some(0x74));
    /// assert_eq!((pic.pulse_irq(13), pic.pulse_irq(14)), (None, None));
    /// for vector in [0x75, 0x76] {
    ///     pic.handle_write(X86Port::new(0xa0), Byte, 0x20)?; // EOI
    ///     pic.handle_write(X86Port::new(0x20), Byte, 0x20)?;
    ///     assert_eq!(pic.next_interrupt(), Some(vector));
    /// }
    /// # Ok::<(), sillwander::X86VlapicError>(())
    /// ```
    pub fn new_rule(rule: PicRule) -> Self {
        let mut words = [0; PIC_WORDS];
        let code = sillwander_pic_new_rule(&mut words, rule as u64);
        debug_assert!(code == 0, "there is such a rule");
        Self { words }
    }

    /// The words, in the layout that include/sillwander.h has.
    pub const fn to_words(&self) -> [u64; PIC_WORDS] {
        self.words
    }

    /// The pair with these words. Any are answered, and none makes a call fault; but what docs/PROMISES.md says of states that calls made holds of words from
    /// [`to_words`](Self::to_words), and nothing here sees whether these are such. The road that does is [`EmulatedBoard::restore`](crate::EmulatedBoard::restore).
    pub const fn from_words(words: [u64; PIC_WORDS]) -> Self {
        Self { words }
    }

    /// Its rule. Any number but 1 and 2 stands for the first.
    fn rule(&self) -> PicRule {
        match self.words[2] {
            1 => PicRule::Cascade,
            2 => PicRule::Full,
            _ => PicRule::Latch,
        }
    }

    /// The words, for the waiting lists' claims and for images.
    #[inline]
    pub(crate) fn words(&mut self) -> &mut [u64; PIC_WORDS] {
        &mut self.words
    }

    /// The words, for reading.
    #[inline]
    pub(crate) fn lent(&self) -> &[u64; PIC_WORDS] {
        &self.words
    }

    /// The command and data port of the master, and of the slave.
    pub fn port_ranges() -> [X86PortRange; 2] {
        let mut ranges = [0; 4];
        sillwander_pic_port_ranges(&mut ranges);
        let [master_start, master_end, slave_start, slave_end] = ranges.map(|port| X86Port::new(port as u16));
        [X86PortRange::new(master_start, master_end), X86PortRange::new(slave_start, slave_end)]
    }

    /// An edge on a line, and the vector that can then be delivered. Such a one can't be restored.
    #[inline]
    pub fn pulse_irq(&mut self, irq: u8) -> Option<u8> {
        let code = sillwander_pic_pulse_irq(&mut self.words, irq.into());
        (code != 0).then_some(code as u8)
    }

    /// The vector that can be delivered after a change of the pair, as after an EOI or a write of a mask. Such a one can't be restored.
    #[inline]
    pub fn next_interrupt(&mut self) -> Option<u8> {
        let code = sillwander_pic_next_interrupt(&mut self.words);
        (code != 0).then_some(code as u8)
    }

    /// An edge on a line, and a claim of what can then be delivered. A line from 16 up does nothing.
    #[inline]
    pub fn claim_irq(&mut self, irq: u8) -> Option<PicInterruptClaim> {
        PicInterruptClaim::of(sillwander_pic_claim_irq(&mut self.words, irq.into()))
    }

    /// A claim of what can be delivered after a change of the pair.
    #[inline]
    pub fn claim_pending_interrupt(&mut self) -> Option<PicInterruptClaim> {
        PicInterruptClaim::of(sillwander_pic_claim_pending_interrupt(&mut self.words))
    }

    /// Restores a claim whose vector couldn't be published.
    #[inline]
    pub fn restore_interrupt(&mut self, claim: PicInterruptClaim) {
        let code = sillwander_pic_restore_interrupt(&mut self.words, claim.code.get());
        debug_assert!(code == 0, "a claim is a claim's code");
    }

    /// A port read. By [`PicRule::Full`], where a poll waits on the port's chip, it is an acknowledgement, and shows 0x80 plus the line, or 0; no other read changes the
    /// pair. [`Unsupported`](crate::X86VlapicError::Unsupported) for a width other than a byte, or a port that the pair doesn't have.
    #[inline]
    pub fn handle_read(&mut self, port: X86Port, width: X86AccessWidth) -> X86VlapicResult<usize> {
        done(sillwander_pic_handle_read(&mut self.words, port.number().into(), width.size() as u64)).map(value)
    }

    /// A port write, of the value's low 8 bits. Refused as a read is.
    #[inline]
    pub fn handle_write(&mut self, port: X86Port, width: X86AccessWidth, value: usize) -> X86VlapicResult {
        done(sillwander_pic_handle_write(&mut self.words, port.number().into(), width.size() as u64, value as u64)).map(|_| ())
    }
}

impl Debug for EmulatedPic {
    fn fmt(&self, f: &mut Formatter<'_>) -> core::fmt::Result {
        let rule = self.rule();
        let chip = |place: usize| Pic { word: self.words[place], is_full: rule == PicRule::Full, first: 8 * place };
        f.debug_struct("EmulatedPic").field("rule", &rule).field("master", &chip(0)).field("slave", &chip(1)).finish()
    }
}

impl Default for EmulatedPic {
    fn default() -> Self {
        Self::new()
    }
}

#[cfg(test)]
mod tests {
    use super::*;
    use std::format;

    fn write(pic: &mut EmulatedPic, port: u16, value: usize) {
        assert_eq!(pic.handle_write(X86Port::new(port), X86AccessWidth::Byte, value), Ok(()));
    }

    #[test]
    fn lines_are_said_by_number() {
        let mut pic = EmulatedPic::new_rule(PicRule::Full);
        write(&mut pic, 0x21, 0xf0);
        write(&mut pic, 0xa1, 0x0f);
        assert_eq!((pic.pulse_irq(0), pic.pulse_irq(3), pic.pulse_irq(12)), (Some(0x08), None, None));
        write(&mut pic, 0x20, 0x0b); // the command port reads what is in service
        write(&mut pic, 0xa0, 0xc5); // the slave's line 5 is its lowest
        write(&mut pic, 0xa0, 0x11); // and ICW1 makes it new again
        assert_eq!(
            format!("{pic:?}"),
            "EmulatedPic { rule: Full, \
             master: Pic { base: 0x8, masked: [4, 5, 6, 7], requested: [3], in_service: [0], modes: [reads in service], highest: 0 }, \
             slave: Pic { base: 0x70, masked: [], requested: [], in_service: [], modes: [waits for ICW2, ICW4 expected], highest: 8 } }"
        );
    }

    #[test]
    fn words_make_the_same_pair() {
        let mut pic = EmulatedPic::new_rule(PicRule::Cascade);
        [0x21, 0xa1].into_iter().for_each(|port| write(&mut pic, port, 0));
        assert_eq!((pic.pulse_irq(12), pic.pulse_irq(13)), (Some(0x74), None));
        let mut again = EmulatedPic::from_words(pic.to_words());
        for pair in [&mut pic, &mut again] {
            [0xa0, 0x20].into_iter().for_each(|port| write(pair, port, 0x20));
            assert_eq!(pair.next_interrupt(), Some(0x75));
        }
        assert_eq!(again.to_words(), pic.to_words());
    }

    #[test]
    fn claims_have_the_originals_text() {
        let mut pic = EmulatedPic::new_rule(PicRule::Latch);
        write(&mut pic, 0x21, 0);
        let claim = pic.claim_irq(4).expect("line 4 isn't masked");
        assert_eq!(
            format!("{claim:?}"),
            "PicInterruptClaim { vector: 12, irq: 4, master_in_service: true, slave_in_service: false }"
        );
        pic.restore_interrupt(claim);
        assert_eq!(pic.next_interrupt(), Some(12));
    }
}
