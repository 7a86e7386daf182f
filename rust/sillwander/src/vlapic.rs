//! The local APIC.
//!
//! The names are those of lib.rs and vlapic.rs of x86_vlapic 0.5.4 (Copyright 2025 The Axvisor Team, Apache License 2.0; `NOTICE`); behind them are calls of the
//! archive. In the place of the original's host generic, vCPU count and active mask are arguments of a write, and the IPI is its answer.

use crate::{
    archives::*,
    code::{count, done, of_two, value},
    types::{
        X86AccessWidth, X86GuestPhysAddr, X86GuestPhysAddrRange, X86MsrAddr, X86MsrAddrRange, X86VcpuId, X86VlapicError,
        X86VlapicResult,
    },
    vcpus::LocalApicRegisters,
};
use core::fmt::{Debug, Formatter};

const MMIO_BASE: usize = 0xfee0_0000;
const MMIO_SIZE: usize = 0x1000;
pub(crate) const MSR_BASE: usize = 0x800;
const MSR_COUNT: usize = 0x100;
pub(crate) const ICR: usize = 0x300;
const ICR_HIGH: usize = 0x310;

/// What an IPI is. The discriminant is the interrupt command's delivery mode.
#[derive(Clone, Copy, Debug, Eq, PartialEq, Hash)]
#[repr(u8)]
pub enum IpiKind {
    /// An interrupt with the IPI's vector.
    Fixed = 0,
    /// A non-maskable interrupt.
    Nmi = 4,
    /// An INIT.
    Init = 5,
    /// A startup, whose vector is the page that the vCPU begins at.
    StartUp = 6,
}

/// An interrupt that a guest sends to vCPUs.
#[derive(Clone, Copy, Debug, Eq, PartialEq)]
pub struct Ipi {
    /// What is sent.
    pub kind: IpiKind,
    /// The vector in the command.
    pub vector: u8,
    /// The vCPUs that it is for: bit n is vCPU n. Never empty.
    pub vcpus: u64,
}

/// One vCPU's local APIC: its in-service, priority, command and local vector registers.
pub struct EmulatedLocalApic {
    words: [u64; LAPIC_WORDS],
}

impl EmulatedLocalApic {
    /// The local APIC of a vCPU in a VM of so many. [`OutOfRange`](X86VlapicError::OutOfRange) for an id above 63 or a count above 64.
    pub fn new(x2apic: bool, vcpu_id: X86VcpuId, vcpu_num: usize) -> X86VlapicResult<Self> {
        let mut words = [0; LAPIC_WORDS];
        done(sillwander_lapic_setup(&mut words, x2apic.into(), vcpu_id as u64, vcpu_num as u64))?;
        Ok(Self { words })
    }

    /// The words, in the layout that include/sillwander.h has.
    pub const fn to_words(&self) -> [u64; LAPIC_WORDS] {
        self.words
    }

    /// The local APIC with these words. Any are answered, and none makes a call fault; but what docs/PROMISES.md says of states that calls made holds of words from
    /// [`to_words`](Self::to_words), and nothing here sees whether these are such. The road that does is [`EmulatedBoard::restore`](crate::EmulatedBoard::restore).
    pub const fn from_words(words: [u64; LAPIC_WORDS]) -> Self {
        Self { words }
    }

    /// The processor accepted an interrupt.
    #[inline]
    pub fn accept_interrupt(&mut self, vector: u8, level_triggered: bool) {
        sillwander_lapic_accept_interrupt(&mut self.words, vector.into(), level_triggered.into());
    }

    /// A guest's EOI: the vector that is broadcast to the I/O APIC, or none.
    #[inline]
    pub fn handle_eoi(&mut self) -> Option<u8> {
        let code = sillwander_lapic_handle_eoi(&mut self.words);
        (code != 0).then_some(code as u8)
    }

    /// A read of the register at an offset of the register page. [`InvalidInput`](X86VlapicError::InvalidInput) for one that isn't listed for reading.
    #[inline]
    pub fn handle_read(&self, offset: usize) -> X86VlapicResult<usize> {
        done(sillwander_lapic_handle_read(&self.words, offset as u64)).map(value)
    }

    /// A write of the register at an offset, in a VM of `vcpu_num` vCPUs of which those in the mask `active_vcpus` are active. The answer is the IPI that an
    /// interrupt command sends. A write of the EOI register ends the vector in service and broadcasts nothing.
    ///
    /// [`OutOfRange`](X86VlapicError::OutOfRange) for a count above 64; then [`InvalidInput`](X86VlapicError::InvalidInput) for a register that can't be written so,
    /// [`InvalidData`](X86VlapicError::InvalidData) for an interrupt command's delivery mode or the destination format's model, and
    /// [`OutOfRange`](X86VlapicError::OutOfRange) for its destination.
    #[inline]
    pub fn handle_write(
        &mut self,
        offset: usize,
        val: usize,
        width: X86AccessWidth,
        vcpu_num: usize,
        active_vcpus: u64,
    ) -> X86VlapicResult<Option<Ipi>> {
        let mut vcpus = [0];
        let code = done(sillwander_lapic_handle_write(
            &mut self.words,
            offset as u64,
            val as u64,
            width.size() as u64,
            vcpu_num as u64,
            active_vcpus,
            &mut vcpus,
        ))?;
        Ok(ipi_of(code, vcpus[0]))
    }

    /// The addresses of the register page in xAPIC mode.
    pub fn mmio_address_range(&self) -> X86GuestPhysAddrRange {
        let [start, end] = [MMIO_BASE, MMIO_BASE + MMIO_SIZE].map(X86GuestPhysAddr::from_usize);
        X86GuestPhysAddrRange::new(start, end)
    }

    /// The registers in x2APIC mode. As in the original, the last one is the one after them.
    pub fn msr_address_range(&self) -> X86MsrAddrRange {
        X86MsrAddrRange::new(X86MsrAddr::new(MSR_BASE), X86MsrAddr::new(MSR_BASE + MSR_COUNT))
    }

    /// [`handle_read`](Self::handle_read) by the address in xAPIC mode. The width doesn't matter.
    pub fn handle_mmio_read(&self, addr: X86GuestPhysAddr, _width: X86AccessWidth) -> X86VlapicResult<usize> {
        self.handle_read(offset_in_page(addr)?)
    }

    /// [`handle_write`](Self::handle_write) by the address in xAPIC mode.
    pub fn handle_mmio_write(
        &mut self,
        addr: X86GuestPhysAddr,
        width: X86AccessWidth,
        val: usize,
        vcpu_num: usize,
        active_vcpus: u64,
    ) -> X86VlapicResult<Option<Ipi>> {
        self.handle_write(offset_in_page(addr)?, val, width, vcpu_num, active_vcpus)
    }

    /// [`handle_read`](Self::handle_read) by the register's number in x2APIC mode. The interrupt command register is read whole with a width of 8 bytes, its high word above
    /// its low word, and isn't read with another.
    pub fn handle_msr_read(&self, addr: X86MsrAddr, width: X86AccessWidth) -> X86VlapicResult<usize> {
        match offset_of_msr(addr)? {
            ICR if width != X86AccessWidth::Qword => Err(X86VlapicError::InvalidInput),
            ICR => Ok(self.handle_read(ICR)? | self.handle_read(ICR_HIGH)? << 32),
            offset => self.handle_read(offset),
        }
    }

    /// [`handle_write`](Self::handle_write) by the register's number in x2APIC mode.
    pub fn handle_msr_write(
        &mut self,
        addr: X86MsrAddr,
        width: X86AccessWidth,
        val: usize,
        vcpu_num: usize,
        active_vcpus: u64,
    ) -> X86VlapicResult<Option<Ipi>> {
        self.handle_write(offset_of_msr(addr)?, val, width, vcpu_num, active_vcpus)
    }
}

impl Debug for EmulatedLocalApic {
    fn fmt(&self, f: &mut Formatter<'_>) -> core::fmt::Result {
        LocalApicRegisters::from_words(&self.words).said("EmulatedLocalApic", f)
    }
}

impl Default for EmulatedLocalApic {
    /// The local APIC of vCPU 0 in xAPIC mode.
    fn default() -> Self {
        let mut words = [0; LAPIC_WORDS];
        sillwander_lapic_new(&mut words);
        Self { words }
    }
}

/// The IPI in a done write's code, whose mask stands beside it.
#[inline]
pub fn ipi_of(code: u64, vcpus: u64) -> Option<Ipi> {
    (count(code) == 2).then(|| {
        let kind = match of_two(code, 0) {
            0 => IpiKind::Fixed,
            4 => IpiKind::Nmi,
            5 => IpiKind::Init,
            kind => {
                debug_assert!(kind == 6);
                IpiKind::StartUp
            }
        };
        Ipi { kind, vector: of_two(code, 1), vcpus }
    })
}

/// No register stands outside the page.
fn offset_in_page(addr: X86GuestPhysAddr) -> X86VlapicResult<usize> {
    addr.as_usize().checked_sub(MMIO_BASE).ok_or(X86VlapicError::InvalidInput)
}

/// Register n is at offset n * 16.
pub(crate) fn offset_of_msr(addr: X86MsrAddr) -> X86VlapicResult<usize> {
    addr.addr().checked_sub(MSR_BASE).and_then(|number| number.checked_mul(0x10)).ok_or(X86VlapicError::InvalidInput)
}

#[cfg(test)]
mod tests {
    use super::*;
    use std::format;

    #[test]
    fn registers_are_said_in_words() {
        let mut local = EmulatedLocalApic::new(true, 5, 8).expect("an id below 64");
        local.accept_interrupt(0x41, true);
        local.accept_interrupt(0xff, false);
        assert_eq!(
            format!("{local:?}"),
            "EmulatedLocalApic { x2apic: true, id: 5, tpr: 0x0, ppr: 0xf0, ldr: 0x0, dfr: 0xffffffff, svr: 0xff, esr: 0x0, \
             esr_pending: 0x0, icr_lo: 0x0, icr_hi: 0x0, lvt_cmci: 0x10000, lvt_timer: 0x10000, lvt_thermal: 0x10000, \
             lvt_pmi: 0x10000, lvt_lint0: 0x10000, lvt_lint1: 0x10000, lvt_error: 0x10000, \
             isr: [0x41, 0xff], tmr: [0x41], irr: [] }"
        );
    }

    #[test]
    fn words_make_the_same_chip() {
        let mut local = EmulatedLocalApic::default();
        local.accept_interrupt(0x41, true);
        let mut again = EmulatedLocalApic::from_words(local.to_words());
        assert_eq!((again.handle_eoi(), local.handle_eoi()), (Some(0x41), Some(0x41)));
        assert_eq!(again.to_words(), local.to_words());
    }

    #[test]
    fn no_register_stands_outside_the_page_and_the_numbers() {
        let local = EmulatedLocalApic::default();
        for addr in [MMIO_BASE - 0x10, MMIO_BASE + MMIO_SIZE + 0x80, MMIO_BASE + 0x81] {
            let read = local.handle_mmio_read(X86GuestPhysAddr::from_usize(addr), X86AccessWidth::Dword);
            assert_eq!(read, Err(X86VlapicError::InvalidInput));
        }
        for number in [0, MSR_BASE - 1, MSR_BASE + MSR_COUNT, usize::MAX] {
            let read = local.handle_msr_read(X86MsrAddr::new(number), X86AccessWidth::Dword);
            assert_eq!(read, Err(X86VlapicError::InvalidInput));
        }
    }
}
