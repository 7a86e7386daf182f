//! Interrupt commands among several vCPUs: each is matched by its own local APIC's registers. The original has none of this: there the sender's decide for all.

use crate::{
    archives::*,
    code::done,
    text::{Hex, vectors},
    types::{X86AccessWidth, X86InterruptVector, X86VcpuId, X86VlapicResult},
    vlapic::{Ipi, ipi_of},
};
use core::fmt::{Debug, Formatter};

/// The registers of a vCPU's local APIC, in the order of the words of an [`EmulatedLocalApic`](crate::EmulatedLocalApic).
#[derive(Clone, Copy, Eq, PartialEq)]
#[repr(C)]
pub struct LocalApicRegisters {
    /// x2APIC mode; else xAPIC mode.
    pub x2apic: bool,
    /// Isn't asked: a vCPU's id is its record's place.
    pub id: u32,
    /// Task priority.
    pub tpr: u32,
    /// Processor priority.
    pub ppr: u32,
    /// Logical destination.
    pub ldr: u32,
    /// Destination format.
    pub dfr: u32,
    /// Spurious interrupt vector.
    pub svr: u32,
    /// Error status.
    pub esr: u32,
    /// Errors since `esr` was last written.
    pub esr_pending: u32,
    /// Interrupt command, low word.
    pub icr_lo: u32,
    /// Interrupt command, high word.
    pub icr_hi: u32,
    /// Local vector: corrected machine checks.
    pub lvt_cmci: u32,
    /// Local vector: timer.
    pub lvt_timer: u32,
    /// Local vector: thermal sensor.
    pub lvt_thermal: u32,
    /// Local vector: performance counters.
    pub lvt_pmi: u32,
    /// Local vector: pin LINT0.
    pub lvt_lint0: u32,
    /// Local vector: pin LINT1.
    pub lvt_lint1: u32,
    /// Local vector: errors.
    pub lvt_error: u32,
    /// In service: vector v is bit v % 32 of word v / 32, here and below.
    pub isr: [u32; 8],
    /// Trigger mode: level-triggered.
    pub tmr: [u32; 8],
    /// Requested.
    pub irr: [u32; 8],
}

impl LocalApicRegisters {
    /// The registers in the words of an [`EmulatedLocalApic`](crate::EmulatedLocalApic), of which bits 31..0 count.
    pub fn from_words(words: &[u64; LAPIC_WORDS]) -> Self {
        let one = |place: usize| words[place] as u32;
        let eight = |first: usize| core::array::from_fn(|k| one(first + k));
        Self {
            x2apic: words[0] != 0,
            id: one(1),
            tpr: one(2),
            ppr: one(3),
            ldr: one(4),
            dfr: one(5),
            svr: one(6),
            esr: one(7),
            esr_pending: one(8),
            icr_lo: one(9),
            icr_hi: one(10),
            lvt_cmci: one(11),
            lvt_timer: one(12),
            lvt_thermal: one(13),
            lvt_pmi: one(14),
            lvt_lint0: one(15),
            lvt_lint1: one(16),
            lvt_error: one(17),
            isr: eight(18),
            tmr: eight(26),
            irr: eight(34),
        }
    }

    /// The words of an [`EmulatedLocalApic`](crate::EmulatedLocalApic) with these registers, the spare ones 0: its
    /// [`from_words`](crate::EmulatedLocalApic::from_words) takes them, so that its calls serve a vCPU's record.
    pub fn to_words(&self) -> [u64; LAPIC_WORDS] {
        let single = [
            self.x2apic.into(),
            self.id,
            self.tpr,
            self.ppr,
            self.ldr,
            self.dfr,
            self.svr,
            self.esr,
            self.esr_pending,
            self.icr_lo,
            self.icr_hi,
            self.lvt_cmci,
            self.lvt_timer,
            self.lvt_thermal,
            self.lvt_pmi,
            self.lvt_lint0,
            self.lvt_lint1,
            self.lvt_error,
        ];
        let mut words = [0; LAPIC_WORDS];
        let registers = single.into_iter().chain(self.isr).chain(self.tmr).chain(self.irr);
        words.iter_mut().zip(registers).for_each(|(word, register)| *word = register.into());
        words
    }

    /// The registers for people: hexadecimal, and vectors one by one.
    pub(crate) fn said(&self, name: &str, f: &mut Formatter<'_>) -> core::fmt::Result {
        let mut said = f.debug_struct(name);
        said.field("x2apic", &self.x2apic).field("id", &self.id);
        for (name, register) in [
            ("tpr", self.tpr),
            ("ppr", self.ppr),
            ("ldr", self.ldr),
            ("dfr", self.dfr),
            ("svr", self.svr),
            ("esr", self.esr),
            ("esr_pending", self.esr_pending),
            ("icr_lo", self.icr_lo),
            ("icr_hi", self.icr_hi),
            ("lvt_cmci", self.lvt_cmci),
            ("lvt_timer", self.lvt_timer),
            ("lvt_thermal", self.lvt_thermal),
            ("lvt_pmi", self.lvt_pmi),
            ("lvt_lint0", self.lvt_lint0),
            ("lvt_lint1", self.lvt_lint1),
            ("lvt_error", self.lvt_error),
        ] {
            said.field(name, &Hex(register));
        }
        for (name, set) in [("isr", self.isr), ("tmr", self.tmr), ("irr", self.irr)] {
            said.field(name, &vectors(|vector| set[vector as usize / 32] >> (vector % 32) & 1 != 0));
        }
        said.finish()
    }
}

impl Debug for LocalApicRegisters {
    fn fmt(&self, f: &mut Formatter<'_>) -> core::fmt::Result {
        self.said("LocalApicRegisters", f)
    }
}

/// One vCPU's record.
#[derive(Clone, Copy, Debug, Eq, PartialEq)]
#[repr(C)]
pub struct Vcpu {
    /// Its local APIC.
    pub regs: LocalApicRegisters,
    /// An NMI waits.
    pub nmi: bool,
    /// An INIT waits.
    pub init: bool,
    /// A start-up IPI waits.
    pub startup: bool,
    /// The vector of the last start-up IPI.
    pub startup_vector: X86InterruptVector,
}

impl Vcpu {
    /// A vCPU whose local APIC is as after a reset, with nothing waiting.
    pub const fn new(x2apic: bool) -> Self {
        const MASKED: u32 = 0x10000;
        Self {
            regs: LocalApicRegisters {
                x2apic,
                id: 0,
                tpr: 0,
                ppr: 0,
                ldr: 0,
                dfr: 0xffff_ffff,
                svr: 0xff,
                esr: 0,
                esr_pending: 0,
                icr_lo: 0,
                icr_hi: 0,
                lvt_cmci: MASKED,
                lvt_timer: MASKED,
                lvt_thermal: MASKED,
                lvt_pmi: MASKED,
                lvt_lint0: MASKED,
                lvt_lint1: MASKED,
                lvt_error: MASKED,
                isr: [0; 8],
                tmr: [0; 8],
                irr: [0; 8],
            },
            nmi: false,
            init: false,
            startup: false,
            startup_vector: 0,
        }
    }
}

/// A register whose write sends IPIs.
#[derive(Clone, Copy, Debug, Eq, PartialEq, Hash)]
pub enum SendingRegister {
    /// The interrupt command register: its low word in xAPIC mode, the whole in x2APIC mode.
    Icr,
    /// SELF IPI, in x2APIC mode.
    SelfIpi,
}

/// A write of a register that sends, by the vCPU at place `sender`, where those in the mask `active_vcpus` are active. What is sent is in the records of those whom it
/// reaches: an edge request, or what waits. The answer says whom.
///
/// [`OutOfRange`](crate::X86VlapicError::OutOfRange) for more than 64 records or a sender that isn't among them; then
/// [`InvalidInput`](crate::X86VlapicError::InvalidInput) for a register that can't be written so; then, with the ICR's words stored,
/// [`InvalidData`](crate::X86VlapicError::InvalidData) for a reserved delivery mode, [`OutOfRange`](crate::X86VlapicError::OutOfRange) for a physical destination above
/// 63, and [`InvalidData`](crate::X86VlapicError::InvalidData) for a logical one while an active vCPU in xAPIC mode has a reserved DFR model.
#[inline]
pub fn send_ipi(
    vcpus: &mut [Vcpu],
    sender: X86VcpuId,
    register: SendingRegister,
    val: usize,
    width: X86AccessWidth,
    active_vcpus: u64,
) -> X86VlapicResult<Option<Ipi>> {
    let offset = match register {
        SendingRegister::Icr => 0x300,
        SendingRegister::SelfIpi => 0x3f0,
    };
    // SAFETY: the pointer has as many records behind it as the number says, and they are lent for writing.
    let sent = unsafe {
        sillwander_vcpus_send(
            vcpus.as_mut_ptr(),
            vcpus.len(),
            sender as u64,
            offset,
            val as u64,
            width.size() as u64,
            active_vcpus,
        )
    };
    Ok(ipi_of(done(sent.code)?, sent.mask))
}

#[cfg(test)]
mod tests {
    use super::*;
    use crate::EmulatedLocalApic;

    /// The header's table: word 6 is SVR, 10 the ICR's high word, 17 the error LVT, and the last of IRR 41.
    #[test]
    fn registers_and_words_are_one() {
        let words = core::array::from_fn(|place| match place {
            0 => 1,
            1..42 => place as u64 * 0x0101_0101,
            _ => 0,
        });
        let registers = LocalApicRegisters::from_words(&words);
        assert_eq!([registers.svr, registers.icr_hi, registers.lvt_error], [6, 10, 17].map(|place| place * 0x0101_0101));
        assert_eq!([registers.isr[0], registers.tmr[0], registers.irr[7]], [18, 26, 41].map(|place| place * 0x0101_0101));
        assert_eq!(registers.to_words(), words);
    }

    #[test]
    fn a_new_vcpu_has_a_new_local_apic() {
        for x2apic in [false, true] {
            let local = EmulatedLocalApic::new(x2apic, 0, 1).expect("an id below 64");
            assert_eq!(Vcpu::new(x2apic).regs.to_words(), local.to_words());
        }
    }
}
