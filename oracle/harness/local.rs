//! The local APIC's calls: by its MMIO page in xAPIC mode, by its MSRs in x2APIC mode.

use crate::{
    host::{Host, set_vcpus, take_sent},
    reply::{Number, Outcome, Reply, ask},
};
use x86_vlapic::{EmulatedLocalApic, X86AccessWidth, X86GuestPhysAddr, X86MsrAddr, X86VlapicResult};

const ID: usize = 0x20;
const LDR: usize = 0xd0;
const DFR: usize = 0xe0;
const SVR: usize = 0xf0;
const ICR: usize = 0x300;
const TIMER_INITIAL_COUNT: usize = 0x380;
const TIMER_DIVIDER: usize = 0x3e0;

const X2APIC_ENABLE: u64 = 1 << 10;
const SOFTWARE_ENABLE: usize = 1 << 8;

pub struct Local {
    chip: EmulatedLocalApic<Host>,
    x2apic: bool,
    /// SVR bit 8, which isn't handed to the Rust.
    software_enable: usize,
    alone: bool,
}

impl Local {
    /// HARNESS: the mode, id, count and active mask before any setup are the script's.
    pub fn new(alone: bool) -> Self {
        Self::created(alone, false, 0, 1, 1)
    }

    fn created(alone: bool, x2apic: bool, id: u8, count: u8, active: usize) -> Self {
        let local = Self { chip: EmulatedLocalApic::new(0, id.into()), x2apic: false, software_enable: 0, alone };
        if !alone {
            local.start();
        }
        set_vcpus(count.into(), active);
        if x2apic {
            let base = local.chip.apic_base() | X2APIC_ENABLE;
            local.chip.set_apic_base(base).expect("an enabled local APIC takes x2APIC mode");
        }
        Self { x2apic, ..local }
    }

    /// HARNESS: the start is the SDM's, not the Rust's, whose page starts with DFR and SVR 0. The words are written by the
    /// Rust's own calls. All other words of the start are the Rust's.
    fn start(&self) {
        for (offset, word) in [(DFR, 0xffff_ffff), (SVR, 0xff)] {
            self.rust_write(offset, X86AccessWidth::Dword, word).expect("an xAPIC takes DFR and SVR");
        }
    }

    pub fn setup(&mut self, x2apic: bool, id: u8, count: u8, active: usize) -> Reply {
        if !self.alone && (id > 63 || count > 64) {
            // HARNESS: number 5 for a count or an id is added; the Rust takes any.
            return Reply::refused_by_harness(5);
        }
        *self = Self::created(self.alone, x2apic, id, count, active);
        // HARNESS: setup is the script's own field, so its answer is the harness's.
        Reply::done(Vec::new()).by_harness()
    }

    pub fn accept(&self, vector: u8, level: bool) -> Reply {
        self.chip.accept_interrupt(vector, level);
        Reply::done(Vec::new())
    }

    pub fn eoi(&self) -> Reply {
        Reply::maybe(self.chip.handle_eoi().map(|vector| vec![vector.into()]))
    }

    pub fn write(&mut self, width: X86AccessWidth, offset: usize, value: usize) -> Reply {
        if !self.alone && self.write_refused_by_harness(offset) {
            return Reply::refused_by_harness(2);
        }
        let given = if offset == SVR { self.svr_for_rust(value) } else { value };
        take_sent();
        let outcome = ask(|| self.rust_write(offset, width, given));
        let sent = take_sent();
        let reply = outcome.reply(self.alone, |()| match sent {
            Some(sent) => vec![sent.kind.into(), sent.vector.into(), sent.mask],
            None => Vec::new(),
        });
        if !self.alone && offset == ICR && is_reserved_mode(value) && !matches!(reply.number, Number::Paper(2)) {
            // HARNESS: modes 3 and 7 are refused by the SDM and the paper; the Rust has stored the words, worked out the
            // destination, and sent nothing.
            return Reply::refused_by_harness(3);
        }
        reply
    }

    /// HARNESS: what the Rust serves and the paper doesn't list for writing.
    /// - An offset that is no multiple of 0x10, or lies outside the page: the Rust's decoder drops those bits in xAPIC mode; an
    ///   MSR's number has no place for the low ones.
    /// - Timer count and divider: left behind.
    /// - LDR and DFR in x2APIC mode: the SDM's, the Rust stores them.
    fn write_refused_by_harness(&self, offset: usize) -> bool {
        self.is_misplaced(offset)
            || matches!(offset, TIMER_INITIAL_COUNT | TIMER_DIVIDER)
            || (self.x2apic && matches!(offset, LDR | DFR))
    }

    fn is_misplaced(&self, offset: usize) -> bool {
        offset % 0x10 != 0 || (!self.x2apic && offset > 0xfff)
    }

    /// HARNESS: the SVR word is stored as written, and no more. In the Rust, bit 8 falling from 1 to 0 also masks every LVT; so
    /// that bit alone is kept here, and the Rust's SVR has it 0 always.
    fn svr_for_rust(&mut self, value: usize) -> usize {
        if self.alone {
            return value;
        }
        self.software_enable = value & SOFTWARE_ENABLE;
        value & !SOFTWARE_ENABLE
    }

    pub fn read(&self, offset: usize) -> Reply {
        if !self.alone && self.read_refused_by_harness(offset) {
            return Reply::refused_by_harness(2);
        }
        let outcome = ask(|| self.rust_read(offset));
        if self.alone {
            return outcome.reply(true, |value| vec![value as u64]);
        }
        match (offset, outcome) {
            (ID, Outcome::Done(value)) if self.x2apic => {
                // HARNESS: in x2APIC mode the paper has the id itself; the Rust has it in the top byte in both modes.
                Reply::done(vec![value as u64 >> 24]).by_harness()
            }
            (ICR, Outcome::Done(value)) if self.x2apic => {
                // HARNESS: the Rust reads both words at once; the paper's 0x300 is the low one.
                Reply::done(vec![value as u64 & 0xffff_ffff]).by_harness()
            }
            (SVR, Outcome::Done(value)) => {
                // HARNESS: bit 8, which the Rust wasn't given.
                Reply::done(vec![(value | self.software_enable) as u64]).by_harness()
            }
            (_, outcome) => outcome.reply(false, |value| vec![value as u64]),
        }
    }

    /// HARNESS: what the Rust serves and the paper doesn't list for reading: misplaced offsets as for writing; version 0x30,
    /// arbitration priority 0x90, EOI 0xb0, remote read 0xc0, requests 0x200 to 0x270, timer counts and divider, self-IPI.
    fn read_refused_by_harness(&self, offset: usize) -> bool {
        self.is_misplaced(offset)
            || matches!(offset, 0x30 | 0x90 | 0xb0 | 0xc0 | 0x200..=0x270 | TIMER_INITIAL_COUNT | 0x390 | TIMER_DIVIDER | 0x3f0)
    }

    fn mmio(&self, offset: usize) -> X86GuestPhysAddr {
        X86GuestPhysAddr::from_usize(self.chip.mmio_address_range().start.as_usize() + offset)
    }

    fn msr(&self, offset: usize) -> X86MsrAddr {
        X86MsrAddr::new(self.chip.msr_address_range().start.addr() + offset / 0x10)
    }

    fn rust_write(&self, offset: usize, width: X86AccessWidth, value: usize) -> X86VlapicResult {
        if self.x2apic {
            self.chip.handle_msr_write(self.msr(offset), width, value)
        } else {
            self.chip.handle_mmio_write(self.mmio(offset), width, value)
        }
    }

    /// HARNESS: a script's read has no width. The Rust asks for 8 bytes at the x2APIC ICR and doesn't mind elsewhere.
    fn rust_read(&self, offset: usize) -> X86VlapicResult<usize> {
        if self.x2apic {
            let width = if offset == ICR { X86AccessWidth::Qword } else { X86AccessWidth::Dword };
            self.chip.handle_msr_read(self.msr(offset), width)
        } else {
            self.chip.handle_mmio_read(self.mmio(offset), X86AccessWidth::Dword)
        }
    }
}

fn is_reserved_mode(icr: usize) -> bool {
    matches!(icr >> 8 & 7, 3 | 7)
}
