//! x86_vlapic 0.5.4's own API over the archives: its names, its `&self` signatures and its errors, with a lock inside
//! each chip. A caller of that crate changes the path, from `x86_vlapic::` to `sillwander::x86_vlapic::`;
//! rust/sillwander/README.md lists what isn't here, and what answers otherwise.
//!
//! - **The chips are the original's**: an I/O APIC of version 0x11, a pair whose cascade is a latch
//!   ([`PicRule::Latch`]). The other versions and rules are the plain API's, one module up.
//! - **The lock** is [`Locked`]: held for a call alone, not reentrant, and with interrupts as they are. The host is
//!   called without it, so that it may call the chip again.
//! - **Where the original panics** at what a guest or a host asks (an address below the I/O APIC, a register that there
//!   isn't, a destination above 63, a vCPU count above 64), the call is refused with
//!   [`InvalidInput`](X86VlapicError::InvalidInput).
//!
//! ```
//! use sillwander::x86_vlapic::{EmulatedPic, X86AccessWidth, X86Port};
//!
//! static PIC: EmulatedPic = EmulatedPic::new();
//!
//! PIC.handle_write(X86Port::new(0x21), X86AccessWidth::Byte, 0).expect("the master's mask");
//! assert_eq!(PIC.pulse_irq(4), Some(0x0c));
//! ```
//!
//! Names, signatures and errors are those of lib.rs, types.rs, vioapic.rs, vlapic.rs and vpic.rs of x86_vlapic 0.5.4
//! (Copyright The Axvisor Team, Apache License 2.0; `NOTICE`).

use crate::{
    Ipi, IpiKind, Locked, PicRule,
    archives::*,
    types::access_width,
    vlapic::{ICR, MSR_BASE, offset_of_msr},
};
use core::{
    fmt::{Debug, Formatter},
    marker::PhantomData,
};

pub use crate::{
    IoApicEoi, IoApicInterrupt, PicInterruptClaim, X86GuestPhysAddr, X86GuestPhysAddrRange, X86HostPhysAddr, X86HostVirtAddr,
    X86InterruptVector, X86MsrAddr, X86MsrAddrRange, X86Port, X86PortRange, X86VcpuId,
};
pub use host::X86VlapicHostOps;

/// What a call gives that can be refused.
pub type X86VlapicResult<T = ()> = Result<T, X86VlapicError>;

/// A VM's number.
pub type X86VmId = usize;

/// The original's errors, so that a match over them stays whole. The chips give the first three.
#[derive(Clone, Copy, Debug, Eq, PartialEq)]
pub enum X86VlapicError {
    /// An argument that isn't valid, or a register that can't be used so; and what the original panics at.
    InvalidInput,
    /// An interrupt command's delivery mode, or the destination format's model.
    InvalidData,
    /// An access width, or a port that the pair doesn't have.
    Unsupported,
    /// Never given here: nothing is allocated.
    NoMemory,
    /// Never given here.
    BadState,
    /// Never given here: there are no timers.
    TimerUnavailable,
}

impl From<crate::X86VlapicError> for X86VlapicError {
    fn from(error: crate::X86VlapicError) -> Self {
        match error {
            crate::X86VlapicError::Unsupported => Self::Unsupported,
            crate::X86VlapicError::InvalidData => Self::InvalidData,
            _ => Self::InvalidInput,
        }
    }
}

access_width!(X86VlapicError);

impl From<X86AccessWidth> for crate::X86AccessWidth {
    fn from(width: X86AccessWidth) -> Self {
        match width {
            X86AccessWidth::Byte => Self::Byte,
            X86AccessWidth::Word => Self::Word,
            X86AccessWidth::Dword => Self::Dword,
            X86AccessWidth::Qword => Self::Qword,
        }
    }
}

/// The host's side.
pub mod host {
    use super::{X86InterruptVector, X86VcpuId, X86VlapicError, X86VlapicResult, X86VmId};

    /// What a local APIC asks of its host. The original's own trait isn't among the files that it came with: these are
    /// the questions that those files ask.
    ///
    /// Three are asked. The others have an answer already, and are here so that a host which has them is taken.
    pub trait X86VlapicHostOps: 'static {
        /// How many vCPUs the VM has whose vCPU runs: 64 at most.
        fn vcpu_num() -> usize;
        /// Which of them are active: bit n is vCPU n.
        fn active_vcpus() -> usize;
        /// Injects an interrupt that a guest's command sends. As in the original, nobody hears of an error.
        fn inject_interrupt(vcpu_id: X86VcpuId, vector: X86InterruptVector) -> X86VlapicResult;
        /// Never asked: the other questions are about the VM whose vCPU runs.
        fn current_vm_id() -> X86VmId {
            0
        }
        /// Never asked: there is no PIT.
        fn inject_pit_irq(_vm_id: X86VmId, _vcpu_id: X86VcpuId) -> X86VlapicResult {
            Err(X86VlapicError::Unsupported)
        }
        /// Never asked: there are no timers.
        fn current_time_nanos() -> u64 {
            0
        }
    }
}

const IOAPIC_BASE: usize = 0xfec0_0000;
const IOAPIC_SIZE: usize = 0x1000;
const IOAPIC_VERSION: u64 = 0x11;

/// A 24-line I/O APIC of version 0x11, by `&self`.
pub struct EmulatedIoApic {
    base: X86GuestPhysAddr,
    size: usize,
    chip: Locked<crate::EmulatedIoApic11>,
}

impl EmulatedIoApic {
    /// An I/O APIC at a base address, of 0x1000 bytes where no size is given.
    pub fn new(base: X86GuestPhysAddr, size: Option<usize>) -> Self {
        let size = size.unwrap_or(IOAPIC_SIZE);
        let mut words = [0; IOAPIC_WORDS];
        // The archive refuses a range that doesn't fit; the original panics when it is asked for it. So the range is
        // this type's own, and the chip's, which goes by its base alone, ends where numbers do.
        let fits = size.min(usize::MAX - base.as_usize());
        let code = sillwander_ioapic_new_version(&mut words, base.as_usize() as u64, fits as u64, IOAPIC_VERSION);
        debug_assert!(code == 0, "there is such a version, and the range fits");
        let chip = crate::EmulatedIoApic11::from_words(words).expect("a new I/O APIC of this version");
        Self { base, size, chip: Locked::new(chip) }
    }

    /// An I/O APIC at the PC's address, 0xfec00000.
    pub fn new_default() -> Self {
        Self::new(X86GuestPhysAddr::from_usize(IOAPIC_BASE), Some(IOAPIC_SIZE))
    }

    /// The vector programmed for a line. None where its entry is masked, isn't of fixed delivery or has a vector below 16,
    /// and from line 24 up.
    pub fn vector_for_gsi(&self, gsi: usize) -> Option<u8> {
        self.chip.with(|chip| chip.vector_for_gsi(gsi))
    }

    /// Sends a line's interrupt, its level left as it is. None where nothing is to be injected.
    pub fn assert_gsi(&self, gsi: usize) -> Option<IoApicInterrupt> {
        self.chip.with(|chip| chip.assert_gsi(gsi))
    }

    /// Moves a line up or down. None where nothing is to be injected.
    pub fn set_gsi_level(&self, gsi: usize, asserted: bool) -> Option<IoApicInterrupt> {
        self.chip.with(|chip| chip.set_gsi_level(gsi, asserted))
    }

    /// An EOI broadcast of the local APIC. None where no line in flight has the vector.
    pub fn end_of_interrupt(&self, vector: u8) -> Option<IoApicEoi> {
        self.chip.with(|chip| chip.end_of_interrupt(vector))
    }

    /// The addresses at which the I/O APIC is. As in the original, a base and size whose sum doesn't fit panic here.
    pub fn address_range(&self) -> X86GuestPhysAddrRange {
        X86GuestPhysAddrRange::new(self.base, X86GuestPhysAddr::from_usize(self.base.as_usize() + self.size))
    }

    /// A memory read.
    pub fn handle_read(&self, addr: X86GuestPhysAddr, width: X86AccessWidth) -> X86VlapicResult<usize> {
        Ok(self.chip.with(|chip| chip.handle_read(addr, width.into()))?)
    }

    /// A memory write, of the value's low 32 bits.
    pub fn handle_write(&self, addr: X86GuestPhysAddr, width: X86AccessWidth, val: usize) -> X86VlapicResult {
        Ok(self.chip.with(|chip| chip.handle_write(addr, width.into(), val))?)
    }
}

impl Default for EmulatedIoApic {
    fn default() -> Self {
        Self::new_default()
    }
}

/// The state at this moment. The original has no text.
impl Debug for EmulatedIoApic {
    fn fmt(&self, f: &mut Formatter<'_>) -> core::fmt::Result {
        crate::vioapic::said("EmulatedIoApic", &self.chip.with(|chip| chip.to_words()), f)
    }
}

/// A PC's two 8259s by `&self`: the master's lines are 0 to 7, the slave's 8 to 15.
pub struct EmulatedPic {
    /// Nothing until the first call: a pair can be made in a constant, where the archive can't be called.
    pair: Locked<Option<crate::EmulatedPic>>,
}

impl EmulatedPic {
    /// A new pair, every line masked.
    pub const fn new() -> Self {
        Self { pair: Locked::new(None) }
    }

    fn with<R>(&self, call: impl FnOnce(&mut crate::EmulatedPic) -> R) -> R {
        self.pair.with(|pair| call(pair.get_or_insert_with(|| crate::EmulatedPic::new_rule(PicRule::Latch))))
    }

    /// The command and data port of the master, and of the slave; a test holds them against the archive's.
    pub const fn port_ranges() -> [X86PortRange; 2] {
        [X86PortRange::new(X86Port::new(0x20), X86Port::new(0x21)), X86PortRange::new(X86Port::new(0xa0), X86Port::new(0xa1))]
    }

    /// An edge on a line, and the vector that can then be delivered. Such a one can't be restored.
    pub fn pulse_irq(&self, irq: u8) -> Option<u8> {
        self.with(|pair| pair.pulse_irq(irq))
    }

    /// The vector that can be delivered after a change of the pair. Such a one can't be restored.
    pub fn next_interrupt(&self) -> Option<u8> {
        self.with(|pair| pair.next_interrupt())
    }

    /// An edge on a line, and a claim of what can then be delivered. A line from 16 up does nothing.
    pub fn claim_irq(&self, irq: u8) -> Option<PicInterruptClaim> {
        self.with(|pair| pair.claim_irq(irq))
    }

    /// A claim of what can be delivered after a change of the pair.
    pub fn claim_pending_interrupt(&self) -> Option<PicInterruptClaim> {
        self.with(|pair| pair.claim_pending_interrupt())
    }

    /// Restores a claim whose vector couldn't be published.
    pub fn restore_interrupt(&self, claim: PicInterruptClaim) {
        self.with(|pair| pair.restore_interrupt(claim));
    }

    /// A port read, one byte wide.
    pub fn handle_read(&self, port: X86Port, width: X86AccessWidth) -> X86VlapicResult<usize> {
        Ok(self.with(|pair| pair.handle_read(port, width.into()))?)
    }

    /// A port write, one byte wide.
    pub fn handle_write(&self, port: X86Port, width: X86AccessWidth, value: usize) -> X86VlapicResult {
        Ok(self.with(|pair| pair.handle_write(port, width.into(), value))?)
    }
}

impl Default for EmulatedPic {
    fn default() -> Self {
        Self::new()
    }
}

/// The state at this moment. The original has no text.
impl Debug for EmulatedPic {
    fn fmt(&self, f: &mut Formatter<'_>) -> core::fmt::Result {
        crate::EmulatedPic::from_words(self.with(|pair| pair.to_words())).fmt(f)
    }
}

const APIC_BASE: u64 = 0xfee0_0000;
const APIC_BASE_ENABLE: u64 = 1 << 11;
const APIC_BASE_X2APIC_ENABLE: u64 = 1 << 10;
const APIC_BASE_BSP: u64 = 1 << 8;
const PAGE_SIZE: usize = 0x1000;
const ICR_MSR: X86MsrAddr = X86MsrAddr::new(MSR_BASE + ICR / 0x10);

/// One vCPU's local APIC, by `&self`. What a guest's interrupt command sends goes to the host `H`: a fixed interrupt to
/// each vCPU, from the lowest up. NMI, INIT and startup are dropped, as the original drops them;
/// [`crate::EmulatedLocalApic`] answers them.
pub struct EmulatedLocalApic<H: X86VlapicHostOps> {
    local: Locked<Local>,
    host: PhantomData<fn() -> H>,
}

struct Local {
    apic: crate::EmulatedLocalApic,
    base: u64,
}

impl Local {
    fn is_x2apic(&self) -> bool {
        const BOTH: u64 = APIC_BASE_ENABLE | APIC_BASE_X2APIC_ENABLE;
        self.base & BOTH == BOTH
    }
}

impl<H: X86VlapicHostOps> EmulatedLocalApic<H> {
    /// The local APIC of a vCPU, in xAPIC mode. An id above 63 panics; the VM's id isn't looked at.
    pub fn new(_vm_id: X86VmId, vcpu_id: X86VcpuId) -> Self {
        let apic = crate::EmulatedLocalApic::new(false, vcpu_id, 64).expect("a vCPU's id is at most 63");
        let base = APIC_BASE | APIC_BASE_ENABLE | if vcpu_id == 0 { APIC_BASE_BSP } else { 0 };
        Self { local: Locked::new(Local { apic, base }), host: PhantomData }
    }

    /// What IA32_APIC_BASE reads.
    pub fn apic_base(&self) -> u64 {
        self.local.with(|local| local.base)
    }

    /// A write of IA32_APIC_BASE: bits 11 and 10 choose x2APIC mode, and no register changes, as in the original. The
    /// archive has no call for it: what docs/PROMISES.md says of states that calls made doesn't reach over a change of
    /// mode. [`InvalidInput`](X86VlapicError::InvalidInput) for bit 10 without bit 11.
    pub fn set_apic_base(&self, value: u64) -> X86VlapicResult {
        if value & APIC_BASE_X2APIC_ENABLE != 0 && value & APIC_BASE_ENABLE == 0 {
            return Err(X86VlapicError::InvalidInput);
        }
        self.local.with(|local| {
            local.base = value;
            let mut words = local.apic.to_words();
            words[0] = local.is_x2apic().into();
            local.apic = crate::EmulatedLocalApic::from_words(words);
        });
        Ok(())
    }

    /// The processor accepted an interrupt.
    pub fn accept_interrupt(&self, vector: u8, level_triggered: bool) {
        self.local.with(|local| local.apic.accept_interrupt(vector, level_triggered));
    }

    /// A guest's EOI: the vector that is broadcast to the I/O APIC, or none.
    pub fn handle_eoi(&self) -> Option<u8> {
        self.local.with(|local| local.apic.handle_eoi())
    }

    /// The addresses of the register page in xAPIC mode.
    pub fn mmio_address_range(&self) -> X86GuestPhysAddrRange {
        self.local.with(|local| local.apic.mmio_address_range())
    }

    /// The registers in x2APIC mode; the last one is the one after them.
    pub fn msr_address_range(&self) -> X86MsrAddrRange {
        self.local.with(|local| local.apic.msr_address_range())
    }

    /// A read by the address in xAPIC mode.
    pub fn handle_mmio_read(&self, addr: X86GuestPhysAddr, width: X86AccessWidth) -> X86VlapicResult<usize> {
        self.read(offset_in_page(addr), width)
    }

    /// A write by the address in xAPIC mode.
    pub fn handle_mmio_write(&self, addr: X86GuestPhysAddr, width: X86AccessWidth, val: usize) -> X86VlapicResult {
        self.write(offset_in_page(addr), width, val)
    }

    /// A read by the register's number in x2APIC mode.
    pub fn handle_msr_read(&self, addr: X86MsrAddr, width: X86AccessWidth) -> X86VlapicResult<usize> {
        self.read(offset_of_msr(addr)?, width)
    }

    /// A write by the register's number in x2APIC mode.
    pub fn handle_msr_write(&self, addr: X86MsrAddr, width: X86AccessWidth, val: usize) -> X86VlapicResult {
        self.write(offset_of_msr(addr)?, width, val)
    }

    /// The interrupt command register is read whole in x2APIC mode, by 8 bytes alone; in xAPIC mode by any other width.
    fn read(&self, offset: usize, width: X86AccessWidth) -> X86VlapicResult<usize> {
        if let Some(value) = read_beside_the_chip(offset) {
            return Ok(value);
        }
        self.local.with(|local| {
            Ok(match offset {
                ICR if local.is_x2apic() => local.apic.handle_msr_read(ICR_MSR, width.into())?,
                ICR if width == X86AccessWidth::Qword => return Err(X86VlapicError::InvalidInput),
                offset => local.apic.handle_read(offset)?,
            })
        })
    }

    /// The host is asked for its vCPUs where the answer goes by them, and is called when the lock is free again.
    fn write(&self, offset: usize, width: X86AccessWidth, val: usize) -> X86VlapicResult {
        let (vcpu_num, active_vcpus) = if offset == ICR { (H::vcpu_num(), H::active_vcpus()) } else { (1, 1) };
        let ipi = self.local.with(|local| local.apic.handle_write(offset, val, width.into(), vcpu_num, active_vcpus as u64))?;
        if let Some(Ipi { kind: IpiKind::Fixed, vector, vcpus }) = ipi {
            for vcpu_id in (0..64).filter(|vcpu_id| vcpus >> vcpu_id & 1 != 0) {
                let _ = H::inject_interrupt(vcpu_id, vector);
            }
        }
        Ok(())
    }
}

/// The state at this moment. The original has no text.
impl<H: X86VlapicHostOps> Debug for EmulatedLocalApic<H> {
    fn fmt(&self, f: &mut Formatter<'_>) -> core::fmt::Result {
        crate::EmulatedLocalApic::from_words(self.local.with(|local| local.apic.to_words())).fmt(f)
    }
}

/// The original's decoding: an address counts modulo the page, and its low 4 bits don't.
fn offset_in_page(addr: X86GuestPhysAddr) -> usize {
    (addr.as_usize() % PAGE_SIZE) & !0xf
}

/// What the original reads from registers that the archive hasn't: its version, and zeros from arbitration priority, EOI,
/// remote read, requests and SELF IPI. Nothing is proved of these.
fn read_beside_the_chip(offset: usize) -> Option<usize> {
    const VERSION: usize = 0x14 | 6 << 16;
    match offset {
        0x30 => Some(VERSION),
        0x90 | 0xb0 | 0xc0 | 0x3f0 => Some(0),
        0x200..=0x270 if offset % 0x10 == 0 => Some(0),
        _ => None,
    }
}

/// tests/rust/drop_in holds the module against the original; here is what the original has no answer for, or another.
#[cfg(test)]
mod tests {
    use super::*;
    use std::format;

    struct Host<const VCPUS: usize = 64>;

    impl<const VCPUS: usize> X86VlapicHostOps for Host<VCPUS> {
        fn vcpu_num() -> usize {
            VCPUS
        }
        fn active_vcpus() -> usize {
            1
        }
        fn inject_interrupt(_vcpu_id: X86VcpuId, _vector: X86InterruptVector) -> X86VlapicResult {
            Ok(())
        }
    }

    const REFUSED: X86VlapicResult = Err(X86VlapicError::InvalidInput);
    const DWORD: X86AccessWidth = X86AccessWidth::Dword;

    fn register(offset: usize) -> X86GuestPhysAddr {
        X86GuestPhysAddr::from_usize(0xfee0_0000 + offset)
    }

    #[test]
    fn ports_are_the_archives() {
        assert_eq!(EmulatedPic::port_ranges(), crate::EmulatedPic::port_ranges());
    }

    #[test]
    fn the_chips_are_the_originals() {
        let (io, pic) = (EmulatedIoApic::default(), EmulatedPic::default());
        assert!(format!("{io:?}").starts_with("EmulatedIoApic { version: 0x11, base: GPA(0xfec00000), "), "{io:?}");
        assert!(format!("{pic:?}").starts_with("EmulatedPic { rule: Latch, "), "{pic:?}");
        let local = EmulatedLocalApic::<Host>::new(0, 3);
        assert!(format!("{local:?}").starts_with("EmulatedLocalApic { x2apic: false, id: 3, "), "{local:?}");
    }

    /// An address below the chip, registers that there aren't, a destination of nobody, more vCPUs than 64.
    #[test]
    fn panics_of_the_original_are_refusals() {
        let io = EmulatedIoApic::new_default();
        let below = X86GuestPhysAddr::from_usize(0xfebf_ffff);
        assert_eq!((io.handle_read(below, DWORD).map(|_| ()), io.handle_write(below, DWORD, 0)), (REFUSED, REFUSED));
        let local = EmulatedLocalApic::<Host>::new(0, 0);
        for offset in [0, 0x40, 0x290, 0x3a0, 0x400, 0xff0] {
            assert_eq!(local.handle_mmio_read(register(offset), DWORD).map(|_| ()), REFUSED);
            assert_eq!(local.handle_mmio_write(register(offset), DWORD, 0), REFUSED);
        }
        assert_eq!(local.handle_msr_read(X86MsrAddr::new(0x7ff), DWORD).map(|_| ()), REFUSED);
        assert_eq!(local.handle_mmio_write(register(0x310), DWORD, 64 << 24), Ok(()));
        assert_eq!(local.handle_mmio_write(register(0x300), DWORD, 0x50), REFUSED);
        assert_eq!(local.handle_mmio_write(register(0x310), DWORD, 0), Ok(()));
        assert_eq!(local.handle_mmio_write(register(0x300), DWORD, 0x50), Ok(()));
        let crowded = EmulatedLocalApic::<Host<65>>::new(0, 0);
        assert_eq!(crowded.handle_mmio_write(register(0x300), DWORD, 0x50), REFUSED);
    }

    /// rust/sillwander/README.md's list.
    #[test]
    fn what_answers_otherwise() {
        let local = EmulatedLocalApic::<Host>::new(0, 3);
        let read = |offset| local.handle_mmio_read(register(offset), DWORD);
        assert_eq!((read(0xe0), read(0xf0)), (Ok(0xffff_ffff), Ok(0xff)));
        for timer in [0x380, 0x390, 0x3e0] {
            assert_eq!((read(timer).map(|_| ()), local.handle_mmio_write(register(timer), DWORD, 1)), (REFUSED, REFUSED));
        }
        let write = |offset, value| local.handle_mmio_write(register(offset), DWORD, value);
        assert_eq!((write(0xf0, 0x1ff), write(0x350, 0x30), write(0xf0, 0xff), read(0x350)), (Ok(()), Ok(()), Ok(()), Ok(0x30)));
        for reserved in [0x350, 0x750] {
            assert_eq!(write(0x300, reserved), Err(X86VlapicError::InvalidData));
        }
        assert_eq!(local.set_apic_base(0xfee0_0c00), Ok(()));
        assert_eq!((read(0x20), write(0xd0, 1), write(0xe0, 1)), (Ok(3), REFUSED, REFUSED));
    }

    #[test]
    #[should_panic(expected = "a vCPU's id is at most 63")]
    fn there_is_no_vcpu_64() {
        EmulatedLocalApic::<Host>::new(0, 64);
    }
}
