//! The sides behind the same calls, so that a row's caller (rows.rs) and the reader of scripts (reader.rs) are written
//! once for all of them: the original; the archives' functions on lent words, as C calls them; the Rust crate; and the
//! Rust crate behind its lock.
//!
//! An answer is told in numbers. What takes it apart is each side's own, and is counted: the original's caller looks
//! into an `Option` or a `Result`, C's into a code.
#![allow(dead_code, reason = "each program uses a part")]

#[path = "../rust/sillwander/src/archives.rs"]
mod archives;
// What the declarations name of the crate.
mod vcpus {
    pub use sillwander::Vcpu;
}

use crate::host::Host;
use archives::*;
pub use sillwander::Locked;
use std::{arch::asm, hint::black_box, marker::PhantomData};
use x86_vlapic::X86VlapicHostOps;

pub const SELECT: u64 = 0xfec0_0000;
pub const WINDOW: u64 = 0xfec0_0010;
const LOCAL: u64 = 0xfee0_0000;

/// Why a call was refused, as its side says it.
pub trait Refusal {
    /// Document 01's refusal number.
    fn number(self) -> u8;
}

/// The width of an access, in bytes.
#[derive(Clone, Copy)]
pub enum Width {
    Byte = 1,
    Word = 2,
    Dword = 4,
    Qword = 8,
}

/// A chip that is lent for one call: as it is, or behind its lock.
trait Lend<T> {
    fn lend<R>(&mut self, call: impl FnOnce(&mut T) -> R) -> R;
}

pub struct Plain<T>(pub T);

impl<T> Lend<T> for Plain<T> {
    /// No instruction, but the compiler doesn't know what was in the chip: so that no two calls are compiled as one.
    #[inline(always)]
    fn lend<R>(&mut self, call: impl FnOnce(&mut T) -> R) -> R {
        let mut chip: *mut T = &mut self.0;
        // SAFETY: there is no instruction, so that the pointer stays as it is.
        call(unsafe {
            asm!("# {}", inout(reg) chip, options(nostack, preserves_flags));
            &mut *chip
        })
    }
}

impl<T> Lend<T> for Locked<T> {
    #[inline(always)]
    fn lend<R>(&mut self, call: impl FnOnce(&mut T) -> R) -> R {
        self.with(call)
    }
}

// ---- codes, as include/sillwander.h describes them

/// Two values, each of a byte.
#[inline(always)]
fn of_two(code: u64) -> [u64; 2] {
    [code & 0xff, code >> 24 & 0xff]
}

/// The one value, or the first, where it is a byte.
#[inline(always)]
fn byte(code: u64) -> Option<[u64; 1]> {
    (code != 0).then_some([code & 0xff])
}

/// The code of a refused call.
struct Refused(u64);

impl Refusal for Refused {
    fn number(self) -> u8 {
        (self.0 >> 56) as u8
    }
}

#[inline(always)]
fn done(code: u64) -> Result<u64, Refused> {
    if code >> 56 == 0 { Ok(code) } else { Err(Refused(code)) }
}

#[inline(always)]
fn wrote(code: u64) -> Result<[u64; 0], Refused> {
    done(code).map(|_| [])
}

#[inline(always)]
fn read(code: u64) -> Result<[u64; 1], Refused> {
    done(code).map(|code| [code & 0xffff_ffff])
}

// ---- the two crates' own types

impl Refusal for x86_vlapic::X86VlapicError {
    fn number(self) -> u8 {
        match self {
            Self::Unsupported => 1,
            Self::InvalidInput => 2,
            _ => 3,
        }
    }
}

impl Refusal for sillwander::X86VlapicError {
    fn number(self) -> u8 {
        self.number()
    }
}

macro_rules! types_of {
    ($krate:ident) => {
        impl From<Width> for $krate::X86AccessWidth {
            #[inline(always)]
            fn from(width: Width) -> Self {
                match width {
                    Width::Byte => Self::Byte,
                    Width::Word => Self::Word,
                    Width::Dword => Self::Dword,
                    Width::Qword => Self::Qword,
                }
            }
        }

        impl From<$krate::IoApicEoi> for Line {
            #[inline(always)]
            fn from(eoi: $krate::IoApicEoi) -> Self {
                Self { line: eoi.gsi as u64, sent: eoi.pending.map(|sent| [sent.vector.into(), sent.level_triggered.into()]) }
            }
        }
    };
}
types_of!(x86_vlapic);
types_of!(sillwander);

// ---- the I/O APIC

/// What an EOI answers in version 0x11: the line that it ended, and the vector and level that it sends again.
pub struct Line {
    pub line: u64,
    pub sent: Option<[u64; 2]>,
}

/// What an EOI answers in version 0x20: the lines that it ended, and those that it sends again.
pub struct Lines {
    pub ended: u64,
    pub sent: u64,
}

/// What an EOI answers, by version.
pub trait Ended: Sized {
    const VERSION: u64;
    fn of(code: u64) -> Option<Self>;
}

impl Ended for Line {
    const VERSION: u64 = 0x11;
    #[inline(always)]
    fn of(code: u64) -> Option<Self> {
        let sent = || [code >> 16 & 0xff, code >> 32 & 0xff];
        (code != 0).then(|| Self { line: code & 0xff, sent: (code >> 48 == 3).then(sent) })
    }
}

impl Ended for Lines {
    const VERSION: u64 = 0x20;
    #[inline(always)]
    fn of(code: u64) -> Option<Self> {
        (code != 0).then_some(Self { ended: code & 0xff_ffff, sent: code >> 24 & 0xff_ffff })
    }
}

impl From<sillwander::IoApicEois> for Lines {
    #[inline(always)]
    fn from(eois: sillwander::IoApicEois) -> Self {
        Self { ended: eois.cleared.into(), sent: eois.sent.into() }
    }
}

/// What a write answers, and what of it is sent.
trait Sends {
    fn sent(self) -> Option<[u64; 2]>;
}

impl Sends for () {
    #[inline(always)]
    fn sent(self) -> Option<[u64; 2]> {
        None
    }
}

impl Sends for sillwander::IoApicWritten {
    #[inline(always)]
    fn sent(self) -> Option<[u64; 2]> {
        match self {
            Self::Sent(sent) => Some([sent.vector.into(), sent.level_triggered.into()]),
            Self::Done | Self::Ended(_) => None,
        }
    }
}

pub trait Io {
    type Ended: Ended;

    /// Vector and level.
    fn set_level(&mut self, gsi: u64, is_up: bool) -> Option<[u64; 2]>;
    fn assert(&mut self, gsi: u64) -> Option<[u64; 2]>;
    fn eoi(&mut self, vector: u64) -> Option<Self::Ended>;
    fn vector_for(&mut self, gsi: u64) -> Option<[u64; 1]>;
    fn range(&mut self) -> [u64; 2];
    fn read(&mut self, addr: u64, width: Width) -> Result<[u64; 1], impl Refusal>;
    fn write(&mut self, addr: u64, width: Width, value: u64) -> Result<[u64; 0], impl Refusal>;
    /// A write of the window, and what it sends, vector and level: in version 0x20 alone it may.
    fn open(&mut self, value: u64) -> Option<[u64; 2]>;
    /// A new chip in the place of this one.
    fn renew(&mut self);

    /// Registers, and what the guest writes to them.
    fn program(&mut self, setup: &[(u64, u64)]) {
        for (register, word) in setup {
            for (addr, value) in [(SELECT, register), (WINDOW, word)] {
                self.write(addr, Width::Dword, *value).ok().expect("the window takes it");
            }
        }
    }
}

/// The words of an I/O APIC, of the version whose EOI answers so.
pub struct IoWords<E>([u64; IOAPIC_WORDS], PhantomData<E>);

impl<E: Ended> IoWords<E> {
    pub fn new() -> Self {
        let mut io = Self([0; IOAPIC_WORDS], PhantomData);
        io.renew();
        io
    }
}

impl<E: Ended> Io for IoWords<E> {
    type Ended = E;

    #[inline(always)]
    fn set_level(&mut self, gsi: u64, is_up: bool) -> Option<[u64; 2]> {
        let code = sillwander_ioapic_set_gsi_level(&mut self.0, gsi, is_up.into());
        (code != 0).then(|| of_two(code))
    }
    #[inline(always)]
    fn assert(&mut self, gsi: u64) -> Option<[u64; 2]> {
        let code = sillwander_ioapic_assert_gsi(&mut self.0, gsi);
        (code != 0).then(|| of_two(code))
    }
    #[inline(always)]
    fn eoi(&mut self, vector: u64) -> Option<E> {
        E::of(sillwander_ioapic_end_of_interrupt(&mut self.0, vector))
    }
    #[inline(always)]
    fn vector_for(&mut self, gsi: u64) -> Option<[u64; 1]> {
        byte(sillwander_ioapic_vector_for_gsi(&self.0, gsi))
    }
    #[inline(always)]
    fn range(&mut self) -> [u64; 2] {
        let mut range = [0; 2];
        sillwander_ioapic_address_range(&self.0, &mut range);
        range
    }
    #[inline(always)]
    fn read(&mut self, addr: u64, width: Width) -> Result<[u64; 1], impl Refusal> {
        read(sillwander_ioapic_handle_read(&self.0, addr, width as u64))
    }
    #[inline(always)]
    fn write(&mut self, addr: u64, width: Width, value: u64) -> Result<[u64; 0], impl Refusal> {
        wrote(sillwander_ioapic_handle_write(&mut self.0, addr, width as u64, value))
    }
    #[inline(always)]
    fn open(&mut self, value: u64) -> Option<[u64; 2]> {
        let code = sillwander_ioapic_handle_write(&mut self.0, WINDOW, Width::Dword as u64, value);
        (code != 0).then(|| of_two(code))
    }
    #[inline(always)]
    fn renew(&mut self) {
        sillwander_ioapic_new_default_version(black_box(&mut self.0), E::VERSION);
    }
}

macro_rules! io_of_crate {
    ($($holder:ident<$krate:ident::$chip:ident>, $ended:ty;)*) => {$(
        impl Io for $holder<$krate::$chip> {
            type Ended = $ended;

            #[inline(always)]
            fn set_level(&mut self, gsi: u64, is_up: bool) -> Option<[u64; 2]> {
                let sent = self.lend(|io| io.set_gsi_level(gsi as usize, is_up));
                sent.map(|sent| [sent.vector.into(), sent.level_triggered.into()])
            }
            #[inline(always)]
            fn assert(&mut self, gsi: u64) -> Option<[u64; 2]> {
                let sent = self.lend(|io| io.assert_gsi(gsi as usize));
                sent.map(|sent| [sent.vector.into(), sent.level_triggered.into()])
            }
            #[inline(always)]
            fn eoi(&mut self, vector: u64) -> Option<$ended> {
                self.lend(|io| io.end_of_interrupt(vector as u8)).map(<$ended>::from)
            }
            #[inline(always)]
            fn vector_for(&mut self, gsi: u64) -> Option<[u64; 1]> {
                self.lend(|io| io.vector_for_gsi(gsi as usize)).map(|vector| [vector.into()])
            }
            #[inline(always)]
            fn range(&mut self) -> [u64; 2] {
                let range = self.lend(|io| io.address_range());
                [range.start.as_usize() as u64, range.end.as_usize() as u64]
            }
            #[inline(always)]
            fn read(&mut self, addr: u64, width: Width) -> Result<[u64; 1], impl Refusal> {
                let read = self.lend(|io| io.handle_read((addr as usize).into(), width.into()));
                read.map(|value| [value as u64])
            }
            #[inline(always)]
            fn write(&mut self, addr: u64, width: Width, value: u64) -> Result<[u64; 0], impl Refusal> {
                let wrote = self.lend(|io| io.handle_write((addr as usize).into(), width.into(), value as usize));
                wrote.map(|_| [])
            }
            #[inline(always)]
            fn open(&mut self, value: u64) -> Option<[u64; 2]> {
                let wrote = self.lend(|io| io.handle_write((WINDOW as usize).into(), Width::Dword.into(), value as usize));
                wrote.ok().and_then(Sends::sent)
            }
            #[inline(always)]
            fn renew(&mut self) {
                self.lend(|io| *black_box(io) = $krate::$chip::new_default());
            }
        }
    )*};
}
io_of_crate! {
    Plain<x86_vlapic::EmulatedIoApic>, Line;
    Plain<sillwander::EmulatedIoApic11>, Line;
    Locked<sillwander::EmulatedIoApic11>, Line;
    Plain<sillwander::EmulatedIoApic20>, Lines;
    Locked<sillwander::EmulatedIoApic20>, Lines;
}

// ---- the pair

pub trait Pic {
    /// What a claim answers, to be restored.
    type Claim;

    fn claim(&mut self, irq: u64) -> Option<Self::Claim>;
    fn claim_pending(&mut self) -> Option<Self::Claim>;
    fn vector(claim: &Self::Claim) -> u64;
    fn restore(&mut self, claim: Self::Claim);
    fn pulse(&mut self, irq: u64) -> Option<[u64; 1]>;
    fn next(&mut self) -> Option<[u64; 1]>;
    fn read(&mut self, port: u64, width: Width) -> Result<[u64; 1], impl Refusal>;
    fn write(&mut self, port: u64, width: Width, value: u64) -> Result<[u64; 0], impl Refusal>;
    /// A new pair of rule 0 in the place of this one.
    fn renew(&mut self);

    /// Ports, and what the guest writes to them.
    fn program(&mut self, setup: &[(u64, u64)]) {
        for (port, byte) in setup {
            self.write(*port, Width::Byte, *byte).ok().expect("the port takes it");
        }
    }
}

pub struct PicWords([u64; PIC_WORDS]);

impl PicWords {
    pub fn new(rule: u64) -> Self {
        let mut words = [0; PIC_WORDS];
        sillwander_pic_new_rule(&mut words, rule);
        Self(words)
    }
}

impl Pic for PicWords {
    type Claim = u64;

    #[inline(always)]
    fn claim(&mut self, irq: u64) -> Option<u64> {
        let code = sillwander_pic_claim_irq(&mut self.0, irq);
        (code != 0).then_some(code)
    }
    #[inline(always)]
    fn claim_pending(&mut self) -> Option<u64> {
        let code = sillwander_pic_claim_pending_interrupt(&mut self.0);
        (code != 0).then_some(code)
    }
    #[inline(always)]
    fn vector(claim: &u64) -> u64 {
        claim & 0xff
    }
    #[inline(always)]
    fn restore(&mut self, claim: u64) {
        sillwander_pic_restore_interrupt(&mut self.0, claim);
    }
    #[inline(always)]
    fn pulse(&mut self, irq: u64) -> Option<[u64; 1]> {
        byte(sillwander_pic_pulse_irq(&mut self.0, irq))
    }
    #[inline(always)]
    fn next(&mut self) -> Option<[u64; 1]> {
        byte(sillwander_pic_next_interrupt(&mut self.0))
    }
    #[inline(always)]
    fn read(&mut self, port: u64, width: Width) -> Result<[u64; 1], impl Refusal> {
        read(sillwander_pic_handle_read(&mut self.0, port, width as u64))
    }
    #[inline(always)]
    fn write(&mut self, port: u64, width: Width, value: u64) -> Result<[u64; 0], impl Refusal> {
        wrote(sillwander_pic_handle_write(&mut self.0, port, width as u64, value))
    }
    #[inline(always)]
    fn renew(&mut self) {
        sillwander_pic_new_rule(black_box(&mut self.0), 0);
    }
}

macro_rules! pic_of_crate {
    ($($holder:ident<$krate:ident>, $new:expr;)*) => {$(
        impl Pic for $holder<$krate::EmulatedPic> {
            type Claim = $krate::PicInterruptClaim;

            #[inline(always)]
            fn claim(&mut self, irq: u64) -> Option<Self::Claim> {
                self.lend(|pic| pic.claim_irq(irq as u8))
            }
            #[inline(always)]
            fn claim_pending(&mut self) -> Option<Self::Claim> {
                self.lend(|pic| pic.claim_pending_interrupt())
            }
            #[inline(always)]
            fn vector(claim: &Self::Claim) -> u64 {
                claim.vector().into()
            }
            #[inline(always)]
            fn restore(&mut self, claim: Self::Claim) {
                self.lend(|pic| pic.restore_interrupt(claim));
            }
            #[inline(always)]
            fn pulse(&mut self, irq: u64) -> Option<[u64; 1]> {
                self.lend(|pic| pic.pulse_irq(irq as u8)).map(|vector| [vector.into()])
            }
            #[inline(always)]
            fn next(&mut self) -> Option<[u64; 1]> {
                self.lend(|pic| pic.next_interrupt()).map(|vector| [vector.into()])
            }
            #[inline(always)]
            fn read(&mut self, port: u64, width: Width) -> Result<[u64; 1], impl Refusal> {
                let read = self.lend(|pic| pic.handle_read((port as u16).into(), width.into()));
                read.map(|value| [value as u64])
            }
            #[inline(always)]
            fn write(&mut self, port: u64, width: Width, value: u64) -> Result<[u64; 0], impl Refusal> {
                let wrote = self.lend(|pic| pic.handle_write((port as u16).into(), width.into(), value as usize));
                wrote.map(|()| [])
            }
            #[inline(always)]
            fn renew(&mut self) {
                self.lend(|pic| *black_box(pic) = $new);
            }
        }
    )*};
}
pic_of_crate! {
    Plain<x86_vlapic>, x86_vlapic::EmulatedPic::new();
    Plain<sillwander>, sillwander::EmulatedPic::new_rule(sillwander::PicRule::Latch);
    Locked<sillwander>, sillwander::EmulatedPic::new_rule(sillwander::PicRule::Latch);
}

// ---- the local APIC

/// A local APIC in xAPIC mode. Its vCPUs are the host's: the original asks for them, and ours is told.
pub trait Local<const HOST: u8> {
    fn accept(&mut self, vector: u64, level: bool);
    fn eoi(&mut self) -> Option<[u64; 1]>;
    fn read(&mut self, offset: u64) -> Result<[u64; 1], impl Refusal>;
    /// The IPI that is still to be injected: kind, vector and vCPUs.
    fn write(&mut self, offset: u64, width: Width, value: u64) -> Result<Option<[u64; 3]>, impl Refusal>;
    /// Another vCPU's local APIC in the place of this one.
    fn setup(&mut self, id: u64, count: u64) -> Result<[u64; 0], impl Refusal>;

    /// Offsets, and what the guest writes to them.
    fn program(&mut self, setup: &[(u64, u64)]) {
        for (offset, word) in setup {
            self.write(*offset, Width::Dword, *word).ok().expect("the register takes it");
        }
    }
}

/// The same number, of which the compiler doesn't know that it is the same. The original's local APIC is generic, and
/// so compiled with its caller: what it works out of a number would be worked out once, before a row's loop.
#[inline(always)]
fn unknown(mut number: u64) -> u64 {
    // SAFETY: there is no instruction.
    unsafe { asm!("# {}", inout(reg) number, options(nomem, nostack, preserves_flags)) }
    number
}

impl<const HOST: u8> Local<HOST> for Plain<x86_vlapic::EmulatedLocalApic<Host<HOST>>> {
    #[inline(always)]
    fn accept(&mut self, vector: u64, level: bool) {
        self.lend(|local| local.accept_interrupt(unknown(vector) as u8, level));
    }
    #[inline(always)]
    fn eoi(&mut self) -> Option<[u64; 1]> {
        self.lend(|local| local.handle_eoi()).map(|vector| [vector.into()])
    }
    #[inline(always)]
    fn read(&mut self, offset: u64) -> Result<[u64; 1], impl Refusal> {
        let read = self.lend(|local| local.handle_mmio_read(((LOCAL + offset) as usize).into(), Width::Dword.into()));
        read.map(|value| [value as u64])
    }
    #[inline(always)]
    fn write(&mut self, offset: u64, width: Width, value: u64) -> Result<Option<[u64; 3]>, impl Refusal> {
        let wrote = self.lend(|local| local.handle_mmio_write(((LOCAL + offset) as usize).into(), width.into(), value as usize));
        wrote.map(|()| Host::<HOST>::kept())
    }
    fn setup(&mut self, id: u64, _count: u64) -> Result<[u64; 0], impl Refusal> {
        self.0 = x86_vlapic::EmulatedLocalApic::new(0, id as usize);
        Ok::<_, x86_vlapic::X86VlapicError>([])
    }
}

pub struct LocalWords([u64; LAPIC_WORDS]);

impl LocalWords {
    pub fn new(id: u64, count: u64) -> Self {
        let mut words = [0; LAPIC_WORDS];
        sillwander_lapic_setup(&mut words, 0, id, count);
        Self(words)
    }
}

impl<const HOST: u8> Local<HOST> for LocalWords {
    #[inline(always)]
    fn accept(&mut self, vector: u64, level: bool) {
        sillwander_lapic_accept_interrupt(&mut self.0, vector, level.into());
    }
    #[inline(always)]
    fn eoi(&mut self) -> Option<[u64; 1]> {
        byte(sillwander_lapic_handle_eoi(&mut self.0))
    }
    #[inline(always)]
    fn read(&mut self, offset: u64) -> Result<[u64; 1], impl Refusal> {
        read(sillwander_lapic_handle_read(&self.0, offset))
    }
    #[inline(always)]
    fn write(&mut self, offset: u64, width: Width, value: u64) -> Result<Option<[u64; 3]>, impl Refusal> {
        let (vcpus, active) = (Host::<HOST>::vcpu_num() as u64, Host::<HOST>::active_vcpus() as u64);
        let mut ipi = [0];
        let code = sillwander_lapic_handle_write(&mut self.0, offset, value, width as u64, vcpus, active, &mut ipi);
        let [kind, vector] = of_two(code);
        done(code).map(|code| (code >> 48 == 2).then_some([kind, vector, ipi[0]]))
    }
    fn setup(&mut self, id: u64, count: u64) -> Result<[u64; 0], impl Refusal> {
        wrote(sillwander_lapic_setup(&mut self.0, 0, id, count))
    }
}

impl<const HOST: u8, L: Lend<sillwander::EmulatedLocalApic>> Local<HOST> for L {
    #[inline(always)]
    fn accept(&mut self, vector: u64, level: bool) {
        self.lend(|local| local.accept_interrupt(vector as u8, level));
    }
    #[inline(always)]
    fn eoi(&mut self) -> Option<[u64; 1]> {
        self.lend(|local| local.handle_eoi()).map(|vector| [vector.into()])
    }
    #[inline(always)]
    fn read(&mut self, offset: u64) -> Result<[u64; 1], impl Refusal> {
        let read = self.lend(|local| local.handle_read(offset as usize));
        read.map(|value| [value as u64])
    }
    #[inline(always)]
    fn write(&mut self, offset: u64, width: Width, value: u64) -> Result<Option<[u64; 3]>, impl Refusal> {
        let (vcpus, active) = (Host::<HOST>::vcpu_num(), Host::<HOST>::active_vcpus() as u64);
        let wrote = self.lend(|local| local.handle_write(offset as usize, value as usize, width.into(), vcpus, active));
        wrote.map(|ipi| ipi.map(|ipi| [ipi.kind as u64, ipi.vector.into(), ipi.vcpus]))
    }
    fn setup(&mut self, id: u64, count: u64) -> Result<[u64; 0], impl Refusal> {
        let made = sillwander::EmulatedLocalApic::new(false, id as usize, count as usize);
        made.map(|local| self.lend(|old| *old = local)).map(|()| [])
    }
}

// ---- the board

/// A whole board. The original has none: beside it stand its I/O APIC and its local APIC, called in turn by a host that keeps what was sent until the processor accepts it.
pub trait Board {
    type Ended: Ended;

    /// Vector and level.
    fn set_level(&mut self, gsi: u64, is_up: bool) -> Option<[u64; 2]>;
    /// The vector that is in service then.
    fn accept(&mut self) -> Option<[u64; 1]>;
    fn eoi(&mut self) -> Option<Self::Ended>;
    fn write(&mut self, addr: u64, value: u64);

    /// Registers of the I/O APIC, and what the guest writes to them.
    fn program(&mut self, setup: &[(u64, u64)]) {
        for (register, word) in setup {
            self.write(SELECT, *register);
            self.write(WINDOW, *word);
        }
    }
}

/// The original's two chips, and what the host keeps: vector and level.
pub struct InTurn {
    io: Plain<x86_vlapic::EmulatedIoApic>,
    local: Plain<x86_vlapic::EmulatedLocalApic<Host<{ crate::host::SUMS }>>>,
    sent: Option<[u64; 2]>,
}

impl InTurn {
    pub fn new() -> Self {
        Self { io: Plain(x86_vlapic::EmulatedIoApic::new_default()), local: Plain(x86_vlapic::EmulatedLocalApic::new(0, 1)), sent: None }
    }
}

impl Board for Plain<InTurn> {
    type Ended = Line;

    #[inline(always)]
    fn set_level(&mut self, gsi: u64, is_up: bool) -> Option<[u64; 2]> {
        let sent = self.0.io.set_level(gsi, is_up);
        if sent.is_some() {
            self.0.sent = sent;
        }
        sent
    }
    #[inline(always)]
    fn accept(&mut self) -> Option<[u64; 1]> {
        let [vector, level] = self.0.sent.take()?;
        self.0.local.accept(vector, level != 0);
        Some([vector])
    }
    #[inline(always)]
    fn eoi(&mut self) -> Option<Line> {
        let [vector] = self.0.local.eoi()?;
        let ended = self.0.io.eoi(vector)?;
        if ended.sent.is_some() {
            self.0.sent = ended.sent;
        }
        Some(ended)
    }
    fn write(&mut self, addr: u64, value: u64) {
        self.0.io.write(addr, Width::Dword, value).ok().expect("the window takes it");
    }
}

pub struct BoardWords([u64; IOAPIC_WORDS], [u64; LAPIC_WORDS]);

impl BoardWords {
    pub fn new() -> Self {
        let mut board = Self([0; IOAPIC_WORDS], [0; LAPIC_WORDS]);
        sillwander_board_new(&mut board.0, &mut board.1);
        board
    }
}

impl Board for BoardWords {
    type Ended = Lines;

    #[inline(always)]
    fn set_level(&mut self, gsi: u64, is_up: bool) -> Option<[u64; 2]> {
        let code = sillwander_board_set_gsi_level(&mut self.0, &mut self.1, gsi, is_up.into());
        (code != 0).then(|| of_two(code))
    }
    #[inline(always)]
    fn accept(&mut self) -> Option<[u64; 1]> {
        byte(sillwander_board_accept_interrupt(&mut self.1))
    }
    #[inline(always)]
    fn eoi(&mut self) -> Option<Lines> {
        Lines::of(sillwander_board_handle_eoi(&mut self.0, &mut self.1))
    }
    fn write(&mut self, addr: u64, value: u64) {
        sillwander_board_handle_write(&mut self.0, &mut self.1, addr, Width::Dword as u64, value);
    }
}

impl<B: Lend<sillwander::EmulatedBoard>> Board for B {
    type Ended = Lines;

    #[inline(always)]
    fn set_level(&mut self, gsi: u64, is_up: bool) -> Option<[u64; 2]> {
        let sent = self.lend(|board| board.set_gsi_level(gsi as usize, is_up));
        sent.map(|sent| [sent.vector.into(), sent.level_triggered.into()])
    }
    #[inline(always)]
    fn accept(&mut self) -> Option<[u64; 1]> {
        self.lend(|board| board.accept_interrupt()).map(|vector| [vector.into()])
    }
    #[inline(always)]
    fn eoi(&mut self) -> Option<Lines> {
        self.lend(|board| board.handle_eoi()).map(Lines::from)
    }
    fn write(&mut self, addr: u64, value: u64) {
        let wrote = self.lend(|board| board.handle_write((addr as usize).into(), Width::Dword.into(), value as usize));
        wrote.expect("the window takes it");
    }
}
