//! The I/O APIC of version 0x20: last spring's lines, a line that is masked while it is served, and what else differs from version 0x11. What is expected is the I/O
//! Controller Hub's EOI register, and the 82093AA's read-only Remote IRR.

use sillwander::{
    EmulatedIoApic, EmulatedIoApic11, EmulatedIoApic20, IoApicEoi, IoApicEois, IoApicInterrupt, IoApicWritten, Locked,
    X86AccessWidth, X86GuestPhysAddr, X86VlapicError,
};

const BASE: usize = 0xfec0_0000;
const VECTOR: u8 = 0x41;
/// The low word of a level entry of that vector, and two bits of it.
const LEVEL: usize = 0x8000 + VECTOR as usize;
const MASKED: usize = 0x1_0000;
const IN_FLIGHT: usize = 0x4000;
const SENT: Option<IoApicInterrupt> = Some(IoApicInterrupt { vector: VECTOR, level_triggered: true });

fn at(offset: usize) -> X86GuestPhysAddr {
    X86GuestPhysAddr::from_usize(BASE + offset)
}

fn eois(cleared: u32, sent: u32) -> Option<IoApicEois> {
    Some(IoApicEois { cleared, sent })
}

/// A new one whose lines are level-triggered with the one vector, and up.
fn held(lines: impl IntoIterator<Item = usize>) -> EmulatedIoApic20 {
    let mut io = EmulatedIoApic20::new_default();
    for gsi in lines {
        assert_eq!(io.handle_write(at(0), X86AccessWidth::Dword, 0x10 + 2 * gsi), Ok(IoApicWritten::Done));
        assert_eq!(window(&mut io, LEVEL), None);
        assert_eq!(io.set_gsi_level(gsi, true), SENT);
    }
    io
}

/// An EOI as the guest's write.
fn written(io: &mut EmulatedIoApic20, value: usize) -> Option<IoApicEois> {
    match io.handle_write(at(0x40), X86AccessWidth::Dword, value).expect("the register takes it") {
        IoApicWritten::Done => None,
        IoApicWritten::Ended(eois) => Some(eois),
        IoApicWritten::Sent(interrupt) => panic!("an EOI's write sent {interrupt:?}"),
    }
}

/// A write of the selected register, and what it sends.
fn window(io: &mut EmulatedIoApic20, value: usize) -> Option<IoApicInterrupt> {
    match io.handle_write(at(0x10), X86AccessWidth::Dword, value).expect("the register takes it") {
        IoApicWritten::Done => None,
        IoApicWritten::Sent(interrupt) => Some(interrupt),
        IoApicWritten::Ended(eois) => panic!("a write of the window ended {eois:?}"),
    }
}

/// Two devices hold their lines and share a vector. In version 0x11 the lower one is sent at each EOI, and the upper one never; in version 0x20 both are.
fn last_spring() {
    let mut old = EmulatedIoApic11::new_default();
    for gsi in [3, 5] {
        assert_eq!(old.handle_write(at(0), X86AccessWidth::Dword, 0x10 + 2 * gsi), Ok(()));
        assert_eq!(old.handle_write(at(0x10), X86AccessWidth::Dword, 0x8041), Ok(()));
        assert_eq!(old.set_gsi_level(gsi, true), SENT);
    }
    let mut io = held([3, 5]);
    for _ in 0..1000 {
        assert_eq!(old.end_of_interrupt(VECTOR), Some(IoApicEoi { gsi: 3, pending: SENT }));
        for answer in [io.end_of_interrupt(VECTOR), written(&mut io, VECTOR.into())] {
            assert_eq!(answer, eois(0x28, 0x28));
            assert!(answer.is_some_and(|eois| eois.sent_lines().eq([3, 5])));
        }
    }
    // The lower device is served, then the upper one.
    assert_eq!(io.set_gsi_level(3, false), None);
    assert_eq!(io.end_of_interrupt(VECTOR), eois(0x28, 0x20));
    assert_eq!(io.set_gsi_level(5, false), None);
    assert_eq!(written(&mut io, 0xffff_ff41), eois(0x20, 0));
    assert_eq!(io.end_of_interrupt(VECTOR), None);
    assert_eq!(written(&mut io, VECTOR.into()), None);
}

fn all_lines() {
    let mut io = held(0..24);
    let answer = io.end_of_interrupt(VECTOR).expect("all are in flight");
    assert_eq!(answer, IoApicEois { cleared: 0xff_ffff, sent: 0xff_ffff });
    assert!(answer.sent_lines().eq(0..24));
    assert!((12..24).all(|gsi| io.set_gsi_level(gsi, false).is_none()));
    let answer = io.end_of_interrupt(VECTOR).expect("all are in flight");
    assert!(answer.cleared_lines().eq(0..24) && answer.sent_lines().eq(0..12));
    assert_eq!(io.end_of_interrupt(VECTOR + 1), None);
}

/// A second interrupt while the first is in flight is deferred, and sent once.
fn put_off() {
    let mut io = held([4]);
    assert_eq!(io.set_gsi_level(4, false), None);
    assert_eq!(io.assert_gsi(4), None);
    assert_eq!(io.end_of_interrupt(VECTOR), eois(0x10, 0x10));
    assert_eq!(io.end_of_interrupt(VECTOR), eois(0x10, 0));
    assert_eq!(io.end_of_interrupt(VECTOR), None);
}

/// A guest with a threaded handler masks the line while it is served, and unmasks it after the EOI. Remote IRR is read-only: the mask leaves it, the EOI clears it, and
/// the unmasking of a line that is still up sends at once.
fn threaded_handler() {
    let mut io = held([4]);
    assert_eq!(window(&mut io, MASKED + LEVEL), None);
    assert_eq!(io.handle_read(at(0x10), X86AccessWidth::Dword), Ok(MASKED + IN_FLIGHT + LEVEL));
    assert_eq!(io.end_of_interrupt(VECTOR), eois(0x10, 0));
    assert_eq!(window(&mut io, LEVEL), SENT);
    assert_eq!(io.handle_read(at(0x10), X86AccessWidth::Dword), Ok(IN_FLIGHT + LEVEL));
    // Unmasked before the EOI: that sends it again, and the unmasking doesn't.
    assert_eq!(window(&mut io, MASKED + LEVEL), None);
    assert_eq!(window(&mut io, LEVEL), None);
    assert_eq!(io.end_of_interrupt(VECTOR), eois(0x10, 0x10));
    // A line that is down is owed nothing; nor is one whose entry is made edge-triggered, which also clears Remote IRR.
    assert_eq!(window(&mut io, usize::from(VECTOR)), None);
    assert_eq!(io.handle_read(at(0x10), X86AccessWidth::Dword), Ok(VECTOR.into()));
    assert_eq!(io.set_gsi_level(4, false), None);
    assert_eq!(window(&mut io, LEVEL), None);
    // Delivery Status, bit 12, can't be written.
    assert_eq!(window(&mut io, 0x1000 + LEVEL), None);
    assert_eq!(io.handle_read(at(0x10), X86AccessWidth::Dword), Ok(LEVEL));
}

fn other_calls() {
    let mut io = EmulatedIoApic::default(); // version 0x20, where none is named
    assert_eq!(io.handle_write(at(0), X86AccessWidth::Dword, 1), Ok(IoApicWritten::Done));
    assert_eq!(io.handle_read(at(0x10), X86AccessWidth::Dword), Ok(0x0017_0020));
    assert_eq!(io.vector_for_gsi(2), None);
    assert!(io.address_range().contains(at(0xfff)) && !io.address_range().contains(at(0x1000)));
    assert_eq!(io.handle_write(at(0x40), X86AccessWidth::Word, 0x41), Err(X86VlapicError::Unsupported));
    assert_eq!(
        io.handle_write(X86GuestPhysAddr::from_usize(BASE - 1), X86AccessWidth::Dword, 0),
        Err(X86VlapicError::InvalidAddress)
    );
    let beyond = EmulatedIoApic20::new(X86GuestPhysAddr::from_usize(1), Some(usize::MAX));
    assert_eq!(beyond.err(), Some(X86VlapicError::InvalidAddress));
    let elsewhere = EmulatedIoApic20::new(X86GuestPhysAddr::from_usize(0x1000), None).expect("it fits");
    assert_eq!(elsewhere.address_range().end, X86GuestPhysAddr::from_usize(0x2000));
    let shared = Locked::new(held([3, 5]));
    assert_eq!(shared.with(|io| io.end_of_interrupt(VECTOR)), eois(0x28, 0x28));

    // In version 0x11 there is no register at 0x40.
    let mut old = EmulatedIoApic11::new_default();
    assert_eq!(old.handle_write(at(0), X86AccessWidth::Dword, 0x16), Ok(()));
    assert_eq!(old.handle_write(at(0x10), X86AccessWidth::Dword, 0x8041), Ok(()));
    assert_eq!(old.set_gsi_level(3, true), SENT);
    assert_eq!(old.handle_write(at(0x40), X86AccessWidth::Dword, 0x41), Ok(()));
    assert_eq!(old.end_of_interrupt(VECTOR), Some(IoApicEoi { gsi: 3, pending: SENT }));
}

fn main() {
    last_spring();
    all_lines();
    put_off();
    threaded_handler();
    other_calls();
    println!("version 0x20: both of last spring's lines were sent at each of 2000 EOIs");
}
