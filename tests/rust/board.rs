//! The board from Rust: one interrupt from its line to its EOI, and what each call answers. What is expected is the SDM's chapter on the APIC (priorities, acceptance, EOI) and
//! the 82093AA's Remote IRR; tests/c/board.c has more, and a model.

use sillwander::{
    EmulatedBoard, IoApicEois, IoApicInterrupt, IoApicWritten, Locked, X86AccessWidth, X86GuestPhysAddr, X86VlapicError,
};

const VECTOR: u8 = 0x41;
const SENT: IoApicInterrupt = IoApicInterrupt { vector: VECTOR, level_triggered: true };
const TPR: usize = 0x80;
const PPR: usize = 0xa0;

fn at(offset: usize) -> X86GuestPhysAddr {
    X86GuestPhysAddr::from_usize(0xfec0_0000 + offset)
}

fn written(board: &mut EmulatedBoard, offset: usize, value: usize) -> IoApicWritten {
    board.handle_write(at(offset), X86AccessWidth::Dword, value).expect("the register takes it")
}

/// A new board with a level entry of the vector for line 3.
fn with_line_3() -> EmulatedBoard {
    let mut board = EmulatedBoard::new();
    assert_eq!(written(&mut board, 0, 0x16), IoApicWritten::Done);
    assert_eq!(written(&mut board, 0x10, 0x8041), IoApicWritten::Done);
    board
}

fn from_line_to_eoi() {
    let mut board = with_line_3();
    board.write_tpr(0x4f);
    assert_eq!((board.read_local(TPR), board.read_local(PPR)), (Ok(0x4f), Ok(0x4f)));
    assert_eq!(board.set_gsi_level(3, true), Some(SENT));
    assert_eq!(board.accept_interrupt(), None); // its class isn't above TPR's
    board.write_tpr(0x30);
    assert_eq!(board.accept_interrupt(), Some(VECTOR));
    assert_eq!(board.read_local(0x120), Ok(2)); // 0x41 is bit 1 of the word from 0x40
    board.receive(0x51, false);
    board.receive(15, true); // dropped
    assert_eq!(board.accept_interrupt(), Some(0x51));
    assert_eq!(board.handle_eoi(), None); // edge-triggered
    assert_eq!(board.handle_read(at(0x10), X86AccessWidth::Dword), Ok(0xc041)); // in flight
    assert_eq!(board.handle_eoi(), Some(IoApicEois { cleared: 8, sent: 8 }));
    assert_eq!(board.accept_interrupt(), Some(VECTOR));
    assert_eq!(board.set_gsi_level(3, false), None);
    assert_eq!(board.handle_eoi(), Some(IoApicEois { cleared: 8, sent: 0 }));
    assert_eq!((board.handle_eoi(), board.accept_interrupt()), (None, None));
}

fn writes() {
    let mut board = with_line_3();
    assert_eq!(written(&mut board, 0x10, 0x18041), IoApicWritten::Done); // masked
    assert_eq!(board.set_gsi_level(3, true), None);
    assert_eq!(written(&mut board, 0x10, 0x8041), IoApicWritten::Sent(SENT));
    assert_eq!(board.accept_interrupt(), Some(VECTOR));
    assert_eq!(written(&mut board, 0x40, 0x141), IoApicWritten::Ended(IoApicEois { cleared: 8, sent: 8 }));
    assert_eq!(written(&mut board, 0x40, 0x42), IoApicWritten::Done);
    for width in [X86AccessWidth::Byte, X86AccessWidth::Word] {
        assert_eq!(board.handle_write(at(0), width, 0), Err(X86VlapicError::Unsupported));
    }
    let below = X86GuestPhysAddr::from_usize(0xfebf_ffff);
    assert_eq!(board.handle_write(below, X86AccessWidth::Qword, 0), Err(X86VlapicError::InvalidAddress));
    assert_eq!(board.read_local(0x84), Err(X86VlapicError::InvalidInput));
}

/// Vectors 16 to 31 are like all others, the highest first.
fn low_vectors() {
    let mut board = EmulatedBoard::default();
    (16..32).for_each(|vector| board.receive(vector, false));
    for vector in (16..32).rev() {
        assert_eq!((board.accept_interrupt(), board.accept_interrupt(), board.handle_eoi()), (Some(vector), None, None));
    }
}

fn main() {
    from_line_to_eoi();
    writes();
    low_vectors();
    let locked = Locked::new(with_line_3());
    assert_eq!(locked.with(|board| board.set_gsi_level(3, true)), Some(SENT));
    println!("a board from Rust: line, acceptance, EOI, TPR, writes and messages as expected");
}
